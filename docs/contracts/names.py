"""The names in code type of some pages, looked for in the sources, and the values of the constants among them."""
import re
from functools import cache

from .calls import CLAUSE, blocks_of, calls_of, name_of, types_of
from .crates import ROOT, brought, crates, files_of, text_of
from .page import libraries

NAMED = ("PROMISES", "ARCHITECTURE", "TRUST", "LIMITS", "DECISIONS", "READING")
PAGES = ("CONTRIBUTING.md", *(f"docs/{page}.md" for page in NAMED))
CODE = re.compile(r"`(\w+(?:(?:::|/)[\w.]+)*)`")
OF_CRATE = re.compile(r"`(\w+)` of `(mum_\w+)`")
CONSTANT = re.compile(r"\bconst ([A-Z][A-Z_]+): \w+ = (\w+);")
LISTED = re.compile(r"^([A-Z][A-Z_]+) = ", re.MULTILINE)
DECLARED = re.compile(
    r"\b(?:fn|struct|enum|trait|type|mod|const|static|ghost|pub(?: \w+)*?) ([\w']+)\b(?= *(?:[:(;={<]|$))", re.MULTILINE
)


@cache
def declared(crate):
    """The names that the files of a crate declare, bring or quote, and those of the files."""
    names = {crate, "crates", "src", "specs", "proofs"}
    for path in [*files_of(crate), *files_of(crate, "specs", "antt"), *files_of(crate, "proofs", "antt")]:
        text = text_of(path)
        names.update((path.stem, path.name), brought(path), DECLARED.findall(text), re.findall(r'"(\w+)"', text))
        names.update(re.findall(r"(\w+) for \w", text), (label.strip() for _, label in CLAUSE.findall(text)))
    return names.union(*(of.variants for of in types_of(crate).values()))


@cache
def members():
    """The types and traits of all crates, each with the names in its blocks and its variants."""
    found = {}
    for crate in crates():
        for name, of in types_of(crate).items():
            found.setdefault(name, set()).update(of.variants)
        for path in files_of(crate):
            text = text_of(path)
            for kind, header, _, start, end in blocks_of(text):
                inside = re.findall(r"\b(?:fn|const|ghost) (\w+)", text[start:end])
                for name in filter(None, name_of(kind, header)):
                    found.setdefault(name, set()).update(inside)
    return found


def is_known(code, known):
    """Whether each name of a path is among these, and the last is one of its type where a type is before it."""
    *_, of_type, name = ["", *re.split("::|/", code)]
    return all(part in known for part in re.split("::|/", code)) and name in members().get(of_type, {name})


def scripted():
    """The names of the tables of cases, and of what the scripts behind cases and pages list."""
    tables = {path.name for path in (ROOT / "cases").glob("*/*")}
    scripts = [*(ROOT / "cases").glob("*/*.py"), *(ROOT / "docs").glob("*/*.py")]
    return tables.union(*(LISTED.findall(path.read_text(encoding="utf-8")) for path in scripts))


def unknown_names():
    """The names that no source has, or not the crate of which a page says that it has them."""
    every = set(re.findall(r"\w+", (ROOT / "crates.txt").read_text(encoding="utf-8"))).union(*map(declared, crates()))
    every |= scripted()
    for page in PAGES:
        for number, line in enumerate((ROOT / page).read_text(encoding="utf-8").splitlines(), 1):
            for code in CODE.findall(line):
                if not (ROOT / code).exists() and not is_known(code, every):
                    yield f"{page}:{number}: no source has {code}"
            for name, crate in OF_CRATE.findall(line):
                if name not in declared(crate):
                    yield f"{page}:{number}: {crate} has no {name}"


def unnamed_laws():
    """The laws that docs/PROMISES.md does not name; what shows that a type may go to another thread is none."""
    named = set(CODE.findall((ROOT / "docs/PROMISES.md").read_text(encoding="utf-8")))
    for crate in libraries():
        for call in calls_of(crate):
            if call.shows and call.file.stem != "crossing" and call.name not in named:
                yield f"docs/PROMISES.md: it does not name {call.name} of {crate}"


@cache
def constants():
    """The numbers that the constants of the crates have, by the names of these."""
    found = {}
    for crate in crates():
        for path in files_of(crate) if "tests" not in crate else ():
            for name, value in CONSTANT.findall(text_of(path)):
                if re.fullmatch(r"\d[\da-fA-FxX_]*", value):
                    found.setdefault(name, set()).add(int(value, 0))
    return found


def forms_of(number):
    """How a page may write a number."""
    forms = {f"{number:,}", str(number)}
    for unit, size in (("seconds", 1000), ("KiB", 1 << 10), ("kB", 1 << 10), ("MiB", 1 << 20)):
        if number % size == 0:
            forms.add(f"{number // size} {unit}")
    return forms


def wrong_values():
    """The constants that a line of docs/LIMITS.md names without their numbers."""
    for number, line in enumerate((ROOT / "docs/LIMITS.md").read_text(encoding="utf-8").splitlines(), 1):
        for name in re.findall(r"`([A-Z][A-Z_]+)`", line):
            forms = [form for value in constants().get(name, ()) for form in forms_of(value)]
            if forms and not any(re.search(rf"(?<![\d,]){form}(?![\d,]*\d)", line) for form in forms):
                yield f"docs/LIMITS.md:{number}: {name} is {' or '.join(sorted(forms))}"
