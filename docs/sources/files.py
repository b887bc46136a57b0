"""The files of the repository, and the numbers that its sources give names."""
import re
import subprocess
from functools import cache
from pathlib import Path

TOP = Path(__file__).resolve().parent.parent.parent
CONSTANT = r"\bconst %s: [\w<>]+ = (?:\w+(?: \{ code: |\())?([\dA-Fa-fx_]+)(?: \}|\))?;"
CODE = r"^\w*(?:code|status) \(?%s\b.*= (?:Some )?(\d+)$"
LINE = r"\"murmur: (\d+) %s\\n\""


@cache
def text_of(name):
    """The text of a file."""
    return (TOP / name).read_text(encoding="utf-8")


@cache
def pages():
    """The names of all pages."""
    listed = subprocess.run(["git", "-C", TOP, "ls-files", "*.md"], capture_output=True, text=True, check=True)
    return listed.stdout.split()


def found_in(crate, folder, pattern):
    """The number that the first file of a crate with a pattern has there; CRATE/FILE is of that file alone."""
    crate, _, file = crate.partition("/")
    for path in sorted((TOP / f"crates/mum_{crate}" / folder).rglob(f"{file or '*'}.*")):
        found = re.search(pattern, path.read_text(encoding="utf-8"), re.MULTILINE)
        if found:
            return int(found[1].replace("_", ""), 0)
    return None


@cache
def constant(crate, name):
    """The number that a crate gives a constant."""
    number = found_in(crate, "src", CONSTANT % name)
    if number is None:
        raise SystemExit(f"docs/figures: mum_{crate} has no {name}")
    return number


@cache
def code(crate, name):
    """The number under which a crate reports a fault, a denial or an end."""
    for folder, pattern in (("specs", CODE), ("src", LINE), ("src", CONSTANT)):
        number = found_in(crate, folder, pattern % name)
        if number is not None:
            return number
    raise SystemExit(f"docs/figures: mum_{crate} has no code of {name}")


def permission(name):
    """The number of a permission, by its name in pages."""
    return constant("base", re.sub(r"(?<!^)(?=[A-Z])", "_", name).upper())
