"""What a call may answer, by its signature, its clauses and the definitions that they cite."""
import re
from functools import cache

from .calls import types_of
from .crates import CRATES, brought, crate_of, text_of

DEFINITION = re.compile(r"^ *(?:abbrev|unfoldable)? *(?:pub )(?:\w+ )*?([\w']+) :", re.MULTILINE)
PLAIN = re.compile(r"\w+: &?(?:\[\w+\]|str|bool|[iu]\w+)(?:, )?")
REFUSALS = {"OnErr", "IfErr", "MatchResult", "Err"}
OUT_OF_MEMORY = "OutOfMemory"


@cache
def definitions_of(path):
    """The definitions of a file of specs/, each with its text."""
    text = text_of(path)
    found = list(DEFINITION.finditer(text))
    ends = [match.start() for match in found[1:]] + [len(text)]
    return {match.group(1): text[match.start():end] for match, end in zip(found, ends)}


def home_of(module):
    """The file of a module of specs/, if it is one of this repository."""
    parts = module.split(".")
    if len(parts) < 4 or parts[0] != "Rattle" or parts[2] != "specs":
        return None
    path = (CRATES / parts[1] / "specs").joinpath(*parts[3:]).with_suffix(".antt")
    return path if path.exists() else None


def cited(path, text, depth, seen=None):
    """The words of a text and of the definitions that it cites, as one comes to them, each with its module."""
    seen = set() if seen is None else seen
    for word in re.findall(r"[\w']+", text):
        module = brought(path).get(word, "")
        yield word, module
        home = home_of(module) or (path if word in definitions_of(path) else None)
        if depth and home and (home, word) not in seen:
            seen.add((home, word))
            yield from cited(home, definitions_of(home).get(word, ""), depth - 1, seen)


def enum_of(path, name):
    """The crate and the variants of an enum that a file names, or None."""
    start = brought(path).get(name, "crate")
    crate = crate_of(path) if start.startswith("crate") else start.split("::")[0]
    found = types_of(crate).get(name)
    return (crate, found.variants) if found and found.kind == "enum" else None


def parts_of(given):
    """The name of a type and its arguments."""
    name, _, rest = given.partition("<")
    parts, depth = [""], 0
    for letter in rest.rpartition(">")[0]:
        depth += (letter in "<([") - (letter in ">)]")
        if letter == "," and depth == 0:
            parts.append("")
        else:
            parts[-1] += letter
    return name.strip().split("::")[-1], [part.strip() for part in parts if part.strip()]


def split(signature):
    """What a function is given, and the type of its answer."""
    given, arrow, answer = re.sub(r"\s+", " ", signature).rpartition(") -> ")
    return given.partition("(")[2], answer.partition(" where ")[0].strip() if arrow else ""


def is_in_place(call):
    """Whether a call takes no memory, though the type of its faults has a case for it: a clause says so, or all that it
    is given are numbers and slices."""
    given, _ = split(call.signature)
    return any("SettlesInPlace" in clause.text for clause in call.clauses) or not PLAIN.sub("", given)


def named(call, fault, variants):
    """The variants of a fault that the clauses of a call come to."""
    ending, found = f".{fault}.TheVariants", {}
    for clause in call.clauses:
        for word, module in cited(call.file, clause.text, 9):
            if module.endswith(ending) and word in variants and word != OUT_OF_MEMORY:
                found[word] = True
    return list(found)


def answers_of(call):
    """What a call may answer, in words of code, and whether memory may run out."""
    name, inner = parts_of(split(call.signature)[1])
    words, memory = [], False
    if name == "Result" and len(inner) == 2:
        fault = parts_of(inner[1])[0]
        enum = enum_of(call.file, fault)
        if enum:
            memory = OUT_OF_MEMORY in enum[1] and not is_in_place(call)
            words = named(call, fault, enum[1]) or [fault]
        elif fault in (OUT_OF_MEMORY, "AllocError"):
            memory = True
        else:
            words = [fault if fault in {**brought(call.file), **types_of(crate_of(call.file))} else "Err"]
        name, inner = parts_of(inner[0])
    if name == "Option":
        words.append("None")
        name = parts_of(inner[0])[0]
    enum = enum_of(call.file, name)
    if enum and name not in call.name.split("::")[:-1]:
        words.append(name)
    return words, memory


def leaves(call, clause, may_be_none):
    """Whether a clause says what a call leaves where it is refused."""
    words = REFUSALS | {"None"} if may_be_none else REFUSALS
    return ".new" in clause.text and any(word in words for word, _ in cited(call.file, clause.text, 2))
