"""The types and the public calls that the sources declare, with their contracts."""
import re
from collections import namedtuple
from functools import cache

from .crates import CRATES, files_of, module_of, text_of

FUNCTION = re.compile(r"^( *)(pub )?(?:final )?fn (\w+)", re.MULTILINE)
BLOCK = re.compile(r"^( *)(?:pub )?(impl|trait)\b([^{]*){", re.MULTILINE)
CLAUSE = re.compile(r"\b(requires|ensures)\*?\s+(\w+ )?\{")
END = re.compile(r"{|;(?! *\w+\])")
TYPE = re.compile(r"^pub (struct|enum|trait|type) (\w+)(?:<[^{]*>)?[^{;]*({?)", re.MULTILINE)
VARIANT = re.compile(r"^    ([A-Z]\w*)", re.MULTILINE)
OFFER = re.compile(r"^pub use [\w:]+::(?:\{([^}]*)\}|(\w+));", re.MULTILINE)

# a function: its file, its name with its type, its signature without the contract, whether it or its block carries
# Wait, its clauses, and whether it only shows something
Call = namedtuple("Call", "file name signature waits clauses shows")
Clause = namedtuple("Clause", "kind label text")

# a type: what it is, its file, and its variants if it is an enum
Type = namedtuple("Type", "kind file variants")


@cache
def types_of(crate):
    """The types that a crate declares, by their names."""
    found = {}
    for path in files_of(crate):
        text = text_of(path)
        for match in TYPE.finditer(text):
            kind, name, opened = match.groups()
            body = text[match.end():text.find("\n}", match.end())] if opened and kind == "enum" else ""
            found[name] = Type(kind, path, VARIANT.findall(body))
    return found


@cache
def offered(crate):
    """The public modules of a crate, and the names that they offer from others."""
    modules, names = set(), set()

    def enter(module):
        text = text_of((CRATES / crate / "src").joinpath(*(module or ("lib",))).with_suffix(".rt"))
        modules.add(module)
        for several, one in OFFER.findall(text):
            names.update(name.strip() for name in (several or one).split(","))
        for inner in re.findall(r"^pub mod (\w+);", text, re.MULTILINE):
            enter((*module, inner))

    enter(())
    return modules, names


def is_public(crate, name, path):
    """Whether an item of a file of a crate is offered to others."""
    modules, names = offered(crate)
    return name in names or module_of(path) in modules


def after_brackets(text, start, brackets):
    """Where the brackets end that open at a place of a text."""
    depth = 0
    for place in range(start, len(text)):
        depth += (text[place] == brackets[0]) - (text[place] == brackets[1])
        if depth == 0:
            return place + 1
    return len(text)


def contract_of(text, start):
    """The signature of the function that begins at a place of a text, its clauses, and where its body begins."""
    signature, clauses = "", []
    while True:
        clause, end = CLAUSE.search(text, start), END.search(text, start)
        if clause is None or end is None or end.start() < clause.start():
            body = end.start() if end else len(text)
            return signature + text[start:body], clauses, body
        signature += text[start:clause.start()]
        start = after_brackets(text, clause.end() - 1, "{}")
        kind, label = clause.group(1), (clause.group(2) or clause.group(1)).strip()
        clauses.append(Clause(kind, label, text[clause.end():start - 1]))


def blocks_of(text):
    """The blocks of a text: for each its first word, what follows up to its brace, and what up to its first function;
    and where it begins and ends."""
    for block in BLOCK.finditer(text):
        end = text.find(f"\n{block.group(1)}}}", block.start())
        first = FUNCTION.search(text, block.start())
        head = text[block.start():first.start()] if first else ""
        yield block.group(2), block.group(3), head, block.start(), end


def name_of(kind, header):
    """The type or the trait of a block, by what follows the word `impl` or `trait`; and the trait of an impl."""
    header = header.strip()
    if kind == "impl" and header.startswith("<"):
        header = header[after_brackets(header, 0, "<>"):]
    found = re.match(r"\s*(?:[\w:]*?(\w+)(?:<.*?>)? for )?(\w+)", header, re.DOTALL)
    return (found.group(2), found.group(1)) if found else ("", None)


def calls_of(crate):
    """The public functions of a crate."""
    for path in files_of(crate):
        text = text_of(path)
        blocks = list(blocks_of(text))
        for function in FUNCTION.finditer(text):
            around = [block for block in blocks if block[3] < function.start() < block[4]]
            kind, header, head, *_ = around[-1] if around else ("", "", "")
            of_type, of_trait = name_of(kind, header)
            if of_trait or not (function.group(2) or kind == "trait"):
                continue
            name, home = function.group(3), types_of(crate)[of_type].file if of_type in types_of(crate) else path
            if is_public(crate, of_type or name, home):
                signature, clauses, body = contract_of(text, function.start())
                does_nothing = bool(clauses) and not of_type and text.startswith("{}", body)
                shows = does_nothing or not {"laws", "crossing"}.isdisjoint(module_of(path))
                full = f"{of_type}::{name}" if of_type else name
                yield Call(path, full, signature, "Wait" in signature + head, clauses, shows)


def implemented(crate, traits):
    """The traits, of these, that public types of a crate implement, each with these types."""
    found = {}
    for path in files_of(crate):
        for kind, header, *_ in blocks_of(text_of(path)):
            of_type, of_trait = name_of(kind, header)
            home = types_of(crate).get(of_type)
            if of_trait in traits and home and is_public(crate, of_type, home.file):
                found.setdefault(of_trait, {})[of_type] = True
    return found
