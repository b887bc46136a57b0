"""The page of all public calls."""
from .answers import answers_of, leaves
from .calls import calls_of, implemented, types_of
from .crates import CRATES, crates

HEAD = """# Every public call

`docs/calls` writes this page from the sources, and the gate compares it with them. A line has the calls of a crate of \
which the contracts have the same form:

- In brackets is what refuses a call, in the order of the cases in the definitions; `None`, `OutOfMemory`; and \
the type of the answer where that is one of several cases.
- Behind the colon are the labels of the clauses; an `ensures` without a label is named only in bold. Of a call that \
could change something, those in bold say what it leaves where it is refused or memory ran out; where the answer is one \
of several cases, each clause does.
- *May wait*: a signature or that of its block carries `Wait`, so the call may wait for other threads, and ensures what \
it does where it returns. Every other call returns; one of a trait may wait where the type that implements it carries \
`Wait`.

[PROMISES](PROMISES.md) has the laws. A type that implements a trait of this page has its calls and their contracts.
"""


def libraries():
    """The libraries of crates.txt but those of tests, in its order."""
    return [name for name in crates() if "tests" not in name and (CRATES / name / "src" / "lib.rt").exists()]


def listed(words):
    """Words in code type."""
    return ", ".join(f"`{word}`" for word in words)


def row_of(call):
    """What a line says of a call: whether it may wait, its answers, and its clauses."""
    words, memory = answers_of(call)
    refusable = (words or memory) and "mut " in call.signature
    required = listed(clause.label for clause in call.clauses if clause.kind == "requires")
    ensured = ", ".join(
        f"**`{clause.label}`**" if refusable and leaves(call, clause, "None" in words) else f"`{clause.label}`"
        for clause in call.clauses
        if clause.kind == "ensures"
    )
    required = f"requires {required}" if required not in ("", "`requires`") else "requires" * bool(required)
    clauses = "; ".join(part for part in (required, ensured) if part not in ("", "`ensures`"))
    answers = listed([*words, *["OutOfMemory"] * memory])
    return " *may wait*" * call.waits + f" ({answers})" * bool(answers), clauses


def section_of(crate, traits):
    """The part of the page on a crate: its calls, those without a contract, and the traits that its types implement."""
    rows, bare = {}, {}
    for call in calls_of(crate):
        if not call.shows:
            (rows.setdefault(row_of(call), {}) if call.clauses else bare)[call.name] = True
    lines = "".join(
        f"- {listed(names)}{answers}" + f": {clauses}" * bool(clauses) + "\n"
        for (answers, clauses), names in rows.items()
    )
    parts = [lines] if lines else []
    parts += [f"Without a contract: {listed(bare)}.\n"] if bare else []
    found = implemented(crate, traits)
    parts += ["Implemented: " + "; ".join(f"`{trait}` for {listed(found[trait])}" for trait in found) + ".\n"] * bool(found)
    return "".join(f"\n{part}" for part in [f"## `{crate}`\n", *parts] if parts)


def page():
    """The page."""
    traits = {name for crate in libraries() for name, of in types_of(crate).items() if of.kind == "trait"}
    return HEAD + "".join(section_of(crate, traits) for crate in libraries())
