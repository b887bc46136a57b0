"""The numbers of pages that no script knows, but for those of free.txt.

A number has a source where it is in a sentence that is compared, or where its line names a constant that has it. 0 and
1 need none, nor do numbers in code, in links and before the points of lists. free.txt has the others that need none:
below `== everywhere` patterns, and below the name of a page words of it. Of bench/page.txt, from which bench/README.md
is written, a number in braces has a source; what was run and what the goals are need none.
"""
import re

from contracts.names import constants, forms_of

from .files import pages, text_of
from .said import lists_of

# Pages that a script writes, or whose numbers another compares.
ELSEWHERE = ("bench/README.md", "docs/CALLS.md", "docs/TRUST.md")
BENCHES = "bench/page.txt"
# Of its rows the names of scripts with what they measure, and all cells of a goal but that of what was measured.
RUN = (re.compile(r"^\| `bench/.*$", re.MULTILINE), re.compile(r"^\|[^|]*\|[^|]*\|(?=.*\{when\} \|$)", re.MULTILINE),
       re.compile(r"[^|]*\| \{when\} \|$", re.MULTILINE), re.compile(r"\{[^{}]*\}"))
NUMBER = re.compile(r"(?<![\w.,])\d(?:[\d,.]*\d)?(?:\^\d+)?")
CODE = (re.compile(r"^```.*?^```", re.MULTILINE | re.DOTALL), re.compile(r"^    .*$", re.MULTILINE),
        re.compile(r"`[^`\n]*`"), re.compile(r"\]\([^)\s]+\)"), re.compile(r"^\d+\. ", re.MULTILINE),
        re.compile(r"^Layer \d+:$", re.MULTILINE))


def marked(text, spans):
    """The places of a text that are in one of these spans."""
    places = bytearray(len(text))
    for start, end in spans:
        places[start:end] = b"\1" * (end - start)
    return places


def occurrences(words, text):
    """Where some words begin in a text."""
    return (match.start() for match in re.finditer(re.escape(words), text))


def of_constants(text):
    """The numbers of a text that are those of constants that their lines name."""
    start = 0
    for line in text.splitlines(keepends=True):
        for name in re.findall(r"`([A-Z][A-Z_]+)`", line):
            for form in (form for value in constants().get(name, ()) for form in forms_of(value)):
                yield from ((start + match.start(), start + match.end())
                            for match in re.finditer(rf"(?<![\d,]){form}(?![\d,]*\d)", line))
        start += len(line)


def known_spans(page, text, sentences):
    """The spans of a page whose numbers have a source or need none."""
    patterns = (*CODE, *RUN) if page == BENCHES else CODE
    yield from ((match.start(), match.end()) for pattern in patterns for match in pattern.finditer(text))
    yield from ((at + start, at + end) for one in sentences if one.page == page
                for at in occurrences(one.text, text) for start, end in one.spans)
    yield from of_constants(text)
    for heading, words in lists_of("free.txt"):
        if heading == "everywhere":
            yield from ((match.start(), match.end()) for match in re.finditer(words, text))
        elif heading == page:
            yield from ((at, at + len(words)) for at in occurrences(words, text))


def unsourced(sentences):
    """What is wrong with the numbers of pages, and with the words of free.txt."""
    for page in (BENCHES, *(page for page in pages() if page not in ELSEWHERE)):
        text = text_of(page)
        known = marked(text, known_spans(page, text, sentences))
        for match in NUMBER.finditer(text):
            if match[0] not in ("0", "1") and not all(known[match.start():match.end()]):
                line = text.count("\n", 0, match.start()) + 1
                around = text[max(0, match.start() - 30):match.end() + 30].replace("\n", " ")
                yield f"{page}:{line}: nothing compares {match[0]}: {around}"
    for heading, words in lists_of("free.txt"):
        if heading != "everywhere" and words not in text_of(heading):
            yield f"docs/sources/free.txt: {heading} has no '{words}'"
