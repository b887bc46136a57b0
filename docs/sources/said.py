"""What pages say of numbers that the sources or measurements have: the sentences of said.txt.

Below the name of a page each line is a sentence of it, in which a number stands in brackets or braces:

    [CRATE NAME]                 the constant of a crate; with a unit behind it (KiB, MiB, MB, seconds) in that unit
    [code CRATE NAME]            the number under which a crate reports something
    [sum NAME ..], [bits NAME ..]   permissions together, with the thousands set apart and without
    {NAME #PLACE FUNCTION}       what was measured, as bench/measurements.py says; {about 10: ..} rounded to tens
"""
import re
import sys
from typing import NamedTuple

from .files import TOP, code, constant, permission, text_of

sys.path[:0] = [str(TOP / "bench")]
from measurements import Page, stored  # noqa: E402

NUMBER = re.compile(r"\[((?:code|sum|bits)(?= )|[a-z_]+(?= [A-Z])) ([\w/ ]+)\](?!\()|\{([^{}]+)\}")
UNITS = {"KiB": 1 << 10, "MiB": 1 << 20, "MB": 10**6, "seconds": 1000}


class Sentence(NamedTuple):
    """Words of a page, and where in them numbers have a source."""

    page: str
    text: str
    spans: list


def whole(page, text):
    """A sentence all of whose numbers are computed."""
    return Sentence(page, text, [(0, len(text))])


def of_source(kind, names):
    """The number that a bracket names."""
    if kind == "sum":
        return f"{sum(map(permission, names.split())):,}"
    if kind == "bits":
        return str(sum(map(permission, names.split())))
    if kind == "code":
        return str(code(*names.split()))
    name, _, unit = names.partition(" ")
    return f"{constant(kind, name) // UNITS.get(unit, 1):,}"


def of_measured(said, measured):
    """The number that a brace names."""
    rounded = re.match(r"about (\d+): ", said)
    if not rounded:
        return measured.value(said)
    step = int(rounded[1])
    return f"{round(float(measured.value(said[rounded.end():]).replace(',', '')) / step) * step:,}"


def sentence(page, line, measured):
    """A sentence with its numbers."""
    text, spans, end = "", [], 0
    for match in NUMBER.finditer(line):
        text += line[end:match.start()]
        number = of_measured(match[3], measured) if match[3] else of_source(match[1], match[2])
        spans.append((len(text), len(text) + len(number)))
        text += number
        end = match.end()
    return Sentence(page, text + line[end:], spans)


def lists_of(name):
    """The lines of a list, each with the heading `== HEADING` above it."""
    heading = ""
    for line in text_of(f"docs/sources/{name}").splitlines():
        if line.startswith("== "):
            heading = line[3:]
        elif line and not line.startswith("#"):
            yield heading, line


def sentences():
    """All sentences of said.txt."""
    measured = Page(stored())
    return [sentence(page, line, measured) for page, line in lists_of("said.txt")]
