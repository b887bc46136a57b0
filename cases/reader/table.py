"""Tables of cases: a text with one case a line, `NAME: QUESTION = ANSWER`."""
from dataclasses import dataclass


@dataclass(frozen=True)
class Case:
    """A line of a table: what it shows, what it asks, and what it is to be answered by."""
    table: str
    line: int
    name: str
    question: str
    answer: str


class NoCase(Exception):
    """A line that is no case, or asks for what the reader does not know."""


def case_of(table, number, line):
    """The case that a line is. A name ends at the first `: `, and a question at the first ` = ` behind it."""
    name, colon, rest = line.partition(": ")
    question, equals, answer = rest.partition(" = ")
    if not colon:
        raise NoCase("a line has the form NAME: QUESTION = ANSWER")
    if not equals:
        if not rest.endswith(" ="):
            raise NoCase("a line has the form NAME: QUESTION = ANSWER")
        question = rest.removesuffix(" =")
    return Case(table, number, name, question, answer)


def lines_of(path):
    """The lines of a table with their numbers, but for comments and empty lines."""
    text = path.read_text(encoding="utf-8")
    for number, line in enumerate(text.split("\n"), 1):
        if line and not line.startswith("#"):
            yield number, line
