"""A run over tables: each line is compared, and each that differs is shown with both sides."""
import os
import sys
from concurrent.futures import ThreadPoolExecutor
from pathlib import Path

from . import (answers, checks, command_words, conversation, difference, documents, exercise, journals, pages, pictures,
               program, question, rights, script, stories, suspicious)
from .table import Case, NoCase, case_of, lines_of

CASES = Path(__file__).resolve().parents[1]

# who answers the questions of the tables in each folder, and of a table that is not like those beside it
ANSWERS = {
    "decisions": answers.answer, "notices": answers.answer, "routes": answers.answer,
    "conversations/client": conversation.answer, "words": command_words.answer,
    "configurations/faults": documents.fault, "configurations/documents": documents.seen,
    "recordings/replay": script.replayed, "recordings/steps": script.stepped, "recordings/frames": script.framed,
    "recordings/connections": script.connected, "recordings/lines": script.line_told,
    "recordings/journals": journals.answer, "recordings/redactions": journals.kept_secret,
    "recordings/exercises": exercise.answer,
    "recordings/pictures": pictures.answer, "recordings/stories": stories.answer,
    "configurations/sizes": documents.counted, "configurations/examples": documents.example,
    "configurations/rights": rights.answer, "configurations/suspicious": suspicious.answer,
    "configurations/differences": difference.answer, "configurations/checks": checks.answer,
    "configurations/pages": pages.answer, "configurations/questions": question.answer,
}


class NoTable(Exception):
    """A table that is named and is not there."""


def tables_of(names):
    """The files of the tables that are named, or of all."""
    if names:
        return [path_of(name) for name in names]
    folders = sorted({name.split("/")[0] for name in ANSWERS})
    return sorted(path for folder in folders for path in (CASES / folder).iterdir() if not path.suffix)


def answer_of(path):
    """Who answers the questions of a table."""
    name = f"{path.parent.name}/{path.name}"
    return ANSWERS.get(name) or ANSWERS.get(path.parent.name)


def path_of(name):
    """The file of a table, which is named by its folder and its name, from here or from the top."""
    path = CASES / name.removeprefix("cases/")
    if not answer_of(path) or not path.is_file():
        raise NoTable(f"no table {name}")
    return path


def given_by(path, number, line):
    """A case and what the program gives for it; the case is None where the line is none."""
    table = f"{path.parent.name}/{path.name}"
    try:
        case = case_of(table, number, line)
    except NoCase as error:
        return Case(table, number, line[:60], "", ""), f"error: {error}"
    try:
        return case, answer_of(path)(case.question)
    except NoCase as error:
        return case, f"error: {error}"
    except Exception as error:  # a line must never end the run: what went wrong is its answer
        return case, f"error: {type(error).__name__} {error}"


def show(case, given):
    """Prints a case that differs."""
    print(f"WRONG {case.table} line {case.line}: {case.name}: {case.question}")
    print(f"  given  {given}")
    print(f"  wanted {case.answer}")


def compare(path, pool):
    """Compares a table, and gives how many cases it has and how many differ."""
    lines = list(lines_of(path))
    wrong = 0
    for case, given in pool.map(lambda line: given_by(path, *line), lines):
        if given != case.answer:
            wrong += 1
            show(case, given)
    return len(lines), wrong


def compare_all(paths):
    """Compares tables, prints the count of each and of all, and gives the status."""
    compared = wrong = 0
    with ThreadPoolExecutor(os.cpu_count()) as pool:
        for path in paths:
            cases, differ = compare(path, pool)
            print(f"{path.parent.name}/{path.name}: {cases} cases")
            compared, wrong = compared + cases, wrong + differ
    print(f"{compared} cases compared, {wrong} wrong")
    return 0 if compared and not wrong else 1


def main(words, usage):
    """Runs the tables that are named."""
    if any(word.startswith("-") for word in words):
        print(usage.strip(), file=sys.stderr)
        return 2
    try:
        program.path_of_program()
        paths = tables_of(words)
    except (program.NoProgram, NoTable) as error:
        print(f"cases/run: {error}", file=sys.stderr)
        print("0 cases compared, 0 wrong")
        return 1
    return compare_all(paths)
