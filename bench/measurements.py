"""What was measured last, in bench/measured.txt, and how pages name its numbers.

A line of the file is NAME | VALUES | UNIT | DATE | MACHINE | COMMIT | BESIDE: the values as they were printed, one
space between two of them; the commit has a + where the checkout was changed, and says so where the program was not
proved; `-` is what nobody wrote down. A page names numbers of these in braces:

    {NAME}              the one value of a measurement
    {NAME #2}           its second; NAME may have a * for any words
    {NAME #2 span}      the least to the greatest of them; also least, most, middle, sum and all
    {NAME #2/1 most}    the same of the quotients of two values
    {each NAME}         of all measurements `NAME: LABEL` the labels with their values
    {met: A <= N and B <= M}    met or missed, A and B written as above
    {when}              the last of the dates of what the line names, and whether its program was unproved
"""
import os
import re
import subprocess
from datetime import date
from fnmatch import fnmatchcase
from pathlib import Path
from typing import NamedTuple

TOP = Path(__file__).resolve().parent.parent
FILE = TOP / "bench/measured.txt"
HEAD = "# NAME | VALUES | UNIT | DATE | MACHINE | COMMIT | BESIDE: see bench/measurements.py"
NAMED = re.compile(r"\{([^{}]+)\}")


class Measurement(NamedTuple):
    """Numbers that were measured in one run, as texts, and where."""

    values: list
    unit: str
    date: str
    machine: str
    commit: str
    beside: str


def stored(path=FILE):
    """All measurements, by their names."""
    found = {}
    for line in path.read_text(encoding="utf-8").splitlines():
        if line and not line.startswith("#"):
            name, values, *others = (part.strip() for part in line.split("|"))
            if name in found or len(others) != 5 or not all(map(is_number, values.split())):
                raise ValueError(f"{path.name}: {line}")
            found[name] = Measurement(values.split(), *others)
    return found


def is_number(text):
    """Whether a value is a number, and no thousands are set apart in it."""
    return re.fullmatch(r"-?\d+(\.\d+)?", text) is not None


def store(measurements, path=FILE):
    """Writes all measurements."""
    lines = (" | ".join((name, " ".join(it.values), *it[1:])) for name, it in measurements.items())
    path.write_text("\n".join((HEAD, *lines)) + "\n", encoding="utf-8")


class Notes:
    """What a script measured so far: values that it notes under one name come one behind the other. A script that is
    given --write, which is taken from its words, puts them into the file at its end."""

    def __init__(self, words=()):
        self.program, self.found, self.dropped = os.environ.get("MURMUR", ""), {}, ""
        self.is_asked = "--write" in words
        if self.is_asked:
            words.remove("--write")

    def note(self, name, unit, *values, beside="-"):
        """Adds values to those of a name; of a float, three digits that count."""
        kept = self.found.setdefault(name, ([], unit, beside))
        kept[0].extend(f"{value:.3g}" if isinstance(value, float) and abs(value) < 1000 else
                       f"{value:.0f}" if isinstance(value, float) else str(value) for value in values)

    def replace(self, pattern):
        """What has such a name goes, so that only what is noted now has one."""
        self.dropped = pattern

    def end(self):
        """Writes them where that was asked."""
        if self.is_asked:
            self.write()

    def write(self):
        """Puts them into the file, in the places of what has their names, or at its end."""
        measurements = {name: it for name, it in stored().items() if not fnmatchcase(name, self.dropped)}
        unproved = ", unproved" if "unproved" in self.program else ""
        for name, (values, unit, beside) in self.found.items():
            today = date.today().isoformat()
            measurements[name] = Measurement(values, unit, today, machine(), commit() + unproved, beside)
        store(measurements)


def machine():
    """How many processors this machine has, and of which model."""
    models = re.findall(r"^model name\s*: (.*)", Path("/proc/cpuinfo").read_text(encoding="utf-8"), re.MULTILINE)
    return f"{os.cpu_count()} x {models[0] if models else 'unknown'}"


def commit():
    """The commit of this checkout, with a + where files of it were changed."""
    def said(*words):
        return subprocess.run(["git", "-C", TOP, *words], capture_output=True, text=True, check=False).stdout.strip()

    return said("rev-parse", "--short=8", "HEAD") + "+" * bool(said("status", "--porcelain", "--untracked-files=no"))


class Page:
    """The text of a page with the numbers of measurements."""

    def __init__(self, measurements):
        self.measurements = measurements

    def of(self, pattern):
        """The measurements of a name, or of all names that a pattern fits."""
        found = [it for name, it in self.measurements.items() if fnmatchcase(name, pattern)]
        if not found:
            raise KeyError(f"nothing was measured as {pattern}")
        return found

    def numbers(self, said):
        """The numbers that are named, as texts, and what is to be made of them."""
        pattern, _, how = said.partition(" #")
        place, _, function = how.rpartition(" ") if not re.fullmatch(r"[\d/]+", how) else (how, "", "")
        columns = [int(column) - 1 for column in place.split("/")] if place else []
        rows = [it.values for it in self.of(pattern)]
        if len(columns) == 2:
            return [f"{float(row[columns[0]]) / float(row[columns[1]]):.1f}" for row in rows], function
        return [row[columns[0]] for row in rows] if columns else [value for row in rows for value in row], function

    def each(self, name):
        """The labels of the measurements of a name, each with its value."""
        return ", ".join(f"`{label}` {written(it.values[0])}" for label, it in self.labelled(name))

    def labelled(self, name):
        """The measurements `NAME: LABEL`, by their labels."""
        return [(full.partition(": ")[2], it) for full, it in self.measurements.items() if full.startswith(name + ": ")]

    def value(self, said):
        """What stands for a name in a page."""
        if said.startswith("each "):
            return self.each(said.removeprefix("each "))
        numbers, function = self.numbers(said)
        ordered = sorted(numbers, key=float)
        match function:
            case "span":
                return f"{written(ordered[0])} to {written(ordered[-1])}"
            case "least":
                return written(ordered[0])
            case "most":
                return written(ordered[-1])
            case "middle":
                return written(ordered[len(ordered) // 2])
            case "sum":
                return written(str(sum(map(int, numbers))))
            case "all":
                return "; ".join(map(written, numbers))
        if len(numbers) != 1:
            raise ValueError(f"{said}: it has {len(numbers)} values")
        return written(numbers[0])

    def is_met(self, goals):
        """Whether each goal is met."""
        pairs = (goal.rsplit(" <= ", 1) for goal in goals.split(" and "))
        return all(float(self.value(said).replace(",", "")) <= float(most) for said, most in pairs)

    def when(self, line):
        """The last date of what a line names, without its year, and whether it was of an unproved program."""
        saids = [said for said in NAMED.findall(line) if said != "when" and not said.startswith("met: ")]
        named = [it for said in saids for it in self.of(said.partition(" #")[0])]
        return max(it.date for it in named)[5:] + ", unproved" * any("unproved" in it.commit for it in named)

    def filled(self, line):
        """A line with the numbers that it names."""
        def one(match):
            said = match[1]
            if said.startswith("met: "):
                return "met" if self.is_met(said[5:]) else "missed"
            return self.when(line) if said == "when" else self.value(said)

        return NAMED.sub(one, line)

    def rows(self, directive):
        """The rows of a table: `@rows NAME: FORM` has one for each measurement `NAME: LABEL`, in which `{label}` and
        `{2}` are its label and its second value."""
        name, _, form = directive.removeprefix("@rows ").partition(": | ")
        for label, it in self.labelled(name):
            values = {str(place): written(value) for place, value in enumerate(it.values, 1)}
            yield "| " + NAMED.sub(lambda match: ({"label": label} | values)[match[1]], form)

    def text(self, template):
        """A whole page."""
        for line in template.splitlines():
            yield from self.rows(line) if line.startswith("@rows ") else [self.filled(line)]


def written(value):
    """A number as pages write it, with its thousands set apart."""
    return f"{int(value):,}" if re.fullmatch(r"-?\d+", value) else value
