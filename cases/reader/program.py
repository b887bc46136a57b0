"""Runs of the program `murmur`."""
import os
import re
import subprocess
from dataclasses import dataclass
from pathlib import Path

from .transcript import told_by_step

TOP = Path(__file__).resolve().parents[2]
SECONDS = 120
UNPROVED = "murmur-unproved: NOT PROVED."


def words_of(error):
    """What a script says of an error; of a file its name and what is wrong with it."""
    return f"{error.filename}: {error.strerror}" if isinstance(error, OSError) and error.filename else str(error)


class NoProgram(Exception):
    """The program is not there."""


class Stopped(Exception):
    """A recording that was to run to its end did not."""


def path_of_program():
    """The program: the one that `MURMUR` names, or the one that the gate builds."""
    path = Path(os.environ.get("MURMUR") or TOP / "crates/murmur/out/murmur")
    if not os.access(path, os.X_OK):
        raise NoProgram(f"there is no program {path}: `rt run` in crates/murmur builds it, or name one by MURMUR")
    return path


@dataclass(frozen=True)
class Ran:
    """What a run wrote, line by line, and its status."""
    status: int
    lines: list
    errors: list


def bytes_of(text):
    """A text as bytes; bytes as they are."""
    return text if isinstance(text, bytes) else text.encode()


def lines_of(output):
    """The lines of what was written, each of which ends with a line feed, but for what a program without proofs says of
    itself where it serves."""
    lines = output.decode("utf-8", "replace").removesuffix("\n").split("\n") if output else []
    return lines[1:] if lines and lines[0].startswith(UNPROVED) else lines


def run(words, text=""):
    """Runs the program with these words and this input, a text or bytes."""
    done = subprocess.run([path_of_program(), *words], input=bytes_of(text), capture_output=True, timeout=SECONDS,
                          check=False)
    return Ran(done.returncode, lines_of(done.stdout), lines_of(done.stderr))


def recording_of(document, steps, workers=1, end=True, limits=None):
    """The text of a recording: its head, of version 2 where there are limits, as "S C"; a configuration (None is the
    empty one); steps, and its end."""
    config = "-" if document is None else bytes_of(document).hex()
    head = [f"recording {2 if limits else 1}", f"workers {workers}", *([f"limits {limits}"] if limits else [])]
    lines = [*head, f"config {config}", *steps]
    return "\n".join(lines + (["end", ""] if end else [""]))


def replay(document, steps, workers=1):
    """Replays steps to their end, and gives the lines that are told of each step."""
    ran = run(["replay"], recording_of(document, steps, workers))
    if ran.status != 0:
        raise Stopped(why_of(ran, steps))
    return told_by_step(steps, ran.lines)


def why_of(ran, steps):
    """Why a run stopped, with the step at which it did."""
    why = ran.errors[0] if ran.errors else f"status {ran.status}"
    found = re.search(r"line (\d+)", why)
    place = int(found.group(1)) - 4 if found else -1
    step = steps[place][:80] if 0 <= place < len(steps) else "no step"
    return f"{why} ({step})"


def command_steps(connection, digits):
    """The steps of a command: its frame comes, it is decided, and its sender gets the verdict."""
    return [f"frame {connection} {digits}", f"edit {connection}", f"tell {connection} -"]


@dataclass(frozen=True)
class Told:
    """The lines that each step told, as far as a recording was run, and why it stopped."""
    steps: list
    why: str


def tell(document, steps, workers=1):
    """Replays steps as far as they are allowed, and gives what each told."""
    ran = run(["replay"], recording_of(document, steps, workers, end=False))
    return Told(told_by_step(steps, ran.lines), why_of(ran, steps))
