"""Runs of the program `murmur-why`, and what it says of packets."""
import os
import re
import subprocess
from dataclasses import dataclass, field

from .program import SECONDS, TOP, NoProgram, Ran, bytes_of, lines_of

# the words of the contexts in which sessions hear, by their numbers
CONTEXTS = ("talk", "whisper to its channel", "whisper to it", "listening")
HEAD = re.compile(r"(?:line (\d+) )?revision (\d+) speaker (\d+)(.*) target (\d+)")


def path_of_why():
    """The program: the one that `MURMUR_WHY` names, or the one that the gate builds."""
    path = os.environ.get("MURMUR_WHY") or TOP / "crates/murmur_why/out/murmur_why"
    if not os.access(path, os.X_OK):
        raise NoProgram(f"there is no program {path}: `rt run` in crates/murmur_why builds it, or MURMUR_WHY names one")
    return path


def ask(words, text=""):
    """Runs the program with these words over a recording or a journal."""
    done = subprocess.run([path_of_why(), *words], input=bytes_of(text), capture_output=True, timeout=SECONDS,
                          check=False)
    return Ran(done.returncode, lines_of(done.stdout), lines_of(done.stderr))


@dataclass
class Heard:
    """A packet: its line, if it is of one, its revision, who speaks to which target, and what is said of each session."""
    line: int
    revision: int
    speaker: int
    name: str
    target: int
    said: dict = field(default_factory=dict)

    def hearers(self, names):
        """The sessions that hear it, with the numbers of their contexts, where sessions have these names."""
        words = {session: reason_of(rest, names.get(session, "")) for session, rest in self.said.items()}
        return {session: CONTEXTS.index(word) for session, word in words.items() if word in CONTEXTS}


def reason_of(rest, name):
    """What is said of a session behind its number, without its name."""
    return rest.removeprefix(f" {name}" if name else "").removeprefix(" ")


def packets_of(lines):
    """The packets of an answer, each with what is said of the sessions below it."""
    packets = []
    for line in lines:
        found = HEAD.fullmatch(line)
        if found:
            at, revision, speaker, name, target = found.groups()
            packets.append(Heard(int(at or 0), int(revision), int(speaker), name.removeprefix(" "), int(target)))
        else:
            session, space, rest = line.partition(" ")
            packets[-1].said[int(session)] = space + rest
    return packets
