"""Words of a command line, and of the environment, that are wrong: the status, and the line that says so."""
import os
import re
import shlex
import subprocess
import tempfile

from . import program
from .table import NoCase

SETTING = re.compile(r"([A-Z_]+)=(.*)", re.DOTALL)
SECONDS = 20


def split(question):
    """What a question sets in the environment, and its words."""
    words, settings = shlex.split(question), {}
    while words and (found := SETTING.fullmatch(words[0])):
        settings[found[1]] = found[2]
        words.pop(0)
    if not words:
        raise NoCase(f"no words: {question}")
    return settings, words


def path_of(word):
    """The program, or a script of the repository."""
    return program.path_of_program() if word == "murmur" else program.TOP / word


def telling_line(lines):
    """The line that tells what is wrong: how the words are to be, if one does, else the first."""
    usages = [line for line in lines if "usage:" in line]
    return (usages or lines or ["nothing"])[0].strip()


def answer(question):
    """The answer of the tables `words`: `1 | usage: ..`; the status, and what is said on standard error."""
    settings, words = split(question)
    with tempfile.TemporaryDirectory() as folder:
        ran = subprocess.run([path_of(words[0]), *words[1:]], cwd=folder, stdin=subprocess.DEVNULL, capture_output=True,
                             timeout=SECONDS, check=False, env={**os.environ, **settings})
    return f"{ran.returncode} | {telling_line(program.lines_of(ran.stderr))}"
