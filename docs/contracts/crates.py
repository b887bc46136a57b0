"""The crates of the repository, their files, and where the names in a file come from."""
import re
from functools import cache
from pathlib import Path

ROOT = Path(__file__).resolve().parent.parent.parent
CRATES = ROOT / "crates"
COMMENT = re.compile(r"^ *(?://|--).*$", re.MULTILINE)
USE = re.compile(r"^ *(?:ghost )?(?:pub )?use ([\w.:]+?)(?:\.|::)(?:\{([^;]*?)\}|(\w+));?$", re.MULTILINE)


@cache
def crates():
    """The crates of crates.txt in its order, each with those of this repository that it uses."""
    lines = (ROOT / "crates.txt").read_text(encoding="utf-8").splitlines()
    parts = [line.partition("#")[0].partition(":") for line in lines]
    return {
        name.split()[0]: [used for used in rest.split() if (CRATES / used).exists()]
        for name, colon, rest in parts
        if colon
    }


def files_of(crate, folder="src", ending="rt"):
    """The files of a folder of a crate."""
    return sorted((CRATES / crate / folder).rglob(f"*.{ending}"))


def crate_of(path):
    """The crate of a file."""
    return path.parts[len(CRATES.parts)]


def module_of(path):
    """The names of the modules of a file of src/, from the root of its crate on."""
    parts = path.with_suffix("").parts[len(CRATES.parts) + 2:]
    return () if parts == ("lib",) else parts


@cache
def text_of(path):
    """A source without its comments."""
    return COMMENT.sub("", path.read_text(encoding="utf-8"))


@cache
def brought(path):
    """The names that a file uses, each with the module from which it comes."""
    names = {}
    for start, several, one in USE.findall(text_of(path)):
        for name in (several or one).split(","):
            way, _, last = name.split(" as ")[0].strip().rpartition(".")
            names[name.split(" as ")[-1].strip() if " as " in name else last] = f"{start}.{way}" if way else start
    return names
