"""The recipes of docs/COMMANDS.md, each as a configuration of one room with a room below it."""
import json

from . import program
from .table import NoCase

COMMANDS = program.TOP / "docs/COMMANDS.md"
ROOT = " in the root"


def parts_of(name):
    """What a recipe says of a channel: the block of JSON behind its name."""
    _, found, rest = COMMANDS.read_text(encoding="utf-8").partition(f"\n**{name}.**")
    _, opened, rest = rest.partition("\n```json\n")
    block, closed, _ = rest.partition("\n```\n")
    if not (found and opened and closed):
        raise NoCase(f"no recipe: {name}")
    return json.loads("{" + block + "}")


def document_of(name):
    """A document: channel 1 is the room of the recipe, and 2 is below it; `NAME in the root` is for the root itself."""
    parts = parts_of(name.removesuffix(ROOT))
    if name.endswith(ROOT):
        channels = [{"id": 0, **parts}, {"id": 1, "parent": 0, "name": "A"}]
    else:
        channels = [{"id": 1, "parent": 0, "name": "A", **parts}, {"id": 2, "parent": 1, "name": "B"}]
    return json.dumps({"channels": channels}).encode()
