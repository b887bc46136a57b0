"""Audits of journals: one that is legal, and what is said of it once its lines are changed."""
import json
import re

from . import mumble, program, redacted
from .configuration import sha256
from .script import account_of, spelled
from .table import NoCase


def secret_journal():
    """Two users with a password and a token, a text, and something that nobody hears."""
    config = {"accounts": [{"id": 7, "name": "ann", "password_sha256": sha256("sesame")}],
              "channels": [{"id": 1, "parent": 0, "name": "Room", "description": "behind the curtain",
                            "acls": [{"group": "all", "deny": 4}, {"group": "#KEY", "grant": 4}]}]}

    def login(**fields):
        return mumble.frame_of(mumble.AUTHENTICATE, fields)

    def move(session):
        return mumble.frame_of(mumble.USER_STATE, {"session": session, "channel_id": 1})

    text = mumble.frame_of(mumble.TEXT_MESSAGE, {"session": [2], "message": "attack at dawn"})
    return ["journal 1", "workers 1", f"config {json.dumps(config).encode().hex()}",
            f"c 1 - {login(username='ann', password='simsim')} rejected 3",
            f"c 2 - {login(username='ann', password='sesame')} accepted 1",
            f"c 3 - {login(username='bob', tokens=['key'])} accepted 2",
            f"c 3 - {move(2)} accepted 3", f"c 2 - {move(1)} lacks 4 1", f"c 2 - {text} accepted 4",
            "worker 0", "v 2 3 800103aabbcc 0", "x 1 rejected", "x 2 end", "x 3 end", "end"]

JOURNALS = {
    "nothing": [],
    "two users": [
        "journal 1", "workers 1", "config -",
        "c 1 - 0002000000050a03616e6e accepted 1", "c 2 - 0002000000050a03626f62 accepted 2",
        "worker 0", "v 1 2 800103aabbcc 1 2/0/s", "x 1 end", "x 2 end", "end"],
    "a leave": [
        "journal 1", "workers 4", "config -", "c 1 - leave ignored 8",
        "worker 0", "x 1 toolong", "worker 1", "worker 2", "worker 3", "end"],
    "secrets": secret_journal(),
}
# what the journal of secrets holds that nobody else is to read: words, and audio in hexadecimal digits
SECRETS = ("sesame", "simsim", "attack", "curtain", "key", "KEY", "aabbcc")
CHANGE = re.compile(r"(line|behind|without|cut) (\d+)(?: (.*))?")


def changed(lines, change):
    """The lines after a change: `line N TEXT`, `behind N TEXT`, `without N`, `cut N` (nothing behind line N)."""
    found = CHANGE.fullmatch(change)
    if not found:
        raise NoCase(f"this changes no journal: {change}")
    verb, place, text = found[1], int(found[2]), spelled(found[3] or "")
    match verb:
        case "line":
            return [*lines[:place - 1], text, *lines[place:]]
        case "behind":
            return [*lines[:place], text, *lines[place:]]
        case "without":
            return [*lines[:place - 1], *lines[place:]]
        case _:
            return lines[:place]


def lines_of(question):
    """The lines of a journal that a line names, with its changes, and whether the last is ended."""
    name, *changes = question.split("; ")
    if name not in JOURNALS:
        raise NoCase(f"there is no journal {name}")
    lines, ended = JOURNALS[name], True
    for change in changes:
        if change == "unended":
            ended = False
        else:
            lines = changed(lines, change)
    return lines, ended


def audited(lines, ended=True):
    """What the audit of these lines writes or says, and the status."""
    text = "".join(f"{line}\n" for line in lines)
    return account_of(program.run(["audit"], text if ended else text.removesuffix("\n")), 0)


def answer(question):
    """The answer of the table `journals`: what the audit writes or says, and the status."""
    return audited(*lines_of(question))


def shown(lines):
    """The secrets that lines hold, as they are or in hexadecimal digits."""
    text = " ".join(lines)
    return [word for word in SECRETS if word in text or word.encode().hex() in text]


def kept_secret(question):
    """The answer of the table `redactions`: what the audit says of a journal as redacted; or how that differs."""
    lines, ended = lines_of(question)
    left = redacted.redacted(lines)
    before, after = audited(lines, ended), audited(left, ended)
    if shown(left):
        return "shows " + ", ".join(shown(left))
    return after if before == after else f"{before} became {after}"
