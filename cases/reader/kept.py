"""A file of kept channels, as `serve .. keep FILE` writes one: its rows, read or written, and these rows as the
channels and links of a configuration."""
import fcntl
import os
import shutil
import sqlite3
import tempfile
from contextlib import closing
from dataclasses import dataclass, field
from pathlib import Path

from . import mumble
from .numbering import numbering

# As crates/mum_sql_keeper/src/file.rt has them: a file is taken only where its tables have these texts.
TABLES = {
    "channels": """CREATE TABLE channels (
    id INTEGER PRIMARY KEY,
    parent INTEGER NOT NULL,
    name TEXT NOT NULL,
    description TEXT NOT NULL,
    position INTEGER NOT NULL,
    max_users INTEGER NOT NULL,
    policy BLOB NOT NULL
) STRICT""",
    "links": """CREATE TABLE links (
    low INTEGER NOT NULL,
    high INTEGER NOT NULL,
    PRIMARY KEY (low, high)
) STRICT""",
}
# The bytes of a file that SQLite locks where somebody reads: the first, and how many.
SHARED_FIRST, SHARED_SIZE = 0x40000002, 510
ROOT = 0


class NotKept(Exception):
    """There are no kept channels to be read, or none can be written, for this reason."""


@dataclass
class Channel:
    """A row of a channel. The policy is the payload of the ACL message that answers a query for it."""
    id: int
    parent: int
    name: str
    description: str = ""
    position: int = 0
    max_users: int = 0
    policy: bytes = b""


@dataclass
class Rows:
    """Channels by their numbers, and links with the lesser number first, both in order."""
    channels: dict = field(default_factory=dict)
    links: list = field(default_factory=list)


# ---- read

def read(path):
    """The rows of a file. Nothing is written to it, nor beside it; a server that has it open is not waited for."""
    with open(path, "rb") as file, tempfile.TemporaryDirectory() as folder:
        lock(file)
        copy = os.path.join(folder, "kept")
        for end in ("", "-wal"):
            if os.path.exists(f"{path}{end}"):
                shutil.copyfile(f"{path}{end}", f"{copy}{end}")
        try:
            with closing(sqlite3.connect(copy)) as database:
                return rows_of(database)
        except (sqlite3.Error, UnicodeDecodeError) as error:
            raise NotKept(f"it is damaged, or no file of kept channels: {error}") from error


def lock(file):
    """Keeps others from writing to a file until it is closed, as SQLite does where it reads."""
    try:
        fcntl.lockf(file, fcntl.LOCK_SH | fcntl.LOCK_NB, SHARED_SIZE, SHARED_FIRST)
    except OSError as error:
        raise NotKept("it is in use; stop the server first, or take a copy with its -wal") from error


def rows_of(database):
    """The rows of a database that has the two tables and nothing else."""
    made = dict(database.execute("SELECT name, sql FROM sqlite_schema WHERE sql IS NOT NULL"))
    if made and made != TABLES:
        raise NotKept("it is another program's database")
    rows = Rows()
    if made:
        rows.channels = {row[0]: Channel(*row) for row in database.execute(
            "SELECT id, parent, name, description, position, max_users, policy FROM channels ORDER BY id")}
        rows.links = list(database.execute("SELECT low, high FROM links ORDER BY low, high"))
    return rows


# ---- written

def write(path, rows):
    """Writes a new file, whole or not at all, that its owner alone may read: lists of rights can name tokens."""
    if os.path.lexists(path):
        raise NotKept(f"{path} is there already")
    with tempfile.TemporaryDirectory(dir=Path(path).absolute().parent) as folder:
        made = os.path.join(folder, "kept")
        os.close(os.open(made, os.O_CREAT | os.O_EXCL | os.O_WRONLY, 0o600))
        with closing(sqlite3.connect(made)) as database, database:
            for sql in TABLES.values():
                database.execute(sql)
            database.executemany("INSERT INTO channels VALUES (?, ?, ?, ?, ?, ?, ?)", [
                (one.id, one.parent, one.name, one.description, one.position, one.max_users, one.policy)
                for _, one in sorted(rows.channels.items())])
            database.executemany("INSERT INTO links VALUES (?, ?)", sorted(rows.links))
        try:
            os.link(made, path)
        except FileExistsError as error:
            raise NotKept(f"{path} is there already") from error


# ---- policies

def rights_of(policy):
    """The keys of a channel in a configuration that set this policy."""
    answer = mumble.decode(mumble.ACL, policy)
    groups = [group_of(group) for group in answer.get("groups", []) if not group.get("inherited")]
    entries = [entry_of(entry) for entry in answer.get("acls", []) if not entry.get("inherited")]
    keys = {} if answer.get("inherit_acls", True) else {"inherit_acls": False}
    return keys | ({"groups": groups} if groups else {}) | ({"acls": entries} if entries else {})


def group_of(group):
    """A group as a configuration has it."""
    flags = {key: False for key in ("inherit", "inheritable") if not group.get(key, True)}
    return {"name": group["name"], **flags, **{key: group[key] for key in ("add", "remove") if group.get(key)}}


def entry_of(entry):
    """An entry of a list as a configuration has it."""
    whom = {"account": entry["user_id"]} if "user_id" in entry else {"group": entry["group"]}
    flags = {name: False for name, key in (("here", "apply_here"), ("subs", "apply_subs")) if not entry.get(key, True)}
    return {**whom, **flags, **{key: entry[key] for key in ("grant", "deny") if entry.get(key)}}


def policy_of(number, keys):
    """The policy that the keys of a channel in a configuration set, all said."""
    groups = [{"name": group["name"], "inherited": False, "inherit": group.get("inherit", True),
               "inheritable": group.get("inheritable", True), "add": group.get("add", []),
               "remove": group.get("remove", [])} for group in keys.get("groups", [])]
    entries = [{"apply_here": entry.get("here", True), "apply_subs": entry.get("subs", True), "inherited": False,
                "user_id": entry.get("account"), "group": None if "account" in entry else entry["group"],
                "grant": entry.get("grant", 0), "deny": entry.get("deny", 0)} for entry in keys.get("acls", [])]
    return mumble.encode(mumble.ACL, {"channel_id": number, "inherit_acls": keys.get("inherit_acls", True),
                                      "groups": groups, "acls": entries})


# ---- as a configuration has them

def keys_of(channel):
    """What a configuration says of a channel beside its number, its parent and its name."""
    info = {"position": channel.position, "max_users": channel.max_users, "description": channel.description}
    try:
        rights = rights_of(channel.policy)
    except (IndexError, KeyError) as error:
        raise NotKept(f"the policy of channel {channel.id} is none") from error
    return {key: value for key, value in info.items() if value} | rights


def channels_of(rows):
    """The channels and links of a configuration, by their keys, and the numbers that the channels have there. They keep
    their numbers where each parent has a smaller one than what is in it."""
    parents = {number: one.parent for number, one in rows.channels.items() if number != ROOT}
    order, new = numbering(parents)
    if len(order) != len(parents):
        raise NotKept("it has channels to which nothing leads from the root")
    entries = [{"id": ROOT, **keys_of(rows.channels[ROOT])}] if ROOT in rows.channels else []
    for number in order:
        channel = rows.channels[number]
        entries.append({"id": new[number], "parent": new[channel.parent], "name": channel.name, **keys_of(channel)})
    try:
        links = sorted(sorted((new[low], new[high])) for low, high in rows.links)
    except KeyError as error:
        raise NotKept(f"it has a link of channel {error}, which is not there") from error
    return {"channels": [one for one in entries if len(one) > 1], "links": links}, new
