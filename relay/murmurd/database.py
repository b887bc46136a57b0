"""Reads an existing murmurd's SQLite database, and writes nothing: neither into it nor beside it."""
import ipaddress
import re
import sqlite3
from contextlib import contextmanager
from pathlib import Path

from .refusal import Refused, Status
from .rows import ROOT, Account, Ban, Channel, Entry, Group, VirtualServer

# The version of the tables that mumble-server 1.3.0 to 1.3.4 makes.
KNOWN_VERSION = "7"
TABLES = {
    "meta": "keystring value",
    "servers": "server_id",
    "config": "server_id key value",
    "channels": "server_id channel_id parent_id name inheritacl",
    "channel_info": "server_id channel_id key value",
    "users": "server_id user_id name pw lastchannel texture last_active",
    "user_info": "server_id user_id key value",
    "groups": "group_id server_id name channel_id inherit inheritable",
    "group_members": "group_id server_id user_id addit",
    "acl": "server_id channel_id priority user_id group_name apply_here apply_sub grantpriv revokepriv",
    "channel_links": "server_id channel_id link_id",
    "bans": "server_id base mask name hash reason start duration",
    "slog": "server_id",
}
# The keys of `channel_info`, and those of `user_info`.
DESCRIPTION, POSITION, MAX_USERS = 0, 1, 2
OF_USERS = {1: "e-mail address", 2: "comment", 3: "certificate"}
# How long to wait for a server that writes, in seconds.
PATIENCE = 5
SQLITE = b"SQLite format 3\0"
# The byte of the header that says how the database is read, and its value where there is a write-ahead log.
READ_VERSION, WRITE_AHEAD = 19, 2


# ---- opening

def address_of(path):
    """The address under which SQLite opens the file without making others beside it."""
    with open(path, "rb") as file:
        header = file.read(READ_VERSION + 1)
    if header[:len(SQLITE)] != SQLITE:
        raise Refused(Status.NO_DATABASE, "it is no SQLite database" if header else "it is empty")
    whole = Path(path).resolve()
    log, index = (Path(f"{whole}-{name}") for name in ("wal", "shm"))
    address = f"{whole.as_uri()}?mode=ro"
    if len(header) <= READ_VERSION or header[READ_VERSION] != WRITE_AHEAD:
        return address
    if not log.exists() or log.stat().st_size == 0:
        return address + "&immutable=1"
    if not index.exists():
        raise Refused(Status.IN_USE, f"{log} has changes that are not in it; start mumble-server and stop it once")
    return address


def reason_of(error):
    """What an error of SQLite means here."""
    code = getattr(error, "sqlite_errorcode", 0) or 0
    if code & 0xFF in (sqlite3.SQLITE_BUSY, sqlite3.SQLITE_LOCKED):
        return Refused(Status.IN_USE, f"it is locked by somebody who writes, for more than {PATIENCE} seconds")
    if code & 0xFF in (sqlite3.SQLITE_READONLY, sqlite3.SQLITE_CANTOPEN):
        return Refused(Status.IN_USE, "it was not closed in order; start mumble-server and stop it once")
    if code & 0xFF == sqlite3.SQLITE_NOTADB:
        return Refused(Status.NO_DATABASE, "it is no SQLite database")
    return Refused(Status.DAMAGED, f"it is damaged: {error}")


@contextmanager
def opened(path):
    """The database, as it is at one moment, tested to be a whole one of a known version."""
    try:
        database = sqlite3.connect(address_of(path), PATIENCE, isolation_level=None, uri=True)
    except sqlite3.Error as error:
        raise reason_of(error) from error
    database.text_factory = lambda data: data.decode()
    try:
        database.execute("BEGIN")
        refuse_damage(database)
        refuse_others(database)
        yield database
    except sqlite3.Error as error:
        raise reason_of(error) from error
    except UnicodeDecodeError as error:
        raise Refused(Status.DAMAGED, "it is damaged: a text is not UTF-8") from error
    finally:
        database.close()


def refuse_damage(database):
    """Has SQLite test each page."""
    found, = database.execute("PRAGMA integrity_check(1)").fetchone()
    if found != "ok":
        raise Refused(Status.DAMAGED, f"it is damaged: {found.strip().splitlines()[-1]}")


def refuse_others(database):
    """Makes sure that the tables are murmurd's, and of the version that is known."""
    there = {name: {column for _, column, *_ in database.execute(f"PRAGMA table_info({name})")} for name in TABLES}
    if not there["meta"] >= set(TABLES["meta"].split()) or not there["servers"]:
        raise Refused(Status.OTHER_APPLICATION, "it is no murmurd's: it has no tables `meta` and `servers` of one")
    version = next((row[0] for row in database.execute("SELECT value FROM meta WHERE keystring = 'version'")), None)
    if version is None:
        raise Refused(Status.OTHER_APPLICATION, "it is no murmurd's: its table `meta` has no version")
    if version != KNOWN_VERSION:
        raise Refused(Status.OTHER_VERSION, f"its tables are of version {version}, and {KNOWN_VERSION} is known "
                                            "(mumble-server 1.3)")
    for name, columns in TABLES.items():
        if missing := sorted(set(columns.split()) - there[name]):
            raise Refused(Status.DAMAGED, f"it is damaged: table `{name}` has no {', '.join(missing)}")


# ---- values

def integer(value, what):
    """A number, or none as 0."""
    if value is None:
        return 0
    if not isinstance(value, int):
        raise Refused(Status.DAMAGED, f"it is damaged: {what} is {value!r} and no number")
    return value


def number(value, what):
    """The number of a channel or an account, as murmurd keeps it."""
    if value is None or not 0 <= integer(value, what) < 1 << 31:
        raise Refused(Status.DAMAGED, f"it is damaged: {what} is {value!r}")
    return value


def text(value, what):
    """A text, or none as the empty one."""
    if value is None:
        return ""
    if not isinstance(value, str):
        raise Refused(Status.DAMAGED, f"it is damaged: {what} is {value!r} and no text")
    return value


def as_number(value):
    """A number that is kept as a text, or 0 where it is none, as murmurd reads it."""
    return int(value) if re.fullmatch(r"\s*[-+]?[0-9]{1,18}\s*", value, re.ASCII) else 0


# ---- one virtual server

def virtual_servers(database):
    """The numbers of the virtual servers."""
    found = database.execute("SELECT server_id FROM servers ORDER BY 1")
    return [number(one, "the number of a server") for one, in found]


def read(database, server):
    """All of a virtual server."""
    def rows(query):
        return database.execute(query.replace("OURS", f"server_id = {server}"))

    unread = []
    channels = read_channels(rows, unread)
    read_details(rows, channels, unread)
    read_groups(rows, channels, unread)
    read_entries(rows, channels, unread)
    log_lines, = rows("SELECT count(*) FROM slog WHERE OURS").fetchone()
    return VirtualServer(read_settings(rows), channels, read_links(rows, channels, unread), read_accounts(rows, unread),
                         read_bans(rows), log_lines, unread)


def read_settings(rows):
    """What was set of this virtual server alone, which goes before the file of settings."""
    return {text(key, "a setting"): text(value, f"the setting {key}")
            for key, value in rows("SELECT key, value FROM config WHERE OURS ORDER BY key")}


def read_channels(rows, unread):
    """The channels that can be reached from the root, by their numbers."""
    found = {}
    for one, parent, name, inherit in rows(
            "SELECT channel_id, parent_id, name, inheritacl FROM channels WHERE OURS ORDER BY channel_id"):
        one = number(one, "the number of a channel")
        parent = None if parent is None else number(parent, f"the parent of channel {one}")
        name, inherit = text(name, f"the name of channel {one}"), integer(inherit, "inheritacl")
        found[one] = Channel(one, parent, name, bool(inherit))
    if ROOT not in found or found[ROOT].parent is not None:
        raise Refused(Status.DAMAGED, "it is damaged: it has no root")
    reached, last = {ROOT}, 0
    while len(reached) > last:
        last = len(reached)
        reached |= {one for one, channel in found.items() if channel.parent in reached}
    unread += [f"channel {one} {channel.name}: nothing leads to it from the root"
               for one, channel in sorted(found.items()) if one not in reached]
    return {one: found[one] for one in sorted(reached)}


def read_details(rows, channels, unread):
    """Descriptions, positions and limits of users."""
    for one, key, value in rows("SELECT channel_id, key, value FROM channel_info WHERE OURS"):
        value = text(value, f"a detail of channel {one}")
        if one not in channels:
            unread.append(f"a detail of channel {one}, which is not there")
        elif key == DESCRIPTION:
            channels[one].description = value
        elif key == POSITION:
            channels[one].position = as_number(value)
        elif key == MAX_USERS:
            channels[one].max_users = as_number(value)
        else:
            unread.append(f"the detail {key} of channel {one}: it is not known")


def read_groups(rows, channels, unread):
    """The groups of all channels, with their members."""
    found = {}
    for one, channel, name, inherit, inheritable in rows(
            "SELECT group_id, channel_id, name, inherit, inheritable FROM `groups` WHERE OURS ORDER BY group_id"):
        found[one] = Group(text(name, f"the name of group {one}"), bool(integer(inherit, "inherit")),
                           bool(integer(inheritable, "inheritable")), [], [])
        if channel in channels:
            channels[channel].groups.append(found[one])
        else:
            unread.append(f"group {found[one].name} of channel {channel}, which is not there")
    for one, account, adds in rows("SELECT DISTINCT group_id, user_id, addit FROM group_members WHERE OURS ORDER BY 2"):
        if one in found:
            members = found[one].add if integer(adds, "addit") else found[one].remove
            members.append(number(account, f"a member of group {found[one].name}"))
        else:
            unread.append(f"a member of group {one}, which is not there")


def read_entries(rows, channels, unread):
    """The lists of all channels."""
    for channel, account, group, *values in rows(
            "SELECT channel_id, user_id, group_name, apply_here, apply_sub, grantpriv, revokepriv FROM acl WHERE OURS "
            "ORDER BY channel_id, priority"):
        what = f"an entry of channel {channel}"
        account = None if integer(account, what) < 0 or account is None else number(account, what)
        here, subs, grant, deny = (integer(value, what) for value in values)
        entry = Entry(account, text(group, what), bool(here), bool(subs), grant, deny)
        if channel in channels:
            channels[channel].entries.append(entry)
        else:
            unread.append(f"{what}, which is not there")


def read_links(rows, channels, unread):
    """The links, each once, the smaller number first."""
    links = set()
    for one, other in rows("SELECT channel_id, link_id FROM channel_links WHERE OURS"):
        if one not in channels or other not in channels:
            unread.append(f"the link of {one} and {other}: one of them is not there")
        elif one != other:
            links.add((min(one, other), max(one, other)))
    return sorted(links)


def read_accounts(rows, unread):
    """The registered users."""
    accounts = {}
    for one, name, password, last, avatar, seen in rows(
            "SELECT user_id, name, pw, lastchannel, texture, last_active FROM users WHERE OURS ORDER BY user_id"):
        one = number(one, "the number of a user")
        holds = (("password", password), ("last channel", last), ("avatar", avatar), ("last visit", seen))
        accounts[one] = Account(one, text(name, f"the name of user {one}"), [word for word, value in holds if value])
    for one, key, value in rows("SELECT user_id, key, value FROM user_info WHERE OURS ORDER BY user_id, key"):
        if one not in accounts:
            unread.append(f"a detail of user {one}, who is not there")
        elif value:
            accounts[one].holds.append(OF_USERS.get(key, f"detail {key}"))
    return list(accounts.values())


def read_bans(rows):
    """The bans. An address is one of IPv6, in which those of IPv4 are the last 32 of 128 bits."""
    bans = []
    for base, bits, name, certificate, reason, start, seconds in rows(
            "SELECT base, mask, name, hash, reason, start, duration FROM bans WHERE OURS"):
        if not isinstance(base, bytes) or len(base) != 16 or not 0 <= integer(bits, "mask") <= 128:
            raise Refused(Status.DAMAGED, f"it is damaged: a ban of {base!r} with {bits!r} bits")
        address = ipaddress.IPv6Address(base)
        if address.ipv4_mapped and bits >= 96:
            address, bits = address.ipv4_mapped, bits - 96
        bans.append(Ban(str(address), bits, text(name, "a ban"), text(certificate, "a ban"), text(reason, "a ban"),
                        text(start, "a ban"), integer(seconds, "a ban")))
    return bans
