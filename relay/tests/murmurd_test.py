#!/usr/bin/env python3
"""Tests of relay/from-murmurd on databases of Debian's mumble-server 1.3: what it takes, reports and refuses, and that
the rights of the configuration are those that the mumble-server itself answers. MURMUR is the program that accepts the
configurations; it serves nothing. Prints a line a test; the status is 1 where one failed. Words are the names of tests
to run."""
import os
import sqlite3
import stat
import subprocess
import sys
import tempfile

from keeping import holding
from migration import NO_DIGEST, TOP, base, bytes_of, filled, migrated, refused, run, sha, taken
from mumble_server import BAN_LIST, copied, log_in, permissions_of, welcome_of
from murmurd_firm import PASSWORD, firm, wrong_answers
from reader.mumble import PERMISSIONS
from reader.question import channel_named
from reader.rights import read_document
from reader.wire import message
from server import Tests

test = Tests()


# ---- what is taken

@test
def what_the_server_made_is_taken(folder):
    server = filled(folder, "", "welcometext=\"Hello, <b>all</b>\"", "serverpassword=open sesame", "bandwidth=64000")
    document, lines = taken(server.database, server.ini)
    assert document == {
        "welcome": "Hello, <b>all</b>", "bandwidth": 64000, "server_password_sha256": sha("sha256", "open sesame"),
        "accounts": [{"id": 0, "name": "SuperUser", "password_sha256": NO_DIGEST}],
        "channels": [{"id": 0, "groups": [{"name": "admin"}],
                      "acls": [{"group": "admin", "grant": 0x1}, {"group": "auth", "grant": 0x400},
                               {"group": "all", "subs": False, "grant": 0x80000}]}]}, document
    left = {line.split(": ")[1] for line in lines}
    with open(server.ini, encoding="utf-8") as file:
        keys = {line.partition("=")[0] for line in file} - {"welcometext", "serverpassword", "bandwidth"}
    wanted = {f"the setting {key} of the file" for key in keys}
    wanted |= {f"the setting {key} of the database" for key in ("certificate", "key")} | {"of account 0 SuperUser"}
    assert left == wanted and all(line.startswith("left out: ") for line in lines), left ^ wanted


EVERYTHING = """
INSERT INTO channels VALUES (1, 7, 0, 'Hall', 1), (1, 9, 7, 'Stage', 0), (1, 12, 0, 'Wing', NULL);
INSERT INTO channel_info VALUES (1, 0, 0, 'the entrance'), (1, 7, 0, 'a hall'), (1, 7, 1, '-3'), (1, 9, 2, '12');
INSERT INTO users (server_id, user_id, name) VALUES (1, 3, 'ann'), (1, 5, 'Bjørn');
INSERT INTO groups VALUES (50, 1, 'team', 7, 0, 1), (51, 1, 'team', 9, 1, 0), (52, 1, 'idle', 9, 1, 1);
INSERT INTO group_members VALUES (50, 1, 3, 1), (51, 1, 5, 1), (51, 1, 3, 0);
INSERT INTO acl VALUES (1, 7, 20, NULL, 'team', 1, 1, 8, 4), (1, 7, 3, NULL, 'all', 0, 1, 0, 6),
    (1, 9, 1, 3, '', 1, 0, 32, NULL), (1, 9, 2, 5, '~!team', 1, 1, NULL, 256);
INSERT INTO channel_links VALUES (1, 7, 9), (1, 9, 7), (1, 12, 7);
INSERT INTO config VALUES (1, 'welcometext', 'ours'), (1, 'password', 'inner');
"""


@test
def all_that_has_a_place_is_taken(folder):
    """Of lists the order is that of their priorities; Listen goes with Enter; what the database sets goes first."""
    server = filled(folder, EVERYTHING, "welcometext=theirs", "serverpassword=outer", "usersperchannel=20")
    document, lines = taken(server.database, server.ini)
    assert document["welcome"] == "ours" and document["server_password_sha256"] == sha("sha256", "inner"), document
    assert document["accounts"] == [{"id": number, "name": name, "password_sha256": NO_DIGEST}
                                    for number, name in ((0, "SuperUser"), (3, "ann"), (5, "Bjørn"))], document
    root, *others = document["channels"]
    assert (root["id"], root["description"], root["max_users"]) == (0, "the entrance", 20), root
    assert others == [
        {"id": 7, "parent": 0, "name": "Hall", "position": -3, "max_users": 20, "description": "a hall",
         "groups": [{"name": "team", "inherit": False, "add": [3]}],
         "acls": [{"group": "all", "here": False, "deny": 6 | 2048}, {"group": "team", "grant": 8, "deny": 4 | 2048}]},
        {"id": 9, "parent": 7, "name": "Stage", "max_users": 12, "inherit_acls": False,
         "groups": [{"name": "team", "inheritable": False, "add": [5], "remove": [3]}, {"name": "idle"}],
         "acls": [{"account": 3, "subs": False, "grant": 32}, {"account": 5, "deny": 256},
                  {"group": "~!team", "deny": 256}]},
        {"id": 12, "parent": 0, "name": "Wing", "max_users": 20, "inherit_acls": False}], others
    assert document["links"] == [[7, 9], [7, 12]], document["links"]
    for line in ("left out: the setting welcometext of the file: the database has one of this server, which counts",
                 "left out: the setting serverpassword of the file: the database has one of this server, which counts",
                 "changed: entry 2 of channel 9 Stage: now two entries, since it is for an account and for a group",
                 "changed: the setting usersperchannel: now the limit of each channel that has none: 20"):
        assert line in lines, (line, lines)


@test
def a_channel_that_was_moved_gets_a_number_behind_its_parent(folder):
    server = filled(folder, """
        INSERT INTO channels VALUES (1, 1, 5, 'Low', 1), (1, 5, 0, 'High', 1), (1, 2, 0, 'Two', 1);
        INSERT INTO channel_links VALUES (1, 1, 2); INSERT INTO acl VALUES (1, 1, 1, NULL, 'all', 1, 1, 0, 8);""")
    document, lines = taken(server.database)
    assert [(one["id"], one["parent"], one["name"], "acls" in one) for one in document["channels"][1:]] == [
        (1, 0, "Two", False), (2, 0, "High", False), (3, 2, "Low", True)], document["channels"]
    assert document["links"] == [[1, 3]] and any("the numbers of channels" in line for line in lines), (document, lines)


@test
def names_are_made_valid_and_stay_different(folder):
    long = "x" * 200
    server = filled(folder, f"""
        INSERT INTO channels VALUES (1, 1, 0, ' Hall ', 1), (1, 2, 0, 'Hall', 1), (1, 3, 0, '', 1),
        (1, 4, 0, 'a' || char(10) || 'b', 1), (1, 5, 0, '{long}', 1), (1, 6, 0, '{long}y', 1), (1, 7, 2, ' Hall', 1),
        (1, 8, 0, 'Hall', 1);
        INSERT INTO users (server_id, user_id, name) VALUES (1, 4, 'ann '), (1, 6, 'ann');""")
    document, lines = taken(server.database)
    assert [one["name"] for one in document["channels"][1:]] == [
        "Hall 2", "Hall", "channel 3", "a b", "x" * 128, "x" * 126 + " 2", "Hall", "Hall 3"], document["channels"]
    assert [one["name"] for one in document["accounts"]] == ["SuperUser", "ann 2", "ann"], document["accounts"]
    assert sum(line.startswith("changed: the name of ") for line in lines) == 8, lines


@test
def only_accounts_that_something_names_are_taken_where_that_is_asked_for(folder):
    server = filled(folder, EVERYTHING + "INSERT INTO users (server_id, user_id, name) VALUES (1, 8, 'cat');")
    document, lines = taken("--named", server.database)
    assert [one["id"] for one in document["accounts"]] == [0, 3, 5], document["accounts"]
    assert "left out: account 8 cat: no group and no entry names it" in lines, lines


@test
def one_virtual_server_is_taken(folder):
    server = filled(folder, """INSERT INTO servers VALUES (4); INSERT INTO channels VALUES (4, 0, NULL, 'Root', 1),
        (4, 1, 0, 'Elsewhere', 1); INSERT INTO channels VALUES (1, 1, 0, 'Here', 1);""")
    document, lines = taken(server.database)
    assert [one["name"] for one in document["channels"][1:]] == ["Here"], document
    assert "left out: virtual server 4: --server 4 takes it" in lines, lines
    document, lines = taken("--server", "4", server.database)
    assert [one["name"] for one in document["channels"]] == ["Elsewhere"] and not document["accounts"], document
    assert "left out: virtual server 1: --server 1 takes it" in lines, lines
    refused(1, "it has no virtual server 3, but 1, 4", "--server", "3", server.database)


# ---- what is reported

LEFT_OUT = {
    "INSERT INTO users VALUES (1, 3, 'ann', 'digest', 'salt', 1000, 2, x'00', '2026-01-02');"
    "INSERT INTO user_info VALUES (1, 3, 1, 'ann@example.org'), (1, 3, 2, 'hello'), (1, 3, 3, 'c0ffee'),"
    "(1, 3, 9, 'x');":
        "left out: of account 3 ann: password, last channel, avatar, last visit, e-mail address, comment, certificate, "
        "detail 9: ",
    "INSERT INTO bans VALUES (1, x'00000000000000000000FFFFC0000200', 120, 'eve', 'c0ffee', 'noise', '2026-01-02', 0);":
        "left out: the ban of 192.0.2.0/24 from 2026-01-02 for ever, eve, c0ffee, noise: ",
    "INSERT INTO bans VALUES (1, x'20010DB8000000000000000000000000', 32, '', '', '', '2026-01-02', 3600);":
        "left out: the ban of 2001:db8::/32 from 2026-01-02 for 3,600 seconds: ",
    "UPDATE channels SET name = 'Ours' WHERE channel_id = 0;": "left out: the name of the root, Ours: ",
    "INSERT INTO channels VALUES (1, 5, 9, 'Lost' || char(10, 27), 1);":
        "left out: channel 5 Lost??: nothing leads to it from the root: ",
    "INSERT INTO channels VALUES (1, 5, 6, 'Round', 1), (1, 6, 5, 'About', 1);":
        "left out: channel 6 About: nothing leads to it from the root: ",
    "INSERT INTO channel_info VALUES (1, 9, 0, 'text');": "left out: a detail of channel 9, which is not there: ",
    "INSERT INTO channel_info VALUES (1, 0, 8, 'text');": "left out: the detail 8 of channel 0: it is not known: ",
    "INSERT INTO groups VALUES (60, 1, 'gone', 9, 1, 1);": "left out: group gone of channel 9, which is not there: ",
    "INSERT INTO group_members VALUES (61, 1, 2, 1);": "left out: a member of group 61, which is not there: ",
    "INSERT INTO acl VALUES (1, 9, 1, NULL, 'all', 1, 1, 1, 0);":
        "left out: an entry of channel 9, which is not there: ",
    "INSERT INTO channel_links VALUES (1, 0, 9);": "left out: the link of 0 and 9: one of them is not there: ",
    "INSERT INTO user_info VALUES (1, 9, 1, 'text');": "left out: a detail of user 9, who is not there: ",
    "INSERT INTO slog (server_id, msg) VALUES (1, 'a'), (1, 'b');": "left out: 2 lines of the log: ",
    "INSERT INTO config VALUES (1, 'registername', 'Ours');": "left out: the setting registername of the database: ",
    "INSERT INTO config VALUES (1, 'novelty', '1');": "left out: the setting novelty of the database: it is not known",
    "INSERT INTO config VALUES (1, 'bandwidth', 'much');": "left out: the setting bandwidth of the database: ",
    "INSERT INTO config VALUES (1, 'bandwidth', '0');": "left out: the setting bandwidth of the database: '0' is",
    "INSERT INTO config VALUES (1, 'usersperchannel', printf('%.5000c', '9'));":
        "left out: the setting usersperchannel of the database: ",
    "INSERT INTO acl VALUES (1, 0, 9, NULL, '', 1, 1, 1, 0);": "left out: entry 4 of the root: it is for nobody",
    "INSERT INTO acl VALUES (1, 0, 9, NULL, 'all', 1, 1, 134217736, 0);":
        "left out: the bits 0x8000000 of entry 4 of the root: ",
    "INSERT INTO acl VALUES (1, 0, 9, NULL, '!strong', 1, 1, 8, 0);": "differs: entry 4 of the root: ",
    "INSERT INTO acl VALUES (1, 0, 9, NULL, '$c0ffee', 1, 1, 8, 0);": "differs: entry 4 of the root: ",
    "INSERT INTO acl VALUES (1, 0, 9, NULL, '!sub,1', 1, 1, 8, 0);": "differs: entry 4 of the root: ",
    "INSERT INTO acl VALUES (1, 0, 9, NULL, 'sub', 1, 0, 2, 0);": "differs: entry 4 of the root: ",
    "INSERT INTO acl VALUES (1, 0, 9, NULL, '~sub,x, +2,00003,4', 1, 1, 8, 0);":
        "changed: entry 4 of the root: its group '~sub,x, +2,00003,4' is now '~sub,0,2,3', which means the same",
    "INSERT INTO channel_info VALUES (1, 0, 1, '99999999999');": "left out: the position of the root 99999999999: ",
    "INSERT INTO channel_info VALUES (1, 0, 2, '99999999999');":
        "left out: the limit of users of the root 99999999999: ",
    "INSERT INTO channel_info VALUES (1, 0, 0, printf('%.20001c', 'x'));": "left out: the description of the root: ",
    "INSERT INTO config VALUES (1, 'welcometext', printf('%.20001c', 'x'));": "left out: the welcome: ",
    "INSERT INTO acl VALUES (1, 0, 9, NULL, 'all', 1, 1, 4, 0);":
        "changed: Listen, which mumble-server 1.3 does not have: ",
    "WITH RECURSIVE n(i) AS (SELECT 1 UNION ALL SELECT i + 1 FROM n WHERE i < 66)"
    "INSERT INTO channels SELECT 1, i, 0, 'c' || i, 1 FROM n;"
    "INSERT INTO channel_links SELECT 1, 1, channel_id FROM channels WHERE channel_id > 1;":
        "left out: the link of channels 1 and 66: channel 1 has 64 others",
}


@test
def nothing_is_lost_in_silence(folder):
    """Each of these adds its own line to the report, and no other."""
    _, usual = taken(filled(folder, "").database)
    for place, (script, line) in enumerate(LEFT_OUT.items()):
        below = os.path.join(folder, str(place))
        os.mkdir(below)
        _, lines = taken(filled(below, script).database)
        more = [one for one in lines if one not in usual]
        alone = len(more) == 1 or "About" in line
        assert alone and any(one.startswith(line) for one in more), (script, line, more)
        for path in (os.path.join(below, name) for name in os.listdir(below)):
            os.remove(path)
        os.rmdir(below)
    return f"{len(LEFT_OUT)} lines"


# ---- what is refused

@test
def what_is_no_database_of_a_known_server_is_refused(folder):
    path = os.path.join(folder, "database")
    refused(2, "No such file or directory", path)
    os.mkdir(path)
    refused(2, "Is a directory", path)
    os.rmdir(path)
    for content, reason in ((b"", "it is empty"), (b"SQLite", "no SQLite database"), (b"text\n" * 500, "no SQLite")):
        with_bytes_of(path, content)
        refused(3, reason, path)
    os.remove(path)
    other = sqlite3.connect(path)
    other.executescript("CREATE TABLE meta (keystring TEXT, value TEXT); CREATE TABLE mail (text TEXT);")
    refused(4, "it is no murmurd's", path)
    other.executescript("CREATE TABLE servers (server_id INTEGER);")
    refused(4, "its table `meta` has no version", path)
    other.close()
    for number, (version, reason) in enumerate((("6", "version 6"), ("8", "version 8"), ("new", "version new"))):
        below = os.path.join(folder, f"v{number}")
        os.mkdir(below)
        refused(5, reason, filled(below, f"UPDATE meta SET value = '{version}' WHERE keystring = 'version';").database)


def with_bytes_of(path, content):
    with open(path, "wb") as file:
        file.write(content)


@test
def a_damaged_database_is_refused(folder):
    """One that is cut anywhere is refused, and so is one with a page of other bytes, unless nothing is there; so are
    rows that no server writes."""
    server = filled(folder, EVERYTHING)
    whole, right = bytes_of(server.database), migrated(server.database).stdout
    cuts = [100, 512, 1024, *range(4096, len(whole), 3 * 4096), len(whole) - 1]
    spoiled = [whole[:length] for length in cuts]
    spoiled += [whole[:at] + b"\xa5" * 4096 + whole[at + 4096:] for at in range(4096, len(whole), 4096)]
    empty = 0
    for content in spoiled:
        with_bytes_of(server.database, content)
        done = migrated(server.database)
        empty += done.stdout == right
        assert done.stdout == right or done.returncode == 7 and "it is damaged" in done.stderr, done
    assert empty < 5, empty
    for number, (script, reason) in enumerate((
            ("UPDATE channels SET name = x'FF' WHERE channel_id = 0;", "the name of channel 0"),
            ("UPDATE channels SET name = CAST(x'FF' AS TEXT) WHERE channel_id = 0;", "a text is not UTF-8"),
            ("DELETE FROM channels;", "it has no root"), ("DELETE FROM servers;", "it has no virtual server"),
            ("INSERT INTO channels VALUES (1, -5, 0, 'x', 1);", "the number of a channel"),
            ("INSERT INTO channels VALUES (1, 'five', 0, 'x', 1);", "the number of a channel"),
            ("INSERT INTO acl VALUES (1, 0, 9, NULL, 'all', 1, 1, 'much', 0);", "an entry of channel 0"),
            ("INSERT INTO bans VALUES (1, x'7F000001', 32, '', '', '', '', 0);", "a ban of"),
            ("ALTER TABLE acl RENAME COLUMN grantpriv TO g;", "table `acl` has no grantpriv"))):
        below = os.path.join(folder, str(number))
        os.mkdir(below)
        refused(7, reason, filled(below, script).database)
    return f"{len(cuts)} lengths, {len(spoiled) - len(cuts)} pages, {empty} of them empty"


@test
def a_database_in_use_is_read_whole_or_refused(folder):
    """While the server runs on it, it can be read; while somebody writes, it is refused; what another has not finished
    to write, or has in a log beside it, is not passed over."""
    server = filled(folder, EVERYTHING)
    before = migrated(server.database).stdout
    with server:
        assert migrated(server.database).stdout == before
    with holding(server.database, "BEGIN EXCLUSIVE"):
        refused(6, "it is locked", server.database)
    writer = sqlite3.connect(server.database, isolation_level=None)
    assert writer.execute("PRAGMA journal_mode = WAL").fetchone() == ("wal",)
    writer.execute("INSERT INTO channels VALUES (1, 30, 0, 'New', 1)")
    assert '"New"' in migrated(server.database).stdout
    whole, log = (bytes_of(server.database + end) for end in ("", "-wal"))
    writer.close()
    assert '"New"' in migrated(server.database).stdout and not os.path.exists(server.database + "-wal")
    with_bytes_of(server.database, whole)
    with_bytes_of(server.database + "-wal", log)
    refused(6, "has changes that are not in it", server.database)
    os.symlink(server.database, os.path.join(folder, "elsewhere"))
    refused(6, "has changes that are not in it", os.path.join(folder, "elsewhere"))
    os.remove(server.database + "-wal")
    with_bytes_of(server.database + "-journal", b"")
    assert migrated(server.database).returncode == 0


@test
def a_database_whose_writer_was_killed_is_refused(folder):
    server = filled(folder, EVERYTHING)
    killed = """import os, sqlite3, sys
database = sqlite3.connect(sys.argv[1], isolation_level=None)
database.execute("PRAGMA cache_size = 1")
database.execute("PRAGMA cache_spill = 1")
database.execute("BEGIN")
database.execute("CREATE TABLE filler AS WITH RECURSIVE n(i) AS (SELECT 1 UNION ALL SELECT i + 1 FROM n "
                 "WHERE i < 5000) SELECT i, hex(randomblob(200)) FROM n")
database.execute("UPDATE channels SET name = 'half'")
os._exit(1)"""
    subprocess.run([sys.executable, "-c", killed, server.database], check=False)
    assert os.path.getsize(server.database + "-journal") > 0
    refused(6, "it was not closed in order", server.database)


@test
def a_database_that_only_its_owner_may_change_is_taken(folder):
    server = filled(folder, EVERYTHING)
    os.chmod(server.database, stat.S_IRUSR)
    assert taken(server.database)[0]["links"] == [[7, 9], [7, 12]]


@test
def settings_that_cannot_be_read_are_refused(folder):
    server, path = filled(folder, ""), os.path.join(folder, "settings")
    refused(2, "No such file or directory", server.database, path)
    with_bytes_of(path, b"welcometext=\xff\xfe\n")
    refused(2, "it is not UTF-8", server.database, path)
    for words in ((), ("--server",), ("--server", "one", "x"), ("a", "b", "c"), ("--all", "x")):
        done = run(*words)
        assert done.returncode == 1 and not done.stdout and "usage: relay/from-murmurd" in done.stderr, (words, done)
    with open("/dev/full", "w") as full:
        done = run(server.database, stdout=full)
    assert done.returncode == 9 and "could not be written" in done.stderr, done


def many(count, row, table):
    """SQL that adds so many rows; `i` is the number of one."""
    return f"WITH RECURSIVE n(i) AS (SELECT 1 UNION ALL SELECT i + 1 FROM n WHERE i < {count}) " \
           f"INSERT INTO {table} SELECT {row} FROM n;"


@test
def what_no_configuration_can_hold_is_refused(folder):
    """At each limit it is taken, and above it refused; what bears on rights is never taken in part."""
    path = "channels", "1, i, i - 1, 'c' || i, 1"
    limits = (
        ("channels", "1, i, 0, 'c' || i, 1", 1023, "channels with the root: there are 1,025, and may be 1,024", ""),
        (*path, 32, "levels of channels below the root: there are 33, and may be 32", ""),
        ("groups", "i + 99, 1, 'g' || i, 0, 1, 1", 63, "the root, groups: there are 65, and may be 64", ""),
        ("acl", "1, 0, i + 9, NULL, 'all', 1, 1, 8, 0", 125, "the root, entries: there are 129, and may be 128", ""),
        ("group_members", "99, 1, i, 1", 256, "group g, add: there are 257, and may be 256",
         "INSERT INTO groups VALUES (99, 1, 'g', 0, 1, 1);"),
        ("group_members", "99, 1, i, 0", 256, "group g, remove: there are 257, and may be 256",
         "INSERT INTO groups VALUES (99, 1, 'g', 0, 1, 1);"))
    for number, (table, row, most, reason, first) in enumerate(limits):
        for count in (most, most + 1):
            below = os.path.join(folder, f"{number} {count}")
            os.mkdir(below)
            server = filled(below, first + many(count, row, table))
            if count == most:
                taken(server.database)
            else:
                refused(8, reason, server.database)
    more = (("INSERT INTO groups VALUES (99, 1, ' g', 0, 1, 1);", "a group cannot be called ' g'"),
            ("INSERT INTO acl VALUES (1, 0, 9, NULL, printf('%.129c', 'g'), 1, 1, 8, 0);", "more than 128 bytes"),
            (many(1024, "1, i, 'user' || i, NULL, NULL, NULL, NULL, NULL, NULL", "users"),
             "accounts: there are 1,025, and may be 1,024"),
            (many(700, "1, i, 'user' || i, NULL, NULL, NULL, NULL, NULL, NULL", "users"),
             "and may have 65,536; accounts "))
    for number, (script, reason) in enumerate(more):
        below = os.path.join(folder, f"more {number}")
        os.mkdir(below)
        refused(8, reason, filled(below, script).database)


# ---- beside the server itself

@test
def settings_are_read_as_the_server_reads_them(folder):
    """The welcome that the server sends is the one that is taken, and its password lets in."""
    spellings = (r'welcometext="a, \"b\"; c\\d\n<br />"', "welcometext=plain ; and a comment", 'welcometext=" x " y',
                 "welcometext=one, two", 'welcometext="two\nlines"', r"welcometext=\x41\x20\101 tail  ",
                 "WelcomeText=not", '[General]\nwelcometext="in a section"\n[Ice]\nwelcometext=not',
                 "welcometext=first\nwelcometext=\"last\"",
                 r'welcometext="\xd83d\xde00 \x2014 gr\xfc\xdf""e, all"', "; welcometext=not\n#welcometext=not",
                 "welcometext=\"ünï\"", 'serverpassword="s, e"')
    told = []
    for place, spelled in enumerate(spellings):
        below = os.path.join(folder, str(place))
        os.mkdir(below)
        server = filled(below, "", spelled)
        document, _ = taken(server.database, server.ini)
        with server:
            client = log_in(server, "guest", "s, e")
            told.append(welcome_of(client))
            client.close()
        assert document.get("welcome", "") == told[-1], (spelled, document.get("welcome"), told[-1])
    assert document["server_password_sha256"] == sha("sha256", "s, e"), document
    assert told[0] == 'a, "b"; c\\d\n<br />' and told[3] == "" and told[4] == "two\nlines", told
    return f"{len(spellings)} spellings"


@test
def bans_are_those_that_an_administrator_set(folder):
    server = copied(base(), folder)
    server.set_password(PASSWORD)
    with server:
        client = log_in(server, "SuperUser", PASSWORD)
        ban = message((1, bytes.fromhex("00000000000000000000ffffcb007107")), (2, 128), (3, "eve"), (5, "noise"),
                      (6, "2026-01-02T03:04:05"), (7, 0))
        client.send(BAN_LIST, message((1, ban)))
        client.stay(0.5)
        client.close()
    _, lines = taken(server.database)
    ban = "left out: the ban of 203.0.113.7/32 from 2026-01-02T03:04:05.000Z for ever, eve, noise: "
    assert any(line.startswith(ban) for line in lines), lines


@test
def rights_are_those_that_the_server_answers(folder):
    """A firm of 300 channels is taken; the server answers the questions as the table does, and so does docs/who-may. A
    list that means something else here is named by the report."""
    server = filled(folder, firm())
    text, lines = migrated(server.database).stdout, taken(server.database)[1]
    document = read_document(text)
    assert len(document["channels"]) == 301 and len(document["links"]) == 100, document
    with server:
        wrong, count, askers = wrong_answers(server, document)
        assert not wrong, wrong
        assert askers.may("guests", True, "Enter", "Floor 7 / Room 16")
        # below the list with `sub`, whoever is beside the channel that is asked about has more here
        client = askers.client_of("guests")
        theirs = permissions_of(client, channel_named(document, "Floor 7 / Room 16 / Room 17"))
    assert not theirs & PERMISSIONS["MakeChannel"], theirs
    assert sum(line.startswith("differs: entry 1 of channel ") and "Room 16: 'sub,0,0'" in line for line in lines) == 10
    assert sum(line.startswith("differs: ") for line in lines) == 10, lines
    with tempfile.NamedTemporaryFile("w", suffix=".json") as file:
        file.write(text)
        file.flush()
        words = [os.path.join(TOP, "docs/who-may"), file.name, "may", "cat", "Write", "Floor 1 / Room 10"]
        said = subprocess.run(words, capture_output=True, text=True, timeout=300, check=False)
        assert said.stdout.startswith("yes: cat (3) may Write in "), said
    return f"{count} questions, {len(text.encode()):,} bytes"


if __name__ == "__main__":
    sys.exit(test.run())
