#!/usr/bin/env python3
"""Tests of the file in which a server keeps its channels: what is in it, and that one which is damaged, another
program's, in use or out of reach is refused and stays as it is. MURMUR is the program. WHOLE=1 changes each byte of the
first page, and not each 64th. Prints a line a test; the status is 1 where one failed."""
import json
import os
import random
import sqlite3
import subprocess
import sys
import tempfile
import time
from contextlib import closing

from client import PATIENCE
from keeping import (DOCUMENT, ROOT, Editor, KeepingServer, content, edited, filled, holding, is_kept, is_whole,
                     place_in, refused, run_once, seen_in, starts_as_before)
from reader import kept
from reader.mumble import CHANNEL_STATE, encode
from server import Tests
from trial import PROGRAM, RELAY, free_port, wait

TOP = os.path.dirname(RELAY)
STEP = 1 if os.environ.get("WHOLE") else 64
PAGE = 4096
# For how long a thread that has nothing to do may go on, in seconds.
REST = 1
# How many channels make a look at all of them take longer than an edit.
MANY = 300
BAD_STORE = "murmur: 13 BadStore"

test = Tests()


# ---- what is kept

@test
def what_is_edited_is_kept(folder):
    """And a next server has it: channels, texts, lists and links, the root's too; not temporary channels."""
    path, seen = filled(folder)
    assert seen_in(kept.read(path)) == seen, (kept.read(path), seen)
    is_whole(path)

    def with_a_temporary_one(client):
        client.send(CHANNEL_STATE, encode(CHANNEL_STATE, {"parent": ROOT, "name": "for now", "temporary": True}))
        client.wait_until(lambda: "for now" in client.channels)
    run_once(folder, path, with_a_temporary_one)
    starts_as_before(folder, path, seen)


def running_times(server):
    """The threads of a server, and for how long each has run."""
    tasks = f"/proc/{server.process.pid}/task"
    times = {}
    for task in os.listdir(tasks):
        with open(f"{tasks}/{task}/schedstat") as file:
            times[task] = file.read().split()[0]
    return times


def sleeps(server):
    """Whether the threads of a server have begun, and none of them runs for a while."""
    before = running_times(server)
    time.sleep(REST)
    return len(before) > 1 and running_times(server) == before


@test
def what_is_edited_is_kept_while_nothing_else_happens(folder):
    """Also where all threads slept before. More clients may come: where none does, threads wake others as they end."""
    path = place_in(folder)
    with KeepingServer(folder, path, connections=2) as server:
        wait(lambda: sleeps(server), PATIENCE)
        editor = Editor(server.superuser())
        for name in ("Hall", "Stage"):
            editor.make(name)
            editor.settle()
            is_kept(path, editor, folder)
            time.sleep(REST)


@test
def an_end_is_not_held_up_by_what_is_still_to_be_kept(folder):
    """Many edits more than notes wait for the store, and then nobody is there."""
    path = place_in(folder)

    def renamed_often(client):
        editor = Editor(client)
        first = editor.make("first")
        for number in range(MANY):
            editor.make(f"channel {number}")
        for number in range(10 * MANY):
            editor.edit(first, name=f"name {number}")
            if number % 20 == 0:
                editor.read()
        editor.settle()
        return editor
    editor = run_once(folder, path, renamed_often)
    assert seen_in(kept.read(path)) == (editor.channels, editor.links)


@test
def channels_of_the_configuration_are_left_aside(folder):
    """Where rows are kept; an empty file gets them."""
    path = place_in(folder)
    document = {**DOCUMENT, "channels": [{"id": 1, "parent": 0, "name": "Written"}]}
    run_once(folder, path, document=document)
    assert [one.name for one in kept.read(path).channels.values()] == ["Root", "Written"]
    run_once(folder, path, document={**DOCUMENT, "channels": [{"id": 1, "parent": 0, "name": "Other"}]})
    assert [one.name for one in kept.read(path).channels.values()] == ["Root", "Written"]


@test
def a_kept_file_is_printed_as_a_configuration(folder):
    """And a server that is given it, with an empty file, keeps the same channels."""
    path, _ = filled(folder)
    configuration = os.path.join(folder, "configuration.json")
    with open(configuration, "w") as file:
        json.dump(DOCUMENT, file)
    words = [os.path.join(TOP, "docs/kept"), path, configuration]
    done = subprocess.run(words, capture_output=True, text=True, timeout=300, check=True)
    with open(configuration, "w") as file:
        file.write(done.stdout)
    checked = subprocess.run([os.path.join(TOP, "docs/check-configuration"), configuration], capture_output=True,
                             text=True, timeout=300, check=False)
    assert checked.returncode == 0 and ": accepted" in checked.stdout, checked.stdout + checked.stderr
    other = place_in(folder)
    run_once(folder, other, document=json.loads(done.stdout))
    again = subprocess.run([*words[:1], other, configuration], capture_output=True, text=True, timeout=300, check=True)
    assert again.stdout == done.stdout, (again.stdout, done.stdout)
    with KeepingServer(folder, path) as server:
        assert server.is_open(), server.log()
        busy = subprocess.run(words, capture_output=True, text=True, timeout=300, check=False)
        assert busy.returncode == 1 and "in use" in busy.stderr, busy


# ---- what is refused

@test
def another_programs_database_is_refused(folder):
    """An empty log that was not there is gone again."""
    path = place_in(folder, "mumble-server.sqlite")
    with closing(sqlite3.connect(path)) as database:
        database.executescript("CREATE TABLE channels (server_id INTEGER NOT NULL, channel_id INTEGER NOT NULL, "
                               "name TEXT); INSERT INTO channels VALUES (1, 0, 'Root');")
    refused(folder, path)
    other, _ = filled(folder)
    with closing(sqlite3.connect(other)) as database:
        database.execute("CREATE TABLE mine (id INTEGER)")
    refused(folder, other, beside=("-wal",))


@test
def what_is_no_file_or_no_database_is_refused(folder):
    path = place_in(folder, "text")
    with open(path, "w") as file:
        file.write("no database\n" * 1000)
    refused(folder, path)
    directory = place_in(folder, "a folder")
    os.mkdir(directory)
    refused(folder, directory)
    first, _ = filled(folder)
    second = place_in(folder)
    os.link(first, second)
    refused(folder, second)


@test
def rows_that_are_no_tree_are_bad(folder):
    """Readable, but not what a server can have: 13, and the file stays."""
    for change in ("DELETE FROM channels WHERE id = 0", "UPDATE channels SET name = 'Top' WHERE id = 0",
                   "UPDATE channels SET parent = id WHERE id = 1", "UPDATE channels SET parent = 99 WHERE id = 2",
                   "UPDATE channels SET name = ' ' WHERE id = 1", "UPDATE channels SET policy = x'ff' WHERE id = 1",
                   "UPDATE channels SET policy = (SELECT policy FROM channels WHERE id = 2) WHERE id = 1",
                   "INSERT INTO links VALUES (2, 1)", "INSERT INTO links VALUES (1, 99)"):
        path, _ = filled(folder)
        with closing(sqlite3.connect(path)) as database, database:
            database.execute(change)
        refused(folder, path, 13, BAD_STORE, beside=("-wal",))


@test
def rows_that_no_server_writes_are_a_fault(folder):
    """A number out of its range, and a text that is no UTF-8."""
    for change in ("UPDATE channels SET max_users = 4294967296 WHERE id = 1",
                   "UPDATE channels SET id = -1 WHERE id = 3", "UPDATE channels SET position = 2147483648 WHERE id = 1",
                   "UPDATE channels SET name = CAST(x'ff' AS TEXT) WHERE id = 1"):
        path, _ = filled(folder)
        with closing(sqlite3.connect(path)) as database, database:
            database.execute(change)
        refused(folder, path, beside=("-wal",))


@test
def a_transaction_of_another_program_refuses(folder):
    path, seen = filled(folder)
    for statement in ("BEGIN IMMEDIATE", "BEGIN EXCLUSIVE"):
        with holding(path, statement):
            before = set(os.listdir(os.path.dirname(path)))
            refused(folder, path)
        assert before >= set(os.listdir(os.path.dirname(path)))
    starts_as_before(folder, path, seen)


@test
def a_second_server_is_refused(folder):
    path, _ = filled(folder)
    with KeepingServer(folder, path) as server:
        assert server.is_open(), server.log()
        with KeepingServer(tempfile.mkdtemp(dir=folder), path) as other:
            code, output, lines = other.ended()
        assert (code, output, lines[-1]) == (12, "", "murmur: 12 KeeperFault"), (code, output, lines)
        done = subprocess.run([sys.executable, "-c", "import sqlite3, sys\n"
                               "sqlite3.connect(sys.argv[1]).execute('SELECT * FROM links')", path],
                              capture_output=True, text=True, timeout=PATIENCE, check=False)
        assert "database is locked" in done.stderr, done


@test
def a_file_without_rights_is_refused(folder):
    """Root may read any file, so the server is somebody else then."""
    path, seen = filled(folder)
    before, words = content(path), [PROGRAM, "serve", f"127.0.0.1:{free_port()}", "1", "keep", path]
    for place in (folder, os.path.dirname(path)):
        os.chmod(place, 0o755)
    for mode in (0o000, 0o444):
        os.chmod(path, mode)
        done = subprocess.run(words, input="{}", capture_output=True, text=True, timeout=PATIENCE, check=False,
                              **({"user": "nobody", "group": "nogroup"} if os.getuid() == 0 else {}))
        assert (done.returncode, done.stdout) == (12, ""), done
        assert done.stderr.splitlines()[-1] == "murmur: 12 KeeperFault" and content(path) == before, done
    os.chmod(path, 0o600)
    starts_as_before(folder, path, seen)


# ---- damage

@test
def a_file_that_is_cut_is_refused(folder):
    """At each 512th byte; one of no bytes is a new file."""
    path, _ = filled(folder)
    whole, sizes = content(path), 0
    for size in range(512, len(whole), 512):
        cut = place_in(folder)
        with open(cut, "wb") as file:
            file.write(whole[:size])
        refused(folder, cut, beside=("-wal",))
        sizes += 1
    empty = place_in(folder)
    with open(empty, "wb"):
        pass
    run_once(folder, empty)
    return f"{sizes} sizes"


@test
def a_changed_byte_of_the_first_page_is_whole_or_refused(folder):
    path, seen = filled(folder)
    whole, refusals, places = content(path), 0, range(0, PAGE, STEP)
    generator = random.Random(1)
    for at in places:
        changed, place = bytearray(whole), at if STEP == 1 else at + generator.randrange(STEP)
        changed[place] ^= 0x55
        spoiled = place_in(folder)
        with open(spoiled, "wb") as file:
            file.write(changed)
        refusals += one_byte(folder, spoiled, seen)
    return f"{refusals} of {len(places)} refused"


def one_byte(folder, path, seen):
    """Whether a server refuses a file of which a byte was changed; else it has the same channels."""
    before = content(path)
    with KeepingServer(tempfile.mkdtemp(dir=folder), path) as server:
        if server.is_open():
            client = server.superuser()
            told = dict(client.channels)
            client.close()
            assert server.ended()[0] == 0 and told == {row[1]: number for number, row in seen[0].items()}, told
            assert seen_in(kept.read(path)) == seen
            return 0
        code, _, lines = server.ended()
    assert code in (12, 13) and content(path) == before, (code, lines)
    return 1


@test
def a_log_that_is_gone_is_no_harm_after_an_end_in_order(folder):
    path, seen = filled(folder)
    if os.path.exists(path + "-wal"):
        os.remove(path + "-wal")
    starts_as_before(folder, path, seen)


if __name__ == "__main__":
    sys.exit(test.run())
