#!/usr/bin/env python3
"""Tests of kept channels that kill the server: what is in the file then is what was there after some beginning of
the edits that were accepted, and after a second of rest after all of them; and a server that is started again shows it.
MURMUR is the program; KILLS says how often it is killed while a client edits (5), RESTS how often after a rest (a fifth
of KILLS). Prints a line a test; the status is 1 where one failed."""
import math
import os
import random
import sys
import tempfile
import time

from keeping import (ROOT, Editor, HastyServer, KeepingServer, copied, edited, filled, is_kept, is_whole, place_in,
                     run_once, seen_in, starts_as_before)
from reader import kept
from server import Tests

KILLS = int(os.environ.get("KILLS", "5"))
RESTS = int(os.environ.get("RESTS", str(max(1, KILLS // 5))))
CHANNELS = 1000
# How many edits are sent in one piece right before a kill, more than are kept before it comes.
LAST_EDITS = 300
# What is there where no channel was ever made.
ROOT_ALONE = ({ROOT: (ROOT, "Root", "", 0, 0, {})}, set())
# How long it may take until all that was accepted is kept, in seconds.
REST = 1

test = Tests()


def below(folder, name):
    """A new folder in another."""
    path = os.path.join(folder, name)
    os.mkdir(path)
    return path


def one_edit(editor, generator):
    """An edit that is none of the making of channels: another name or place, a link, a list, a removal."""
    numbers = [number for number in editor.channels if number != ROOT]
    number = generator.choice(numbers)
    kind = generator.randrange(6)
    if kind == 0:
        editor.edit(number, name=f"renamed {len(editor.edits)}")
    elif kind == 1:
        parent = generator.choice([one for one in [ROOT, *numbers[:20]] if one not in editor.below(number)])
        if depth_of(editor, parent) < 10:
            editor.edit(number, parent=parent, name=f"moved {len(editor.edits)}")
    elif kind == 2:
        other = generator.choice(numbers)
        pair = (min(number, other), max(number, other))
        if other != number and (pair in editor.links or max(map(degrees(editor).get, pair, (0, 0))) < 60):
            editor.link(number, other, pair not in editor.links)
    elif kind == 3:
        editor.set_list(number, {"acls": [{"group": f"group {len(editor.edits)}", "grant": 4}]})
    elif kind == 4:
        editor.edit(number, description=f"text {len(editor.edits)}", position=-len(editor.edits), max_users=7)
    elif len(numbers) > 10 and len(editor.below(number)) < 5:
        editor.remove(number)


def depth_of(editor, number):
    steps = 0
    while number != ROOT:
        number, steps = editor.channels[number][0], steps + 1
    return steps


def degrees(editor):
    """How many links each channel has."""
    counts = {}
    for pair in editor.links:
        for end in pair:
            counts[end] = counts.get(end, 0) + 1
    return counts


def edit_until(editor, generator, end):
    """Makes a thousand channels, with other edits between, as long as there is time."""
    for number in range(CHANNELS):
        if time.monotonic() > end:
            return
        editor.make(f"channel {number}")
        if generator.random() < 0.3:
            one_edit(editor, generator)
        if number % 20 == 0:
            editor.read()


def edit_at_once(editor):
    """Sends many edits of a new channel in one piece."""
    with editor.at_once():
        number = editor.make("the last")
        for place in range(1, LAST_EDITS):
            editor.edit(number, position=place)


def beginning_of(editor, path, folder, before):
    """After how many of the edits the file has what was there. The program is not asked: what Python's own SQLite reads
    is compared."""
    there = seen_in(kept.read(path))
    is_whole(copied(path, folder))
    if there == ({}, set()):
        assert before == ROOT_ALONE, "what was kept before is lost"
        return 0
    for count, state in enumerate(editor.states(*before)):
        if state == there:
            return count
    raise AssertionError(f"no beginning of {len(editor.edits)} edits has these {len(there[0])} channels")


def begun(folder, path, is_new):
    """What is kept before a client edits: nothing but the root in a new file, else what an earlier server kept."""
    if is_new:
        return ROOT_ALONE
    editor = run_once(below(folder, "before"), path, edited)
    return editor.channels, editor.links


def time_to_keep(folder, generator):
    """How many seconds it takes until a thousand channels and the edits between are all kept."""
    path = os.path.join(folder, "kept.db")
    with KeepingServer(below(folder, "first"), path) as server:
        editor, began = Editor(server.superuser()), time.monotonic()
        edit_until(editor, generator, math.inf)
        is_kept(path, editor, folder)
        return time.monotonic() - began


def killed_once(folder, generator, is_new, seconds=None):
    """Kills a server so many seconds after its client began to edit, right behind a last piece of edits, or, without a
    number, a second after all of its edits, and starts another over its file. How many edits were sent, and how many
    of them were kept."""
    path = os.path.join(folder, "kept.db")
    before = begun(folder, path, is_new)
    with KeepingServer(below(folder, "first"), path) as server:
        assert server.is_open(), server.log()
        editor = Editor(server.superuser(), dict(before[0]), set(before[1]))
        end = math.inf if seconds is None else time.monotonic() + seconds
        edit_until(editor, generator, end)
        if seconds is None:
            editor.settle()
            time.sleep(REST)
        else:
            time.sleep(max(0, end - time.monotonic()))
            edit_at_once(editor)
        server.process.kill()
        server.process.wait()
    count = beginning_of(editor, path, folder, before)
    there = seen_in(kept.read(path))
    starts_as_before(below(folder, "second"), path, there if there[0] else ROOT_ALONE)
    return len(editor.edits), count


@test
def a_beginning_is_kept_when_it_is_killed(folder):
    """At any moment until all would be kept, in a new file, and in one in which an earlier server kept channels."""
    generator, counts = random.Random(1), []
    longest = time_to_keep(folder, generator)
    for turn in range(KILLS):
        with tempfile.TemporaryDirectory(dir=folder) as place:
            counts.append(killed_once(place, generator, turn % 2 == 0, generator.uniform(0, longest)))
    amid = sum(0 < kept_edits < sent for sent, kept_edits in counts)
    assert amid >= KILLS // 4, (longest, counts)
    sent, lost = sum(sent for sent, _ in counts), sum(sent - kept_edits for sent, kept_edits in counts)
    return f"{KILLS} kills within {longest:.1f} s, {amid} of them while it kept, {lost} of {sent} edits lost"


@test
def all_is_kept_after_a_second_of_rest(folder):
    generator, edits = random.Random(2), 0
    for turn in range(RESTS):
        with tempfile.TemporaryDirectory(dir=folder) as place:
            sent, kept_edits = killed_once(place, generator, turn % 2 == 0)
        assert kept_edits == sent, (turn, kept_edits, sent)
        edits += sent
    return f"{RESTS} rests, {edits} edits"


@test
def kills_at_a_start_leave_a_file_that_the_next_start_takes(folder):
    """Also where it was killed while it made the file; and what an earlier server kept stays."""
    generator = random.Random(3)
    for turn in range(KILLS):
        with tempfile.TemporaryDirectory(dir=folder) as place:
            path, seen = (place_in(place), ROOT_ALONE) if turn % 2 == 0 else filled(place)
            for start in range(4):
                with HastyServer(below(place, f"start {start}"), path) as server:
                    time.sleep(generator.uniform(0, 0.1))
                    server.process.kill()
                    server.process.wait()
            starts_as_before(place, path, seen)
    return f"{4 * KILLS} kills"


if __name__ == "__main__":
    sys.exit(test.run())
