#!/usr/bin/env python3
"""Tests of the file in which a server keeps its channels, on disks that are full, fail or are read-only. MURMUR is the
program. They mount file systems in memory, for which they need root, and have calls of the system fail by strace.
Prints a line a test; the status is 1 where one failed."""
import os
import signal
import subprocess
import sys
import tempfile
import time
from contextlib import contextmanager

from client import PATIENCE
from keeping import (Editor, KeepingServer, edited, is_kept, is_whole, place_in, refused, run_once, seen_in,
                     starts_as_before)
from reader import kept
from server import Tests
from trial import wait

PAGE = 4096

test = Tests()


@contextmanager
def mounted(folder, size):
    """A file system of this size in memory."""
    place = os.path.join(folder, "mounted")
    os.mkdir(place)
    subprocess.run(["mount", "-t", "tmpfs", "-o", f"size={size}", "none", place], check=True)
    try:
        yield place
    finally:
        subprocess.run(["umount", place], check=True)


def fill(place):
    """Leaves no room on a file system."""
    with open(os.path.join(place, "fill"), "wb", buffering=0) as file:
        try:
            while file.write(bytes(PAGE)):
                pass
        except OSError:
            pass


@test
def a_full_disk_refuses_a_new_file(folder):
    with mounted(folder, "64k") as place:
        path = os.path.join(place, "kept.db")
        with KeepingServer(tempfile.mkdtemp(dir=folder), path) as server:
            assert not server.is_open(), "it serves"
            code, output, lines = server.ended()
        assert (code, output, lines[-1]) == (12, "", "murmur: 12 KeeperFault"), (code, lines)
        subprocess.run(["mount", "-o", "remount,size=16m", place], check=True)
        editor = run_once(folder, path, edited)
        assert seen_in(kept.read(path)) == (editor.channels, editor.links)


@test
def a_disk_that_gets_full_costs_nothing_but_that_time(folder):
    """What is edited meanwhile is kept as soon as there is room; the server ends with 12 all the same."""
    with mounted(folder, "16m") as place:
        path = os.path.join(place, "kept.db")
        with KeepingServer(tempfile.mkdtemp(dir=folder), path) as server:
            editor = Editor(server.superuser())
            for number in range(300):
                if number == 100:
                    editor.settle()
                    fill(place)
                editor.make(f"channel {number}", description="x" * 2000)
            editor.settle()
            time.sleep(1)
            os.remove(os.path.join(place, "fill"))
            editor.make("the last")
            editor.settle()
            is_kept(path, editor, folder)
            editor.client.close()
            code, _, lines = server.ended()
        failed = "murmur: channels are not kept: " in server.log()
        assert code == (12 if failed else 0), (code, lines)
        assert not failed or lines[-1] == "murmur: 12 KeeperFault", lines
        assert failed == ("murmur: channels are kept again" in lines), lines
        assert seen_in(kept.read(path)) == (editor.channels, editor.links)
    return f"it {'was' if failed else 'was not'} met"


@contextmanager
def failing(server, call, number):
    """The calls of this name fail in a running server from this one on."""
    words = ["strace", "-f", "-p", str(server.process.pid), "-o", os.path.join(server.folder, "calls"), "-e",
             f"trace={call}", "-e", f"inject={call}:error=EIO:when={number}+"]
    with subprocess.Popen(words, stderr=subprocess.PIPE, text=True) as tracer:
        wait(lambda: "attached" in tracer.stderr.readline(), PATIENCE)
        try:
            yield
        finally:
            tracer.send_signal(signal.SIGINT)
            tracer.communicate(timeout=PATIENCE)


@test
def a_disk_that_fails_costs_nothing_but_that_time(folder):
    """Where syncs or writes fail, what was to be kept is taken back, and kept later; the server ends with 12."""
    for call in ("fdatasync", "fsync", "pwrite64"):
        path, failed = place_in(folder), 0
        with KeepingServer(tempfile.mkdtemp(dir=folder), path) as server:
            editor = Editor(server.superuser())
            first = editor.make("first")
            for number in (1, 2, 3):
                with failing(server, call, number):
                    editor.make(f"while it fails {number}")
                    editor.settle()
                    time.sleep(1)
                editor.edit(first, name=f"after {number}")
                editor.settle()
                is_kept(path, editor, folder)
            editor.client.close()
            code, _, lines = server.ended()
        failed = lines.count("murmur: channels are kept again")
        assert code == (12 if failed else 0), (call, code, lines)
        assert call != "pwrite64" or failed, lines
        assert seen_in(kept.read(path)) == (editor.channels, editor.links)
        is_whole(path)


@test
def a_mount_that_is_read_only_is_refused(folder):
    with mounted(folder, "16m") as place:
        path = os.path.join(place, "kept.db")
        editor = run_once(folder, path, edited)
        subprocess.run(["mount", "-o", "remount,ro", place], check=True)
        refused(folder, path)
        subprocess.run(["mount", "-o", "remount,rw", place], check=True)
        starts_as_before(folder, path, (editor.channels, editor.links))


if __name__ == "__main__":
    sys.exit(test.run())
