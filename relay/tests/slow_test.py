#!/usr/bin/env python3
"""Tests that take half an hour, or want a machine that does nothing else. MURMUR is the program.

Prints a line a test; the status is 1 where one failed.
"""
import os
import sys
import time

from crowds import (LOGINS_A_SECOND, LONG_LIVED, LONGER, VIEWS_A_SECOND, fill, talkers_at_a_door_for_views,
                    talkers_beside_the_banned)
from server import Tests, ViewServer
from trial import free_port

# How many read a document slowly at one address.
READERS = 4
# How long a flood and the quiet before and behind it last, in seconds.
FLOOD_SECONDS, QUIET_SECONDS = 6, 4

test = Tests()


def compared(talkers, *words):
    """Talks in quiet, beside a flood of these words, and in quiet again. The medians of the delays, of which the second
    is at most twice the first, and how many connections came and were served, in words."""
    talkers.talk(QUIET_SECONDS)
    connections, served = talkers.talk_beside(FLOOD_SECONDS, *words)
    talkers.talk(QUIET_SECONDS)
    talkers.part()
    quiet, beside = talkers.medians()
    assert beside <= 2 * quiet, (quiet, beside)
    return (f"{talkers.circle.due} copies; median {quiet:.2f} ms in quiet, {beside:.2f} ms beside {connections} "
            f"connections, of which {served} ")


@test
def a_flood_of_views_delays_no_talker(folder):
    port = free_port()
    with talkers_at_a_door_for_views(folder, port) as (_, talkers):
        return compared(talkers, "views", port, VIEWS_A_SECOND) + "got a view"


@test
def logins_of_who_is_banned_delay_no_talker(folder):
    with talkers_beside_the_banned(folder) as (server, talkers):
        return compared(talkers, "banned", server.port, LOGINS_A_SECOND) + "were refused in time"


@test
def a_byte_a_millisecond_is_fast_enough_for_a_megabyte(folder):
    """Over TCP and in the machine, to several readers each at once."""
    servers = []
    for name, address in (("tcp", f"127.0.0.1:{free_port()}"), ("unix", "unix:view.sock")):
        below = os.path.join(folder, name)
        os.mkdir(below)
        servers.append(ViewServer(below, 1, view_address=address, document=LONG_LIVED, MURMUR_PACE="none"))
    try:
        people = [fill(server, with_links=True)[0] for server in servers]
        length, seconds = read_a_byte_a_millisecond(servers)
        for server, ann in zip(servers, people):
            ann.close()
            totals = server.totals()
            assert totals["viewed"] == READERS + 1, totals
    finally:
        for server in servers:
            server.stop()
    return f"{length:,} bytes in {seconds:.0f} s, to {READERS} over TCP and to {READERS} in the machine"


def read_a_byte_a_millisecond(servers):
    """Has readers at each server read its document. How long a document is, and how long it took."""
    due = [server.view() for server in servers]
    assert min(map(len, due)) >= LONGER, list(map(len, due))
    streams = [(server.view_stream(), whole) for server, whole in zip(servers, due) for _ in range(READERS)]
    began = time.monotonic()
    for at in range(max(map(len, due)) + 1):
        for stream, whole in streams:
            piece = stream.recv(1)
            assert piece == whole[at:at + 1], f"at {at} of {len(whole)}"
        # who is late by now makes it up
        time.sleep(max(began + (at + 1) / 1000 - time.monotonic(), 0))
    for stream, _ in streams:
        stream.close()
    return len(due[0]), time.monotonic() - began


if __name__ == "__main__":
    sys.exit(test.run())
