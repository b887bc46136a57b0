#!/usr/bin/env python3
"""Tests of the views that a server gives at a second address, over plain sockets. MURMUR is the program.

Each view is compared with what clients of the same server were sent. Prints a line a test; the status is 1 where one
failed.
"""
import json
import os
import select
import socket
import subprocess
import sys
import time
from concurrent.futures import ThreadPoolExecutor
from contextlib import suppress
from pathlib import Path

from client import PATIENCE
from crowds import LONG, LONG_LIVED, VIEWS_A_SECOND, ask, fill, talkers_at_a_door_for_views
from reader.mumble import CHANNEL_REMOVE, CHANNEL_STATE, PERMISSIONS, USER_REMOVE, USER_STATE, VOICE, decode
from server import MANY_VIEWS, Server, Tests, ViewServer, read_to_the_end
from trial import RELAY, WHY, free_port, wait
from viewing import TRAPS, TWO_USERS, channel, document, user

# How many views are open at once, how many come in a second, and how many of them at once.
OPEN, A_SECOND, AT_ONCE = 16, 10, 20
# For how long a view waits for who takes nothing, in seconds, and how long a busy machine may take beside that.
VIEW_PATIENCE, SLACK = 10, 2
# For how long a flood of connections lasts, in seconds.
FLOOD_SECONDS = 4

WHY_NOW = os.path.join(RELAY, "../docs/why-now")

test = Tests()


class Seen:
    """Channels and users as the messages say that a client was sent."""

    def __init__(self, client):
        self.channels, self.users = {}, {}
        for kind, payload in client.frames:
            if kind in TAKEN:
                TAKEN[kind](self, decode(kind, payload))

    def take_channel(self, said):
        number = said["channel_id"]
        one = self.channels.setdefault(number, {"links": set(), "parent": 0, "temporary": False})
        one.update({key: said[key] for key in ("name", "parent", "temporary") if key in said})
        for other in (*said.get("links", ()), *said.get("links_add", ())):
            one["links"].add(other)
        for other in said.get("links_remove", ()):
            one["links"].discard(other)

    def take_channel_away(self, said):
        del self.channels[said["channel_id"]]

    def take_user(self, said):
        one = self.users.setdefault(said["session"], {"listens": set(), "channel_id": 0})
        one.update(said)
        one["listens"] |= set(said.get("listening_channel_add", ()))
        one["listens"] -= set(said.get("listening_channel_remove", ()))

    def take_user_away(self, said):
        del self.users[said["session"]]

    def document(self, revision):
        """The document that is due. Who has come first is first in it, where nobody has left."""
        channels = [channel(number, one["name"], one["parent"], one["links"], one["temporary"])
                    for number, one in sorted(self.channels.items()) if number]
        users = [user(number, one["name"], one["channel_id"], one.get("user_id"),
                      any(one.get(key) for key in ("mute", "self_mute", "suppress")),
                      any(one.get(key) for key in ("deaf", "self_deaf")), one["listens"])
                 for number, one in sorted(self.users.items())]
        return document(channels, users, revision, self.channels[0]["links"])


TAKEN = {CHANNEL_STATE: Seen.take_channel, CHANNEL_REMOVE: Seen.take_channel_away, USER_STATE: Seen.take_user,
         USER_REMOVE: Seen.take_user_away}


def seen_so(client, session, seconds=PATIENCE, **values):
    """Waits until a client was sent this of a user."""
    return client.wait_until(lambda: (one := Seen(client).users.get(session)) is not None
                             and all(one.get(key) == value for key, value in values.items()), seconds)


def talk(client):
    client.send(VOICE, bytes([0x80, 1, 3, 7, 7, 7]))


def documents_differ(given, wanted):
    """Where two documents differ, for a failed test."""
    at = next((at for at, (one, other) in enumerate(zip(given, wanted)) if one != other), min(len(given), len(wanted)))
    return f"{len(given)} bytes of {len(wanted)}, another at {at}: {given[at - 40:at + 40]} {wanted[at - 40:at + 40]}"


def same(given, wanted):
    assert given == wanted, documents_differ(given, wanted)


# ---- what is shown

@test
def views_are_given_in_each_form(folder):
    forms = ["unix:view.sock", f"127.0.0.1:{free_port()}"]
    if os.path.exists("/proc/net/if_inet6"):
        forms.append(f"[::1]:{free_port()}")
    for form in forms:
        with ViewServer(folder, 2, 3, form) as server:
            ann, bob = server.client().log_in("ann"), server.client().log_in("bob")
            for _ in range(3):
                same(server.view(), TWO_USERS)
            ann.close()
            bob.close()
            totals = server.totals()
            assert (totals["connections"], totals["viewed"]) == (2, 3), totals
    return f"{len(forms)} forms"


@test
def what_two_users_do_is_in_the_next_view(folder):
    """They talk all the time, and each view is due after what one of them has done and both were sent."""
    silent = {"id": 3, "parent": 0, "name": "Silent", "acls": [{"group": "all", "deny": PERMISSIONS["Speak"]}]}
    rooms = {"channels": [{"id": 1, "parent": 0, "name": "Lobby"}, {"id": 2, "parent": 1, "name": TRAPS[2]}, silent],
             "links": [[1, 3]]}
    deeds = [("ann", {"channel_id": 1}), ("bob", {"channel_id": 2}), ("bob", {"self_mute": 1}),
             ("ann", {"listening_channel_add": [2, 3]}), ("ann", {"self_deaf": 1, "self_mute": 1}),
             ("bob", {"self_mute": 0}), ("ann", {"listening_channel_remove": [2]}), ("bob", {"channel_id": 3}),
             ("ann", {"self_deaf": 0, "self_mute": 0}), ("bob", {"channel_id": 0})]
    with ViewServer(folder, 2, document=rooms) as server:
        people = {name: server.client().log_in(name) for name in ("ann", "bob")}
        seen_so(people["ann"], people["bob"].session, name="bob")
        same(server.view(), Seen(people["ann"]).document(2))
        for revision, (name, deed) in enumerate(deeds, 3):
            for client in people.values():
                talk(client)
            actor = people[name]
            ask(actor, USER_STATE, session=actor.session, **deed)
            for client in people.values():
                seen_so(client, actor.session, **deed)
                talk(client)
            shown = server.view()
            for client in people.values():
                client.read(0.05)
                same(shown, Seen(client).document(revision))
        people["ann"].close()
        people["bob"].wait(USER_REMOVE)
        same(server.view(), Seen(people["bob"]).document(len(deeds) + 3))
        people["bob"].close()
        totals = server.totals()
        assert totals["viewed"] == len(deeds) + 2 and totals["looks"] >= 2 * len(deeds), totals
    return f"{len(deeds) + 2} views, {totals['looks']} packets"


@test
def why_now_names_those_who_hear(folder):
    """And says why the others do not: what it says of a view is what comes of a packet of ann's."""
    silent = {"id": 3, "parent": 0, "name": "Silent", "acls": [{"group": "all", "deny": PERMISSIONS["Speak"]}]}
    rooms = {"channels": [{"id": 1, "parent": 0, "name": "Lobby"}, {"id": 2, "parent": 0, "name": "Hall"}, silent],
             "links": [[1, 2], [1, 3]]}
    deeds = {"ann": [{"channel_id": 1}], "bob": [{"channel_id": 1}], "cat": [{"channel_id": 2}],
             "dan": [{"channel_id": 3}], "eve": [{"listening_channel_add": [1]}],
             "fay": [{"channel_id": 1}, {"self_deaf": 1}], "gus": []}
    with ViewServer(folder, len(deeds), document=rooms) as server:
        people = {name: server.client().log_in(name) for name in deeds}
        for name, client in people.items():
            for deed in deeds[name]:
                ask(client, USER_STATE, session=client.session, **deed)
                for other in people.values():
                    seen_so(other, client.session, **deed)
        Path(folder, "view.json").write_bytes(server.view())
        Path(folder, "rooms.json").write_text(json.dumps(rooms), encoding="utf-8")
        said = subprocess.run([WHY_NOW, "view.json", "rooms.json", "ann"], cwd=folder, capture_output=True, text=True,
                              env={**os.environ, "MURMUR_WHY": WHY}, check=False)
        lines = said.stdout.splitlines()[1:]
        words = dict(zip(people, (line.split(" ", 2)[2] for line in lines)))
        assert words == {
            "ann": "is the speaker", "bob": "talk", "cat": "talk",
            "dan": "the speaker lacks Speak in 3 Silent: denied by entry 0 of 3 Silent (group all)",
            "eve": "listening", "fay": "deafened itself", "gus": "is not where the speaker is heard",
        }, (said.stdout, said.stderr)
        talk(people["ann"])
        for name, client in people.items():
            if words[name] in ("talk", "listening"):
                client.wait(VOICE)
        for client in people.values():
            client.read(0.05)
        hearers = [name for name, client in people.items() if any(kind == VOICE for kind, _ in client.frames)]
        assert hearers == ["bob", "cat", "eve"], hearers


@test
def nothing_is_read_of_who_looks(folder):
    with ViewServer(folder, 1) as server:
        with server.client().log_in("ann").stream as ann:
            due = document([], [user(1, "ann")], 1)
            for sent in (b"GET / HTTP/1.1\r\nHost: x\r\n\r\n", b"\0" * 5000):
                with server.view_stream() as stream:
                    # it may be closed already
                    with suppress(BrokenPipeError):
                        stream.sendall(sent)
                    same(read_to_the_end_or_reset(stream), due)
            # who writes no more, or has gone, holds up nobody
            with server.view_stream() as stream:
                stream.shutdown(socket.SHUT_WR)
                same(read_to_the_end(stream), due)
            server.view_stream().close()
            same(server.view(), due)
            ann.close()
        assert server.totals()["viewed"] in (4, 5)


def read_to_the_end_or_reset(stream):
    """All that comes: what nobody has read may end it by a reset, behind the last byte."""
    back = bytearray()
    with suppress(ConnectionResetError):
        while piece := stream.recv(65536):
            back += piece
    return bytes(back)


# ---- how a server with views begins and ends

@test
def an_address_that_cannot_be_opened_ends_it_with_status_8(folder):
    with socket.socket() as taken:
        taken.bind(("127.0.0.1", 0))
        taken.listen()
        port = taken.getsockname()[1]
        for address, line in ((f"127.0.0.1:{port}", f"murmur: cannot listen on 127.0.0.1:{port}: "),
                              ("unix:/no/such/folder", "murmur: cannot listen on unix:/no/such/folder: "),
                              ("nowhere", "murmur: nowhere is no address; there are IP:PORT, ")):
            for words in ((), ("journal",)):
                with Server(folder, 1, words=(*words, "view", address, "1")) as server:
                    output, _ = server.process.communicate(timeout=PATIENCE)
                    assert (server.process.returncode, output) == (8, ""), (server.process.returncode, output)
                    assert line in server.log() and server.log().endswith("murmur: 8 DoorFault\n"), server.log()
                    assert_refused(server)


def assert_refused(server):
    """Nobody is let in there."""
    try:
        server.connect().close()
    except ConnectionRefusedError:
        return
    raise AssertionError("somebody was let in")


@test
def a_stop_ends_it_with_a_million_views_to_come(folder):
    with ViewServer(folder, 1_000_000, MANY_VIEWS, MURMUR_STOP="unix:stop.sock") as server:
        ann = server.client().log_in("ann")
        same(server.view(), document([], [user(1, "ann")], 1))
        began = time.monotonic()
        drained = subprocess.run([os.path.join(RELAY, "drain"), f"{folder}/stop.sock"], capture_output=True, text=True,
                                 timeout=90, check=False)
        seconds = time.monotonic() - began
        assert drained.returncode == 0, drained
        ann.close()
        totals = server.totals()
        assert (totals["connections"], totals["viewed"]) == (1, 1), totals
        assert seconds < VIEW_PATIENCE, seconds
    return f"after {seconds:.1f} s"


@test
def it_ends_with_its_last_session(folder):
    """Whoever waits for a view then gets none, or a whole one."""
    with ViewServer(folder, 1) as server:
        server.client().log_in("ann").close()
        totals = server.totals()
        assert (totals["connections"], totals["viewed"]) == (1, 0), totals
    with ViewServer(folder, 1, 2) as server:
        # no views are left: who comes now waits, and is closed at the end
        with server.client().log_in("ann").stream:
            server.view()
            server.view()
            late = server.view_stream()
            late.settimeout(0.5)
            try:
                assert not late.recv(1)
                raise AssertionError("a view too many was closed")
            except TimeoutError:
                pass
        assert server.totals()["viewed"] == 2
        assert read_to_the_end_or_reset(late) == b""
        late.close()


# ---- how many, and how fast

@test
def ten_come_in_a_second_and_twenty_at_once(folder):
    count = 50
    with ViewServer(folder, 1) as server:
        with server.client().log_in("ann").stream:
            time.sleep(2)
            began, seconds = time.monotonic(), []
            streams = [server.view_stream() for _ in range(count)]
            for stream in streams:
                with stream:
                    same(read_to_the_end(stream), document([], [user(1, "ann")], 1))
                seconds.append(time.monotonic() - began)
        assert server.totals()["viewed"] == count
    least = (count - AT_ONCE) / A_SECOND
    assert seconds[AT_ONCE - 1] < least / 2, seconds
    assert least - 0.2 < seconds[-1] < least + SLACK, seconds
    return f"{AT_ONCE} in {seconds[AT_ONCE - 1]:.1f} s, {count} in {seconds[-1]:.1f} s"


@test
def a_long_document_is_read_slowly_and_who_reads_nothing_is_cut_off(folder):
    """No socket in the machine holds it. Of sixteen one takes a byte a millisecond, for longer than a view waits for
    who takes nothing, as the others do. They do not keep the seventeenth out."""
    with ViewServer(folder, 2, document=LONG_LIVED, MURMUR_PACE="none") as server, ThreadPoolExecutor() as pool:
        ann, asked = fill(server)
        bob = server.client().log_in("bob")
        due = Seen(bob).document(1 + asked + 1)
        assert len(due) >= LONG, len(due)
        same(server.view(), due)
        slow = server.view_stream()
        deaf = [server.view_stream() for _ in range(OPEN - 1)]
        wait(lambda: all(held(stream) for stream in (slow, *deaf)), PATIENCE)
        began, slowly = time.monotonic(), pool.submit(read_slowly, slow, VIEW_PATIENCE + SLACK)
        with server.view_stream() as stream:
            first = stream.recv(1)
            seconds = time.monotonic() - began
            same(first + read_to_the_end(stream), due)
        assert seconds < VIEW_PATIENCE + SLACK, seconds
        # each has a patience of its own, and who reads before it is over gets all
        wait(lambda: all(is_shut(stream) for stream in deaf), PATIENCE)
        cut = [read_to_the_end_or_reset(stream) for stream in deaf]
        assert all(due.startswith(one) and len(one) < len(due) for one in cut), [len(one) for one in cut]
        by_bytes, whole = slowly.result()
        same(whole, due)
        for one in (ann, bob, slow, *deaf):
            one.close()
        assert server.totals()["viewed"] == 3
    return f"{len(due):,} bytes, {by_bytes:,} of them one by one; the {OPEN + 1}th waited {seconds:.1f} s"


def held(stream):
    """Whether something waits to be read."""
    stream.setblocking(False)
    try:
        return bool(stream.recv(1, socket.MSG_PEEK))
    except BlockingIOError:
        return False
    finally:
        stream.settimeout(PATIENCE)


def is_shut(stream):
    """Whether the server has closed a connection in the machine, whatever is left to be read of it."""
    events = select.poll()
    events.register(stream, select.POLLRDHUP)
    return bool(events.poll(0))


def read_slowly(stream, seconds):
    """Reads a byte a millisecond for so long, and then the rest. How many bytes that were, and all."""
    began, back = time.monotonic(), bytearray()
    while time.monotonic() < began + seconds and (piece := stream.recv(1)):
        back += piece
        # who is late by now makes it up
        time.sleep(max(began + len(back) / 1000 - time.monotonic(), 0))
    return len(back), bytes(back) + read_to_the_end_or_reset(stream)


# ---- beside those who talk

@test
def a_flood_of_views_costs_no_talker_a_copy(folder):
    port = free_port()
    with talkers_at_a_door_for_views(folder, port) as (server, talkers):
        began = time.monotonic()
        connections, whole = talkers.talk_beside(FLOOD_SECONDS, "views", port, VIEWS_A_SECOND)
        talkers.part()
        totals = server.totals()
        seconds = time.monotonic() - began
    assert totals["full"] == 0, totals
    assert connections >= 10 * A_SECOND * FLOOD_SECONDS, connections
    assert AT_ONCE <= totals["viewed"] <= AT_ONCE + A_SECOND * (seconds + 1), totals
    return f"{talkers.circle.due} copies beside {connections} connections, of which {whole} got a view"


if __name__ == "__main__":
    sys.exit(test.run())
