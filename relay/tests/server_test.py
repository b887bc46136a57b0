#!/usr/bin/env python3
"""Tests of the server over plain sockets, without the relay. MURMUR is the program.

Each test starts a server of its own, for as many connections as it makes; the server is to end by itself with the
line of totals that follows from them. Prints a line a test; the status is 1 where one failed.
"""
import hashlib
import json
import os
import re
import signal
import socket
import subprocess
import sys
import tempfile
import time

from client import ENTER, PATIENCE, Ended, PlainClient, parse
from reader.mumble import ACL, AUTHENTICATE, CHANNEL_STATE, REJECT, TEXT_MESSAGE, USER_STATE, VERSION, VOICE
from reader.wire import HEADER, frame, message
from server import HEADER_PATIENCE, LONGEST_HEADER, SIGNATURE, TCP_OVER_IPV6, Server, Tests, header, is_closed, reset
from trial import RELAY, free_port, wait

# The most connections that a server has open at once.
CONNECTION_LIMIT = 1024

test = Tests()


@test
def there_is_a_door_in_each_form(folder):
    here, there = free_port(), free_port()
    forms = {f"127.0.0.1:{here}": (socket.AF_INET, ("127.0.0.1", here), b""),
             "unix:the.sock": (socket.AF_UNIX, f"{folder}/the.sock", b""),
             f"proxy:127.0.0.1:{there}": (socket.AF_INET, ("127.0.0.1", there), header("203.0.113.7")),
             "proxy:unix:other.sock": (socket.AF_UNIX, f"{folder}/other.sock", header("2001:db8::7", TCP_OVER_IPV6))}
    if os.path.exists("/proc/net/if_inet6"):
        port = free_port()
        forms[f"[::1]:{port}"] = (socket.AF_INET6, ("::1", port), b"")
    for address, (family, where, first) in forms.items():
        with Server(folder, 1, address) as server:
            stream = socket.socket(family)
            stream.connect(where)
            stream.sendall(first)
            PlainClient(stream).log_in("ann").close()
            totals = server.totals()
            assert totals == {"connections": 1, "accepted": 2, "looks": 0, "copies": 0, "full": 0, "stale": 0}, totals
            assert f"murmur: listening on {address}\n" in server.log(), server.log()
            assert re.search(r"^murmur: 1 closed after \d+ s, \d+ bytes in, \d+ out$", server.log(), re.M), server.log()
            sources = {"proxy:127.0.0.1": "203.0.113.7", "proxy:unix": "2001:db8::7"}
            for form, source in sources.items():
                if address.startswith(form):
                    assert f"murmur: 1 from {source}\n" in server.log(), server.log()
    return f"{len(forms)} forms"


@test
def what_is_no_address_or_taken_is_said(folder):
    with socket.socket() as taken:
        taken.bind(("127.0.0.1", 0))
        taken.listen()
        port = taken.getsockname()[1]
        for address, line in (("localhost:1", "murmur: localhost:1 is no address; there are IP:PORT, "),
                              (f"127.0.0.1:{port}", f"murmur: cannot listen on 127.0.0.1:{port}: "),
                              ("unix:/no/such/folder", "murmur: cannot listen on unix:/no/such/folder: ")):
            with Server(folder, 1, address, MURMUR_LOG="none") as server:
                assert server.process.wait(PATIENCE) == 8, server.process.returncode
                assert line in server.log() and server.log().endswith("murmur: 8 DoorFault\n"), server.log()


@test
def a_faulty_configuration_is_named(folder):
    with Server(folder, 1, document={"bandwidth": "much"}) as server:
        assert server.process.wait(PATIENCE) == 6
        assert re.fullmatch(r"murmur: 6 BadConfig \d+ bandwidth\n", server.log()), server.log()


@test
def a_socket_of_a_dead_server_is_removed_and_of_a_living_one_is_not(folder):
    address = "unix:the.sock"
    first = Server(folder, 1, address)
    first.process.send_signal(signal.SIGKILL)
    first.stop()
    assert os.path.exists(f"{folder}/the.sock")
    with Server(folder, 1, address) as second:
        with tempfile.TemporaryDirectory() as other, Server(other, 1, f"unix:{folder}/the.sock") as third:
            assert third.process.wait(PATIENCE) == 8, third.log()
        # which has not noticed that the third asked
        stream = socket.socket(socket.AF_UNIX)
        stream.connect(f"{folder}/the.sock")
        PlainClient(stream).log_in("ann").close()
        assert second.totals()["connections"] == 1


@test
def headers_come_in_any_pieces(folder):
    port = free_port()
    whole = header("198.51.100.23")
    assert len(whole) == 28
    with Server(folder, 3 + 1 + 1, f"proxy:127.0.0.1:{port}") as server:
        for pieces in (1, 2, 28):
            stream = server.connect()
            length = -(-len(whole) // pieces)
            for at in range(0, len(whole), length):
                stream.sendall(whole[at:at + length])
                time.sleep(0.01)
            PlainClient(stream).log_in(f"in {pieces}").close()
        # further fields are skipped, as many as there may be, and of one that is the relay's own nothing is said
        longest = header("2001:db8::8", TCP_OVER_IPV6, extra=bytes(LONGEST_HEADER - 16 - 36))
        assert len(longest) == LONGEST_HEADER
        for first in (SIGNATURE + bytes([0x20, 0, 0, 0]), longest):
            stream = server.connect()
            stream.sendall(first)
            PlainClient(stream).log_in(f"of {len(first)}").close()
        assert server.totals()["connections"] == 5
        sources = re.findall(r"^murmur: \d+ from (.*)$", server.log(), re.M)
        assert sources == ["198.51.100.23"] * 3 + ["2001:db8::8"], server.log()
        assert server.log().count(" closed after ") == 4, server.log()


@test
def false_headers_are_closed_and_are_no_connections(folder):
    port = free_port()
    false = [b"\x00\x00\x00\x00\x00\x05", SIGNATURE[:11] + b"!", header("198.51.100.25", command=0x31),
             header("2001:db8::9", family=0x23),
             header("198.51.100.25", extra=bytes(LONGEST_HEADER - 16 - 12 + 1))]
    with Server(folder, 1, f"proxy:127.0.0.1:{port}") as server:
        for first in false:
            stream = server.connect()
            stream.sendall(first)
            assert is_closed(stream, HEADER_PATIENCE - 1), first
        # one that ends in the midst of it, and one that goes silent there
        server.connect().close()
        silent = server.connect()
        silent.sendall(SIGNATURE)
        began = time.monotonic()
        assert is_closed(silent)
        assert time.monotonic() - began > HEADER_PATIENCE - 2
        stream = server.connect()
        stream.sendall(header("198.51.100.26"))
        PlainClient(stream).log_in("ann").close()
        assert server.totals()["connections"] == 1
        assert f"header was closed, {len(false) + 2} until now" in server.log(), server.log()


@test
def a_login_may_end_at_each_byte(folder):
    login = b"".join(frame(kind, payload) for kind, payload in
                     ((VERSION, message((1, 0x10400), (2, "test"))), (AUTHENTICATE, message((1, "cut"), (5, 1)))))
    with Server(folder, 2 * (len(login) + 1) + 1) as server:
        for length in range(len(login) + 1):
            for is_reset in (False, True):
                stream = server.connect()
                stream.sendall(login[:length])
                if is_reset:
                    reset(stream)
                stream.close()
        ann = server.client().log_in("ann")
        ann.wait_until(lambda: ann.user("cut") is None or None)
        ann.close()
        totals = server.totals()
        assert totals["connections"] == 2 * (len(login) + 1) + 1, totals
        # each whole login but a reset one, which may be seen or not, is a login and a leave
        assert totals["accepted"] in (4, 6), totals
    return f"{len(login)} bytes"


@test
def one_more_than_may_be_open_waits(folder):
    def wanting_in(name):
        client = server.client()
        client.send(AUTHENTICATE, message((1, name), (5, 1)))
        return client

    with Server(folder, CONNECTION_LIMIT + 2) as server:
        streams = [server.connect() for _ in range(CONNECTION_LIMIT)]
        wait(lambda: f"murmur: {CONNECTION_LIMIT} from " in server.log(), PATIENCE)
        first, second = wanting_in("first"), wanting_in("second")
        # not as long as a thread sleeps that nobody wakes, which is a second
        first.stay(0.5)
        assert first.session is None and f"murmur: {CONNECTION_LIMIT + 1} from " not in server.log()
        streams.pop().close()
        first.wait_until(lambda: first.session)
        # as much as a client that goes, one that the server closes itself leaves its place to the next one at once
        streams[-1].sendall(frame(AUTHENTICATE, message((1, "first"), (5, 1))))
        second.wait_until(lambda: second.session)
        assert is_closed(streams[-1])
        for stream in (first, second, *streams):
            stream.close()
        assert server.totals()["connections"] == CONNECTION_LIMIT + 2
        assert "overslept" not in server.log(), server.log()


@test
def nobody_comes_in_after_the_last_session(folder):
    with Server(folder, 1) as server:
        ann = server.client().log_in("ann")
        late = server.client()
        late.send(AUTHENTICATE, message((1, "late"), (5, 1)))
        late.stay(0.5)
        assert late.session is None
        ann.close()
        assert server.totals() == {"connections": 1, "accepted": 2, "looks": 0, "copies": 0, "full": 0, "stale": 0}
        assert is_closed(late.stream)


@test
def copies_are_those_of_the_totals(folder):
    users, packets, at_once = 8, 50, 10
    with Server(folder, users) as server:
        clients = [server.client().log_in(f"user{i}") for i in range(users)]
        for client in clients:
            client.wait_until(lambda: len(client.users) == users or None)
        for first in range(0, packets, at_once):
            for client in clients:
                for number in range(first, first + at_once):
                    client.send(VOICE, bytes([0x80, number, 3]) + client.session.to_bytes(3, "big"))
            wanted = (first + at_once) * (users - 1)
            for client in clients:
                client.wait_until(lambda: sum(kind == VOICE for kind, _ in client.frames) == wanted or None)
        for client in clients:
            heard = {}
            for kind, payload in client.frames:
                if kind == VOICE:
                    assert payload[1] == payload[-1] and payload[0] == 0x80, payload
                    heard.setdefault(payload[1], []).append(payload[2])
            assert heard == {other.session: list(range(packets)) for other in clients if other is not client}
        for client in clients:
            client.close()
        assert server.totals() == {"connections": users, "accepted": 2 * users, "looks": users * packets,
                                   "copies": users * packets * (users - 1), "full": 0, "stale": 0}


@test
def a_rejection_is_read_in_spite_of_a_megabyte_behind_it(folder):
    with Server(folder, 1, document={"server_password_sha256": "0" * 64}) as server:
        client = server.client()
        client.send(AUTHENTICATE, message((1, "guest"), (2, "guessed"), (5, 1)))
        client.stream.setblocking(False)
        sent, flood = 0, (HEADER.pack(TEXT_MESSAGE, 1000) + bytes(1000)) * 1000
        try:
            while sent < len(flood):
                sent += client.stream.send(flood[sent:])
        except OSError:
            pass
        assert dict(parse(client.wait(REJECT)))[1] == 4, client.frames
        assert is_closed(client.stream)
        client.close()
        assert server.totals()["accepted"] == 0
    return f"{sent} bytes behind it"


@test
def who_never_reads_hinders_nobody(folder):
    with Server(folder, 4, MURMUR_PACE="none") as server:
        deaf = server.client(SO_RCVBUF=4096).log_in("never reads")
        ann, bob = server.client().log_in("ann"), server.client().log_in("bob")
        ann.wait_until(lambda: len(ann.users) == 3 or None)
        # texts fill what the system keeps for it, and notices its box
        for number in range(300):
            bob.send(TEXT_MESSAGE, message((3, 0), (5, "x" * 20000)))
            ann.read(0)
        number = 0
        while number < 40000 and ann.user("never reads"):
            for _ in range(500):
                ann.mute(number % 2 == 0)
                number += 1
            bob.read(0)
            ann.read(0)
        for client in (ann, bob):
            client.wait_until(lambda: client.user("never reads") is None or None)
        # whoever gets its slot is sent everything
        carol = server.client().log_in("carol")
        carol.wait_until(lambda: len(carol.users) == 3 or None)
        ann.mute(False)
        ann.wait_until(lambda: not ann.user("ann")[1].get("self_mute") or None, 30)
        carol.wait_until(lambda: not carol.user("ann")[1].get("self_mute") or None, 30)
        ann.send(VOICE, bytes([0x80, 7, 3, 1, 2, 3]))
        carol.wait(VOICE, 4 * PATIENCE)
        for client in (deaf, ann, bob, carol):
            client.close()
        assert server.totals()["connections"] == 4
    return f"gone after {number} notices"


@test
def a_flood_of_commands_puts_out_nobody(folder):
    with Server(folder, 2) as server:
        flooder = server.client().log_in("flooder")
        slow = server.client(SO_RCVBUF=4096).log_in("slow")
        flooder.wait_until(lambda: flooder.user("slow"))
        began, sent = time.monotonic(), 0
        flood = (frame(USER_STATE, message((9, 1))) + frame(USER_STATE, message((9, 0)))) * 500
        flooder.stream.setblocking(False)
        slow.stream.settimeout(0.05)
        while time.monotonic() < began + 5:
            try:
                sent += flooder.stream.send(flood)
            except BlockingIOError:
                pass
            try:
                while flooder.stream.recv(65536):
                    pass
            except BlockingIOError:
                pass
            # 20,000 bytes a second
            time.sleep(0.05)
            try:
                slow.kept += slow.stream.recv(1000)
            except TimeoutError:
                pass
        seconds = time.monotonic() - began
        slow.read(1)
        slow.stay(0.5)
        changes = sum(kind == USER_STATE and b"\x48" in payload for kind, payload in slow.frames)
        assert slow.user("flooder") and slow.user("slow"), "somebody is gone"
        # 200 at once, and 20 a second
        assert 200 <= changes <= 200 + 20 * (seconds + 3), changes
        for client in (flooder, slow):
            client.close()
        assert server.totals()["connections"] == 2
    return f"{changes} changes in {seconds:.1f} s of {sent // 16} that were sent"


@test
def who_is_held_up_is_not_held_up_longer(folder):
    each_second, at_once, changes = 20, 20, 60
    with Server(folder, 2, MURMUR_PACE=f"{each_second}/{at_once},200/400") as server:
        quick, other = server.client().log_in("quick"), server.client().log_in("other")
        quick.wait_until(lambda: quick.user("other"))
        for number in range(changes):
            quick.mute(number % 2 == 0)
        came = []
        while len(came) < changes:
            assert other.read(5), f"{len(came)} changes came"
            now = time.monotonic()
            seen = sum(kind == USER_STATE and b"\x48" in payload for kind, payload in other.frames)
            came += [now] * (seen - len(came))
        # the second connection is of another worker, which must not sleep over the commands of the first
        gaps = [later - sooner for sooner, later in zip(came, came[1:])]
        for client in (quick, other):
            client.close()
        server.totals()
        assert max(gaps) < 0.9 and "overslept" not in server.log(), (max(gaps), server.log())
    return f"{changes} changes in {came[-1] - came[0]:.1f} s, at most {max(gaps):.2f} s apart"


@test
def the_bytes_of_messages_are_held_up_too(folder):
    # a text of 20,000 bytes counts as 21 messages; with the two numbers changed about the third would come sooner
    each_second, at_once, texts = 10, 50, 3
    with Server(folder, 2, MURMUR_PACE=f"{each_second}/{at_once},200/400") as server:
        ann, bob = server.client().log_in("ann"), server.client().log_in("bob")
        ann.wait_until(lambda: ann.user("bob"))
        began = time.monotonic()
        for number in range(texts):
            ann.send(TEXT_MESSAGE, message((3, 0), (5, str(number) * 20000)))
        came = []
        while len(came) < texts:
            assert bob.read(5), f"{len(came)} texts came"
            came = [dict(parse(payload))[5] for kind, payload in bob.frames if kind == TEXT_MESSAGE]
        seconds = time.monotonic() - began
        assert came == [str(number).encode() * 20000 for number in range(texts)]
        for client in (ann, bob):
            client.close()
        server.totals()
        assert seconds > (21 * texts - at_once) / each_second - 0.1, seconds
    return f"{texts} texts in {seconds:.1f} s"


@test
def a_signal_ends_it_and_its_clients_see_that(folder):
    with Server(folder, 10) as server:
        ann = server.client().log_in("ann")
        server.process.terminate()
        assert server.process.wait(PATIENCE) == -signal.SIGTERM
        try:
            ann.stay(5)
            raise AssertionError("the client is still connected")
        except Ended:
            pass


@test
def what_users_changed_is_saved_as_a_configuration(folder):
    """SuperUser makes channels, one of them temporary, moves one under a later one, links two and sets a list; what
    `relay/save` writes is accepted, and a server of it has the same channels and lists."""
    password = "a password for saving"
    accounts = [{"id": 0, "name": "SuperUser", "password_sha256": hashlib.sha256(password.encode()).hexdigest()}]
    document = {"welcome": "hello", "accounts": accounts, "channels": [{"id": 1, "parent": 0, "name": "Hall"}]}
    with Server(folder, 3, document=document) as server:
        user = server.client().log_in("SuperUser", password)
        for name in ("Stage", "Wing"):
            user.send(CHANNEL_STATE, message((2, 0), (3, name)))
            user.wait_until(lambda: user.channels.get(name))
        user.send(CHANNEL_STATE, message((2, 0), (3, "Passing"), (8, 1)))
        user.wait_until(lambda: user.channels.get("Passing"))
        user.send(CHANNEL_STATE, message((1, 1), (2, 3), (6, 2), (5, "a hall")))
        deny_enter = message((1, 1), (2, 1), (5, "all"), (7, ENTER))
        user.send(ACL, message((1, 2), (2, 1), (4, deny_enter)))
        user.stay(0.5)
        user.close()
        wait(lambda: "murmur: 1 closed" in server.log(), PATIENCE)
        saved = subprocess.run([os.path.join(RELAY, "save"), "--plain", server.address,
                                os.path.join(folder, "murmur.json")], capture_output=True, text=True, timeout=60,
                               env={**os.environ, "MURMUR_PASSWORD": password}, check=False)
        assert saved.returncode == 0, saved.stderr
        wrong = subprocess.run([os.path.join(RELAY, "save"), "--plain", server.address,
                                os.path.join(folder, "murmur.json")], capture_output=True, text=True, timeout=60,
                               env={**os.environ, "MURMUR_PASSWORD": "another password"}, check=False)
        assert wrong.returncode == 1 and "WrongUserPW" in wrong.stderr and not wrong.stdout, wrong
    new = json.loads(saved.stdout)
    assert {key: new[key] for key in ("welcome", "accounts")} == {"welcome": "hello", "accounts": accounts}, new
    # Hall is under Wing now, whose number is greater: all have new numbers, in the order of the tree
    assert new["channels"] == [
        {"id": 1, "parent": 0, "name": "Stage", "acls": [{"group": "all", "deny": ENTER}]},
        {"id": 2, "parent": 0, "name": "Wing"},
        {"id": 3, "parent": 2, "name": "Hall", "description": "a hall"}], new
    assert new["links"] == [[1, 3]], new
    with Server(folder, 1, document=new) as server:
        server.client().log_in("ann").close()
        server.totals()
    return "new numbers" if "with new numbers" in saved.stderr else saved.stderr


if __name__ == "__main__":
    sys.exit(test.run())
