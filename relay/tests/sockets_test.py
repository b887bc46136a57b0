#!/usr/bin/env python3
"""Tests of how the server uses its sockets, over TCP and in the machine. MURMUR is the program.

A Ping is answered before a login by one with the same number, so a connection sends back what comes: each byte that is
lost, changed or late is seen. Each test starts a server of its own. Prints a line a test; the status is 1 where one
failed.
"""
import fcntl
import os
import re
import select
import socket
import struct
import sys
import termios
import threading
import time

from client import PATIENCE, parse
from reader.mumble import ACL, AUTHENTICATE, PING, REJECT, TEXT_MESSAGE, USER_STATE, VERSION, VOICE
from reader.wire import HEADER, frame, message
from server import (HEADER_PATIENCE, SIGNATURE, TCP_OVER_IPV4, TCP_OVER_IPV6, QuietServer, Server, Tests, header,
                    is_closed, read_to_the_end, reset)
from trial import RELAY, free_port, wait

# More connections than may be open at once.
MANY = 1100
# How many connections may wait for their headers at once.
WAITING = 64
# The longest payload of a frame, and how many such frames may be under way at once.
LONGEST, LONG_FRAMES = 8_388_607, 8
# How long what a client left behind is read, in seconds.
LEFT_BEHIND_LIMIT = 10
# How much more memory a server may have once all who sent much have gone, in megabytes.
MEMORY_LEFT = 20
# How much later than it should a busy machine may do something, in seconds.
SLACK = 9
# Long enough for what must not happen, in seconds.
A_WHILE = 0.5

test = Tests()


def ping(number):
    return frame(PING, message((1, number)))


def mute(is_mute):
    return frame(USER_STATE, message((9, int(is_mute))))


def changes(client):
    """What somebody's self-mute became, again and again."""
    values = (dict(parse(payload)) for kind, payload in client.frames if kind == USER_STATE)
    return [value[9] for value in values if 9 in value]


def number_of(wanted, client):
    return sum(kind == wanted for kind, _ in client.frames)


def texts(client):
    return [dict(parse(payload))[5] for kind, payload in client.frames if kind == TEXT_MESSAGE]


def read_exactly(stream, count):
    back = bytearray()
    while len(back) < count:
        piece = stream.recv(count - len(back))
        assert piece, "it was closed"
        back += piece
    return bytes(back)


def send_unread(stream, data):
    """Sends without a read, until the line takes no more for a while. How many bytes it took."""
    stream.setblocking(False)
    sent = 0
    while sent < len(data) and select.select([], [stream], [], A_WHILE)[1]:
        sent += stream.send(data[sent:sent + 65536])
    return sent


def send_and_read(stream, data, count):
    """Sends these bytes, and reads so many meanwhile."""
    stream.setblocking(False)
    sent, back = 0, bytearray()
    while len(back) < count:
        ready, has_room, _ = select.select([stream], [stream] if sent < len(data) else [], [], PATIENCE)
        assert ready or has_room, f"{len(back)} bytes of {count} came"
        if has_room:
            sent += stream.send(data[sent:sent + 65536])
        if ready:
            piece = stream.recv(65536)
            assert piece, "it was closed"
            back += piece
    return bytes(back)


def is_read(stream, seconds=A_WHILE):
    """Whether all that was sent over this socket of the machine is read within this many seconds."""
    end = time.monotonic() + seconds
    while struct.unpack("i", fcntl.ioctl(stream, termios.TIOCOUTQ, bytes(4)))[0] > 0:
        if time.monotonic() > end:
            return False
        time.sleep(0.001)
    return True


def never_overslept(server):
    assert "overslept" not in server.log(), server.log()


@test
def only_addresses_are_taken(folder):
    for address in ("127.0.0.1:0", "proxy:127.0.0.1:0"):
        with Server(folder, 1, address) as server:
            assert server.process.poll() is None, server.log()
    for address in ("localhost:0", "127.0.0.1", "[::1]", "unix:", "proxy:", "proxy:proxy:1", "proxy:localhost:1"):
        with Server(folder, 1, address) as server:
            assert server.process.wait(PATIENCE) == 8, address
            assert f"murmur: {address} is no address; there are IP:PORT, " in server.log(), server.log()


@test
def a_file_that_is_no_socket_stays(folder):
    with open(f"{folder}/file", "w") as file:
        file.write("text")
    os.mkdir(f"{folder}/folder")
    for name in ("file", "folder"):
        with Server(folder, 1, f"unix:{name}") as server:
            assert server.process.wait(PATIENCE) == 8, server.log()
    with open(f"{folder}/file") as file:
        assert file.read() == "text"
    assert os.listdir(f"{folder}/folder") == []


@test
def each_byte_comes_and_is_counted(folder):
    with Server(folder, 3) as server:
        for connection, pings in enumerate((3, 1, 0), 1):
            stream = server.connect()
            sent = b"".join(ping(number + 1) for number in range(pings))
            # the answers may be kept back until the server closes, and half a header is never answered
            stream.sendall(sent + ping(1)[:3])
            stream.shutdown(socket.SHUT_WR)
            back = read_to_the_end(stream)
            assert back == sent, back
            stream.close()
            line = rf"^murmur: {connection} closed after \d+ s, {len(sent) + 3} bytes in, {len(sent)} out$"
            wait(lambda: re.search(line, server.log(), re.M), PATIENCE)
        assert server.totals()["connections"] == 3
        assert server.log().count(" from 127.0.0.1\n") == 3, server.log()
        never_overslept(server)


@test
def what_is_kept_back_comes_whole_and_in_order(folder):
    pings = b"".join(ping((1 << 62) + number) for number in range(400_000))
    took = []
    for address in (None, "unix:the.sock"):
        with Server(folder, 1, address) as server:
            stream = server.connect(SO_RCVBUF=4096, SO_SNDBUF=4096)
            # several frames at once, the answers to which are kept back
            for first in range(1, 900, 9):
                few = b"".join(ping(number) for number in range(first, first + 9))
                stream.sendall(few)
                assert read_exactly(stream, len(few)) == few, first
            # who reads no answers is not read
            took.append(send_unread(stream, pings))
            assert took[-1] < len(pings), "the server reads on"
            back = send_and_read(stream, pings[took[-1]:], len(pings))
            assert back == pings, "bytes were lost or changed"
            stream.close()
            server.totals()
            never_overslept(server)
    return f"{took} bytes of {len(pings)} before the first was read"


@test
def what_a_full_socket_refuses_is_sent_later(folder):
    pings, most, count = ping(1 << 62) * 300, 1000, 0
    with Server(folder, 1, "unix:the.sock", MURMUR_PACE="none") as server:
        client = server.client().log_in("ann")
        # Until the line is full of answers to Pings. The last change is read by then, and decided once somebody reads:
        # nobody may sleep over it.
        while count < most:
            client.stream.sendall(pings + mute(count % 2 == 0))
            count += 1
            is_read(client.stream)
            client.stream.sendall(ping(1))
            if not is_read(client.stream):
                break
        assert count < most, "the server reads on"
        client.wait_until(lambda: number_of(PING, client) == count * 301 and len(changes(client)) == count or None)
        assert changes(client) == [1, 0] * (count // 2) + [1] * (count % 2)
        client.close()
        assert server.totals()["accepted"] == count + 2
        never_overslept(server)
    return f"{count} changes"


@test
def who_is_rejected_reads_why_and_then_the_end(folder):
    for address in (None, "unix:the.sock"):
        with Server(folder, 1, address, document={"server_password_sha256": "0" * 64}) as server:
            client = server.client()
            # in one piece: the answer is kept back at first, and much is unread when the server closes
            client.stream.sendall(frame(AUTHENTICATE, message((1, "guest"), (2, "guessed"), (5, 1))) +
                                  frame(TEXT_MESSAGE, bytes(1000)) * 24)
            assert dict(parse(client.wait(REJECT)))[1] == 4, client.frames
            # the server closes it, and notices that at once
            assert server.totals()["accepted"] == 0
            never_overslept(server)
            assert client.stream.getsockopt(socket.SOL_SOCKET, socket.SO_ERROR) == 0, "it was reset"
            assert read_to_the_end(client.stream) == b""
            client.close()


@test
def who_was_rejected_may_send_on(folder):
    """For a relay that cannot write throws away what it has not read."""
    def rejected():
        client = server.client()
        client.send(AUTHENTICATE, message((1, "guest"), (2, "guessed"), (5, 1)))
        assert dict(parse(client.wait(REJECT)))[1] == 4, client.frames
        assert read_to_the_end(client.stream) == b""
        return client

    for address in (None, "unix:the.sock"):
        with Server(folder, 2, address, document={"server_password_sha256": "0" * 64}) as server:
            client = rejected()
            for _ in range(3):
                client.send(TEXT_MESSAGE, bytes(1000))
                time.sleep(0.05)
            client.close()
            rejected().close()
            assert server.totals()["accepted"] == 0


@test
def clients_hear_each_other_at_once(folder):
    with Server(folder, 2) as server:
        ann, bob = server.client().log_in("ann"), server.client().log_in("bob")
        for number in range(20):
            for speaker, hearer in ((ann, bob), (bob, ann)):
                speaker.send(TEXT_MESSAGE, message((3, 0), (5, str(number))))
                hearer.wait_until(lambda: len(texts(hearer)) == number + 1 or None)
        for client in (ann, bob):
            client.close()
        server.totals()
        never_overslept(server)


@test
def who_floods_is_held_up_and_pings_are_not(folder):
    at_once, pings = 100, 500
    # a login is two messages
    floods = ((mute(True) + mute(False), f"1/{at_once},9/999", at_once - 2, lambda other: len(changes(other))),
              (frame(VOICE, bytes([0x80, 0, 0])) * 2, f"9/999,1/{at_once}", at_once, lambda other: number_of(VOICE, other)))
    for two, pace, least, came in floods:
        with Server(folder, 2, MURMUR_PACE=pace) as server:
            flooder, other = server.client().log_in("flooder"), server.client().log_in("other")
            other.wait_until(lambda: other.user("flooder"))
            began = time.monotonic()
            flooder.stream.sendall(two * 500)
            other.stream.sendall(ping(1) * pings)
            other.wait_until(lambda: number_of(PING, other) >= pings and came(other) >= least or None)
            other.stay(A_WHILE)
            seconds = time.monotonic() - began
            assert came(other) <= least + seconds + 1, f"{came(other)} in {seconds} s"
            for client in (flooder, other):
                reset(client.stream)
            server.totals()


@test
def what_a_client_left_behind_is_read_for_a_while(folder):
    at_once = 8
    with Server(folder, 3, MURMUR_PACE=f"1/{at_once},9/999") as server:
        stays, polite, hasty = (server.client().log_in(name) for name in ("stays", "polite", "hasty"))
        stays.wait_until(lambda: stays.user("hasty"))
        # a login is two messages, and the text counts as nine
        polite.send(TEXT_MESSAGE, message((3, 0), (5, "x" * 8000)))
        hasty.stream.sendall((mute(True) + mute(False)) * 50)
        for client in (polite, hasty):
            client.stream.shutdown(socket.SHUT_WR)
        closed = time.monotonic()
        stays.wait_until(lambda: texts(stays) == [b"x" * 8000] or None)
        stays.wait_until(lambda: stays.user("polite") is None or None)
        # the rest is lost
        stays.wait_until(lambda: stays.user("hasty") is None or None)
        seconds = time.monotonic() - closed
        assert seconds > LEFT_BEHIND_LIMIT - 1, f"after {seconds} s"
        assert at_once - 2 <= len(changes(stays)) <= at_once - 2 + seconds + 1, f"{len(changes(stays))} changes"
        assert is_closed(polite.stream) and is_closed(hasty.stream)
        stays.close()
        server.totals()
        never_overslept(server)
    return f"gone after {seconds:.1f} s"


@test
def who_resets_is_gone(folder):
    with Server(folder, 4) as server:
        stays = server.client().log_in("stays")
        for number in range(3):
            client = server.client().log_in("comes back")
            stays.wait_until(lambda: stays.user("comes back"))
            client.stream.sendall(ping(1) * number)
            reset(client.stream)
            stays.wait_until(lambda: stays.user("comes back") is None or None)
        stays.close()
        assert server.totals()["accepted"] == 8
        assert server.log().count(" closed after ") == 4, server.log()


@test
def who_has_gone_leaves_the_slot_free(folder):
    with Server(folder, MANY) as server:
        for number in range(MANY):
            stream = server.connect()
            stream.shutdown(socket.SHUT_WR)
            assert is_closed(stream), number
            stream.close()
        assert server.totals()["connections"] == MANY
        never_overslept(server)


@test
def a_false_header_leaves_the_slot_free(folder):
    with Server(folder, 1, f"proxy:127.0.0.1:{free_port()}") as server:
        for number in range(MANY):
            stream = server.connect()
            stream.sendall(b"GET / HTTP/1.0\r\n")
            assert is_closed(stream, HEADER_PATIENCE - 1), number
            stream.close()
        stream = server.connect()
        stream.sendall(header("203.0.113.7") + ping(1))
        assert read_exactly(stream, len(ping(1))) == ping(1)
        stream.close()
        assert server.totals()["connections"] == 1


@test
def what_follows_a_header_is_the_clients(folder):
    own, unnamed = SIGNATURE + b"\x20\0\0\0", [SIGNATURE + bytes([0x21, family, 0, 3]) + b"abc"
                                               for family in (0x00, 0x12, 0x22, 0x31, 0x32)]
    named = [header("203.0.113.7"), header("203.0.113.8", extra=b"abc"), header("2001:db8::7", TCP_OVER_IPV6)]
    for form in ("proxy:unix:the.sock", f"proxy:127.0.0.1:{free_port()}"):
        with Server(folder, len(named) + len(unnamed) + 1, form) as server:
            for first in (*named, own, *unnamed):
                stream = server.connect()
                # in one piece, so that the server could read them at once
                stream.sendall(first + ping(1) + ping(2))
                both = ping(1) + ping(2)
                assert read_exactly(stream, len(both)) == both, first
                stream.close()
            assert server.totals()["connections"] == len(named) + len(unnamed) + 1
            sources = re.findall(r"^murmur: \d+ from (.*)$", server.log(), re.M)
            assert sources == ["203.0.113.7", "203.0.113.8", "2001:db8::7"], server.log()


@test
def headers_that_lie_or_are_cut_are_closed(folder):
    def of(command, family, length, rest=bytes(64)):
        return SIGNATURE + bytes([command, family]) + struct.pack(">H", length) + rest
    lies = [b"PROXY TCP4 203.0.113.7 192.0.2.1 40000 64738\r\n", b"PROXY UNKNOWN\r\n", ping(1) * 4,
            # too short for the addresses of their family, too long for any, of another version, family or command
            of(0x21, TCP_OVER_IPV4, 11), of(0x21, TCP_OVER_IPV6, 35), of(0x21, TCP_OVER_IPV6, 12), of(0x20, 0, 0xFFFF),
            of(0x11, TCP_OVER_IPV4, 12), of(0x22, TCP_OVER_IPV4, 12), of(0x21, 0x13, 12), of(0x21, 0xFF, 12)]
    whole = header("2001:db8::7", TCP_OVER_IPV6)
    with Server(folder, 1, f"proxy:127.0.0.1:{free_port()}") as server:
        for lie in lies:
            stream = server.connect()
            stream.sendall(lie)
            assert is_closed(stream, HEADER_PATIENCE - 1), lie
        for length in range(len(whole)):
            stream = server.connect()
            stream.sendall(whole[:length])
            (reset if length % 2 else socket.socket.close)(stream)
        stream = server.connect()
        stream.sendall(whole + ping(1))
        assert read_exactly(stream, len(ping(1))) == ping(1)
        stream.close()
        assert server.totals()["connections"] == 1
        assert f", {len(lies) + len(whole)} until now" in server.log(), server.log()
    return f"{len(lies)} lies, {len(whole)} cuts"


@test
def who_sends_no_header_keeps_others_waiting_no_longer_than_that(folder):
    # silent, in the midst of the signature, and of the address
    begins = [b"", SIGNATURE[:6], header("203.0.113.9")[:20]]
    with Server(folder, 2, f"proxy:127.0.0.1:{free_port()}") as server:
        began = time.monotonic()
        silent = [server.connect() for _ in range(WAITING)]
        for number, stream in enumerate(silent):
            stream.sendall(begins[number % len(begins)])
        # all places are taken, so the next ones wait for one, also those whose header is whole
        late = [server.connect() for _ in range(2)]
        late[0].sendall(header("203.0.113.7") + ping(1))
        assert read_exactly(late[0], len(ping(1))) == ping(1)
        came = time.monotonic() - began
        assert HEADER_PATIENCE - 1 < came < HEADER_PATIENCE + SLACK, f"after {came:.1f} s"
        for stream in silent:
            assert is_closed(stream, SLACK)
        assert is_closed(late[1], HEADER_PATIENCE + SLACK)
        gone = time.monotonic() - began
        assert gone > 2 * HEADER_PATIENCE - 2, f"after {gone:.1f} s"
        last = server.connect()
        last.sendall(header("203.0.113.8") + ping(2))
        assert read_exactly(last, len(ping(2))) == ping(2)
        late[0].close()
        last.close()
        assert server.totals()["connections"] == 2
        assert re.findall(r" from (.*)$", server.log(), re.M) == ["203.0.113.7", "203.0.113.8"], server.log()
        never_overslept(server)
    return f"let in after {came:.1f} s"


@test
def a_long_frame_waits_until_another_link_is_closed(folder):
    with Server(folder, LONG_FRAMES + 2, "unix:the.sock", MURMUR_PACE="none") as server:
        def announce():
            stream = server.connect()
            stream.sendall(HEADER.pack(TEXT_MESSAGE, LONGEST))
            assert is_read(stream, PATIENCE)
            return stream
        # each has its room once the first byte behind the header is read
        streams = [announce() for _ in range(LONG_FRAMES)]
        for stream in streams:
            stream.sendall(b"x")
            assert is_read(stream, PATIENCE)
        waits, hangs_up = announce(), announce()
        for stream in (waits, hangs_up):
            stream.sendall(b"x")
        hangs_up.shutdown(socket.SHUT_WR)
        began = time.monotonic()
        assert is_closed(hangs_up), "who hung up is waited for"
        assert time.monotonic() - began > LEFT_BEHIND_LIMIT - 1, "who hung up was closed at once"
        assert not is_read(waits), "a byte was read without room"
        # the others go on meanwhile
        streams[0].sendall(b"x")
        assert is_read(streams[0], PATIENCE)
        streams.pop().close()
        assert is_read(waits, PATIENCE)
        for stream in (waits, hangs_up, *streams):
            stream.close()
        server.totals()


def ticks(server):
    """How long the threads of a server ran, in ticks of the clock."""
    with open(f"/proc/{server.process.pid}/stat") as stat:
        return sum(map(int, stat.read().rpartition(")")[2].split()[11:13]))


def rests(server):
    """Whether none of its threads runs for a while."""
    before = ticks(server)
    time.sleep(A_WHILE)
    return ticks(server) == before


@test
def who_has_nothing_to_do_sleeps(folder):
    with Server(folder, 2) as server:
        wait(lambda: rests(server), PATIENCE)
        # also where somebody is there, and where somebody was
        stays, goes = server.client().log_in("stays"), server.client().log_in("goes")
        wait(lambda: rests(server), PATIENCE)
        goes.close()
        stays.wait_until(lambda: stays.user("goes") is None or None)
        wait(lambda: rests(server), PATIENCE)
        stays.close()
        server.totals()
        never_overslept(server)


def resident(server):
    """The resident memory of a server, in megabytes."""
    with open(f"/proc/{server.process.pid}/status") as status:
        return next(int(line.split()[1]) // 1024 for line in status if line.startswith("VmRSS"))


def unit_environment(name):
    """What the unit sets this variable to."""
    with open(os.path.join(RELAY, "murmur.service")) as unit:
        return re.search(rf"^Environment={name}=(.*)$", unit.read(), re.M).group(1)


def send_to_the_end(server, data):
    """Sends all of this, however often the server pauses, or as much as it takes before it closes."""
    with server.connect() as stream:
        try:
            stream.sendall(data)
            stream.shutdown(socket.SHUT_WR)
            read_to_the_end(stream)
        except OSError:
            pass


@test
def the_memory_of_hostile_frames_comes_back(folder):
    variable = "MALLOC_MMAP_THRESHOLD_"
    with Server(folder, MANY, MURMUR_PACE="none", **{variable: unit_environment(variable)}) as server:
        # all that a server takes at its start it has once somebody is in
        ann = server.client().log_in("ann")
        start = most = resident(server)
        # of each kind some more than find room at once, and two above the longest
        for kind in (VERSION, TEXT_MESSAGE, USER_STATE, ACL):
            frames = [HEADER.pack(kind, LONGEST) + bytes(LONGEST)] * (LONG_FRAMES + 4)
            frames += [HEADER.pack(kind, LONGEST + 1) + bytes(1000), os.urandom(100_000)]
            threads = [threading.Thread(target=send_to_the_end, args=(server, data)) for data in frames]
            for thread in threads:
                thread.start()
            while any(thread.is_alive() for thread in threads):
                most = max(most, resident(server))
                time.sleep(0.05)
        wait(lambda: resident(server) < start + MEMORY_LEFT, PATIENCE)
        ann.close()
    return f"{start} MB at first, {most} at the most"


@test
def no_address_is_written_where_none_is_asked_for(folder):
    address = f"proxy:127.0.0.1:{free_port()}"
    with QuietServer(folder, 4, address) as server:
        for number in range(1, 4):
            stream = server.connect()
            stream.sendall(header(f"203.0.113.{number}") + ping(number))
            assert read_exactly(stream, len(ping(number))) == ping(number)
            stream.close()
        # one without a header, and one that is reset
        stream = server.connect()
        stream.sendall(ping(1) * 4)
        assert is_closed(stream, HEADER_PATIENCE - 1)
        stream = server.connect()
        stream.sendall(header("203.0.113.4") + ping(4))
        assert read_exactly(stream, len(ping(4))) == ping(4)
        reset(stream)
        assert server.totals()["connections"] == 4
        assert not re.search(r"[0-9]+\.[0-9]+\.|::", server.log()), server.log()


if __name__ == "__main__":
    sys.exit(test.run())
