"""A small client of the Mumble protocol, over TLS or without, for the tests: it sends what a test asks for, keeps what
comes, and knows who is there. It reads only while somebody waits for something."""
import socket
import ssl
import sys
import time
from pathlib import Path

sys.path.insert(0, str(Path(__file__).resolve().parent.parent.parent / "cases"))

from reader.mumble import (AUTHENTICATE, CHANNEL_STATE, PING, SERVER_SYNC, USER_REMOVE, USER_STATE,  # noqa: E402
                           VERSION, VOICE)
from reader.wire import BLOCK, NUMBER, frame, message, read_fields, read_frames  # noqa: E402

ENTER, KICK = 0x4, 0x10000
# How long a client waits for what is to come, in seconds.
PATIENCE = 30


def parse(payload):
    """The fields of a message in their order, numbers and bytes; the last value of a field counts where one is asked
    for by `dict`."""
    return [(number, value) for number, kind, value in read_fields(payload) if kind in (NUMBER, BLOCK)]


def trusting_context():
    """TLS that takes any certificate: the relay on trial has made its own."""
    context = ssl.SSLContext(ssl.PROTOCOL_TLS_CLIENT)
    context.check_hostname = False
    context.verify_mode = ssl.CERT_NONE
    return context


class Ended(Exception):
    """The other side closed the connection."""


class PlainClient:
    """A client over a stream that is connected already."""

    def __init__(self, stream):
        self.stream = stream
        self.kept = b""
        self.frames = []
        self.session = None
        self.next_ping = time.monotonic() + 5
        self.users, self.channels = {}, {}

    def close(self):
        self.stream.close()

    def send(self, kind, payload=b""):
        self.write(frame(kind, payload))

    def write(self, octets):
        self.stream.settimeout(PATIENCE)
        self.stream.sendall(octets)

    def read(self, seconds):
        """Takes what comes within this many seconds: at most one piece. False where nothing came."""
        self.stream.settimeout(max(seconds, 0.001))
        try:
            piece = self.stream.recv(65536)
        except (TimeoutError, ssl.SSLWantReadError):
            return False
        except OSError as fault:
            raise Ended from fault
        if not piece:
            raise Ended
        frames, self.kept = read_frames(self.kept + piece)
        for kind, payload in frames:
            self.take(kind, payload)
        return True

    def take(self, kind, payload):
        self.frames.append((kind, payload))
        if kind == VOICE:
            return
        values = dict(parse(payload))
        if kind == USER_STATE:
            user = self.users.setdefault(values.get(1), {"channel": 0})
            if 3 in values:
                user["name"] = values[3].decode()
            if 5 in values:
                user["channel"] = values[5]
            if 9 in values:
                user["self_mute"] = bool(values[9])
        elif kind == USER_REMOVE:
            self.users.pop(values.get(1), None)
        elif kind == CHANNEL_STATE and 3 in values:
            self.channels[values[3].decode()] = values.get(1, 0)
        elif kind == SERVER_SYNC:
            self.session = values[1]

    def wait(self, kind, seconds=PATIENCE):
        """The payload of the first frame of a kind that is there or comes."""
        return self.wait_until(lambda: next((p for k, p in self.frames if k == kind), None), seconds)

    def wait_until(self, asked, seconds=PATIENCE):
        """Reads until `asked()` gives something, and gives that; pings meanwhile."""
        end = time.monotonic() + seconds
        while (answer := asked()) is None or answer is False:
            now = time.monotonic()
            if now >= end:
                raise TimeoutError("it has not come")
            if now >= self.next_ping:
                self.next_ping = now + 5
                if self.session is not None:
                    self.send(PING, message((1, 1)))
            self.read(min(end, self.next_ping) - now)
        return answer

    def stay(self, seconds):
        """Reads and pings for so long."""
        try:
            self.wait_until(lambda: None, seconds)
        except TimeoutError:
            pass

    def log_in(self, name, password=None):
        self.send(VERSION, message((1, 0x10400), (2, "test")))
        self.send(AUTHENTICATE, message((1, name), *([(2, password)] if password is not None else []), (5, 1)))
        self.wait_until(lambda: self.session)
        return self

    def user(self, name):
        """The session and the state of whoever is there under a name."""
        return next(((s, u) for s, u in self.users.items() if u.get("name") == name), None)

    def enter(self, channel):
        self.send(USER_STATE, message((1, self.session), (5, channel)))

    def kick(self, session, reason):
        self.send(USER_REMOVE, message((1, session), (3, reason)))

    def mute(self, is_mute):
        self.send(USER_STATE, message((9, int(is_mute))))


class Client(PlainClient):
    """A client of the relay, over TLS."""

    def __init__(self, port, source="127.0.0.1", target="127.0.0.1", context=None):
        plain = socket.create_connection((target, port), PATIENCE, source_address=(source, 0))
        super().__init__((context or trusting_context()).wrap_socket(plain))
