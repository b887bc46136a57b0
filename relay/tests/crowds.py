"""What tests share in which many come at once: a server with a long document, connections by the hundred, and twenty
who talk beside them."""
import os
import select
import selectors
import socket
import subprocess
import sys
import time
from contextlib import contextmanager, suppress

sys.path.insert(0, os.path.join(os.path.dirname(os.path.abspath(__file__)), "../../bench"))

from bans import ANYBODY_BANS, BANNED, BANS, ban, comes_in, header_of, login, set_list  # noqa: E402
from client import PATIENCE, PlainClient  # noqa: E402
from hostility.talkers import TALKERS, Circle, share  # noqa: E402
from reader.mumble import CHANNEL_STATE, PERMISSIONS, SERVER_SYNC, USER_STATE, decode, encode  # noqa: E402
from server import Server, ViewServer  # noqa: E402
from trial import free_port  # noqa: E402

# The most channels, and how long the document of these is, at the least. Some links make it longer than a megabyte.
CHANNELS, LONG = 2048, 600_000
LINKS, LONGER = 44, 1_000_000
# Anybody may make and link channels.
LONG_LIVED = {"channels": [{"id": 0, "acls": [
    {"group": "all", "grant": PERMISSIONS["MakeChannel"] | PERMISSIONS["LinkChannel"]}]}]}
# Where those are who talk.
ROOMS = {"channels": [{"id": 1, "parent": 0, "name": "Lobby"}]}
# How many connections for views come in a second, and how many logins of who is banned.
VIEWS_A_SECOND, LOGINS_A_SECOND = 500, 200
# Whence the banned come, and more logins than a test makes.
BANNED_ADDRESS, MANY_LOGINS = "203.0.113.3", 100_000


def ask(client, kind, **fields):
    """Sends a message by the names of its fields."""
    client.send(kind, encode(kind, fields))


class Builder(PlainClient):
    """One who makes channels, and takes no notice of what it is sent of them."""

    def take(self, kind, payload):
        if kind in (SERVER_SYNC, USER_STATE):
            super().take(kind, payload)

    def is_muted(self):
        """Whether it was sent that it has muted itself."""
        return any(decode(kind, payload).get("self_mute") for kind, payload in self.frames if kind == USER_STATE)


def fill(server, with_links=False):
    """Fills a server with channels, until its document is long. Who made them, and how many commands that took."""
    ann = Builder(server.connect()).log_in("ann")
    commands = [{"parent": 0, "name": '"' * 124 + str(number)} for number in range(1, CHANNELS)]
    for first in range(1, CHANNELS - 2 * LINKS, 2 * LINKS) if with_links else ():
        commands += [{"channel_id": number, "links_add": range(first + LINKS, first + 2 * LINKS)}
                     for number in range(first, first + LINKS)]
    for command in commands:
        ask(ann, CHANNEL_STATE, **command)
        ann.read(0)
    # all of that has been decided once this has
    ask(ann, USER_STATE, session=ann.session, self_mute=1)
    ann.wait_until(ann.is_muted, 10 * PATIENCE)
    return ann, len(commands) + 1


class Flood:
    """So many connections a second to a port, each closed after half a second, until standard input ends. How many
    came, and how many of them got what they are to get, is printed then."""

    def __init__(self, port, a_second):
        self.port, self.a_second = port, a_second
        self.selector, self.connections, self.served = selectors.DefaultSelector(), 0, 0

    def run(self):
        came, began = [], time.monotonic()
        while not select.select([sys.stdin], [], [], 0)[0]:
            while self.connections < (time.monotonic() - began) * self.a_second:
                came.append((time.monotonic(), self.come()))
            for key, _ in self.selector.select(0.001):
                self.read(key.fileobj)
            while came and came[0][0] < time.monotonic() - 0.5:
                self.leave(came.pop(0)[1])
        print(self.connections, self.served)

    def come(self):
        self.connections += 1
        stream = self.stream()
        self.selector.register(stream, selectors.EVENT_READ)
        return stream

    def stream(self):
        """A connection, or one that waits to be one."""
        stream = socket.socket()
        stream.setblocking(False)
        stream.connect_ex(("127.0.0.1", self.port))
        return stream

    def read(self, stream):
        with suppress(OSError):
            self.served += self.is_served(stream.recv(1 << 20))
        self.leave(stream)

    def is_served(self, piece):
        """Whether it got a whole view."""
        return piece.endswith(b"\n")

    def leave(self, stream):
        if stream.fileno() >= 0:
            self.selector.unregister(stream)
            stream.close()


class BannedFlood(Flood):
    """Each logs in from an address that is banned, and is told so."""

    def stream(self):
        stream = socket.create_connection(("127.0.0.1", self.port))
        stream.sendall(header_of(BANNED_ADDRESS) + login(f"guest {self.connections}"))
        stream.setblocking(False)
        return stream

    def is_served(self, piece):
        return piece == BANNED


class Beside:
    """Twenty who talk, in quiet and beside a program. Each sends the preamble first."""

    def __init__(self, server, preamble=b""):
        self.circle = Circle(server.port, preamble)
        self.quiet, self.beside = [], []
        assert self.circle.gather(), self.circle.faults

    def talk(self, seconds):
        """In quiet."""
        self.quiet += self.delays_of(seconds)

    def talk_beside(self, seconds, *words):
        """Beside a flood, in a process of its own so as not to be held up by it. What the flood printed."""
        words = [sys.executable, os.path.abspath(__file__), *map(str, words)]
        with subprocess.Popen(words, stdin=subprocess.PIPE, stdout=subprocess.PIPE, text=True) as flood:
            self.beside += self.delays_of(seconds)
            output, _ = flood.communicate("", timeout=PATIENCE)
        assert flood.returncode == 0, flood
        return tuple(int(word) for word in output.split())

    def delays_of(self, seconds):
        self.circle.delays.clear()
        self.circle.talk(seconds)
        return list(self.circle.delays)

    def medians(self):
        """Of the delays of their copies in quiet and beside a flood, in milliseconds."""
        return [share(delays, 0.5) * 1e3 for delays in (self.quiet, self.beside)]

    def part(self):
        """All leave. Each copy has arrived."""
        self.circle.settle()
        self.circle.part()
        assert not self.circle.faults, self.circle.faults
        assert self.circle.arrived == self.circle.due, (self.circle.arrived, self.circle.due)


@contextmanager
def talkers_at_a_door_for_views(folder, port):
    """A server with a door for views at a port, and twenty who talk there."""
    with ViewServer(folder, TALKERS, view_address=f"127.0.0.1:{port}", document=ROOMS) as server:
        yield server, Beside(server)


@contextmanager
def talkers_beside_the_banned(folder):
    """A server whose book of bans is full, the last of them that of the banned, and twenty who talk there."""
    document = {"channels": [*ANYBODY_BANS["channels"], *ROOMS["channels"]]}
    address = f"proxy:127.0.0.1:{free_port()}"
    with Server(folder, MANY_LOGINS, address, document, MURMUR_STOP="unix:stop.sock") as server:
        others = [ban(f"2001:db8:{place:x}::/48") for place in range(BANS - 1)]
        ann = comes_in(server, "203.0.113.2", "administrator")
        set_list(ann, *others, ban(BANNED_ADDRESS))
        ann.close()
        yield server, Beside(server, header_of("203.0.113.4"))


if __name__ == "__main__":
    KIND, PORT, A_SECOND = sys.argv[1:]
    {"views": Flood, "banned": BannedFlood}[KIND](int(PORT), int(A_SECOND)).run()
