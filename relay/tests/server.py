"""A server that a test starts for itself, over plain sockets, and what such tests share."""
import json
import os
import re
import resource
import socket
import struct
import subprocess
import sys
import tempfile

from client import PATIENCE, PlainClient
from trial import PROGRAM, free_port, is_asleep, run_checks, wait

# How many descriptors the tests and their servers may have open.
DESCRIPTORS = 4096
# What comes before a client's address in a PROXY header, version 2.
SIGNATURE = bytes.fromhex("0d0a0d0a000d0a515549540a")
TCP_OVER_IPV4, TCP_OVER_IPV6 = 0x11, 0x21
# The longest header that is taken: 16 bytes, addresses and ports, further fields.
LONGEST_HEADER = 536
# As many views as a server may be asked for.
MANY_VIEWS = 1_000_000
# How long a connection may wait for its header, in seconds.
HEADER_PATIENCE = 10


class Server:
    """A server that serves this many connections, at a free port where no address is given, and what its further words
    ask for."""

    def __init__(self, folder, connections, address=None, document=None, words=(), **environment):
        self.address = address or f"127.0.0.1:{free_port()}"
        self.folder, self.log_path = folder, os.path.join(folder, "log")
        configuration = os.path.join(folder, "murmur.json")
        with open(configuration, "w") as file:
            json.dump(document or {}, file)
        with open(configuration) as standard_input, open(self.log_path, "w") as log:
            self.process = subprocess.Popen([PROGRAM, "serve", self.address, str(connections), *words], cwd=folder,
                                            stdin=standard_input, stdout=subprocess.PIPE, stderr=log, text=True,
                                            env={**os.environ, **environment})
        # it takes its memory once it listens
        wait(lambda: self.process.poll() is not None or (self.is_open() and is_asleep(self.process)), 2 * PATIENCE)

    def is_open(self):
        return "murmur: listening on " in self.log()

    def log(self):
        with open(self.log_path) as log:
            return log.read()

    @property
    def port(self):
        return int(self.address.rpartition(":")[2])

    def connect(self, **more):
        """A connection, with options of its socket before it connects."""
        return connected(self.folder, self.address, **more)

    def client(self, **more):
        return PlainClient(self.connect(**more))

    def totals(self):
        """The totals of its last lines, once it has ended with status 0."""
        output, _ = self.process.communicate(timeout=2 * PATIENCE)
        assert self.process.returncode == 0, (self.process.returncode, output, self.log())
        assert re.fullmatch(r"served( \w+ \d+)+\n(viewed \d+\n)?", output), output
        words = output.split()[1:]
        return {name: int(number) for name, number in zip(words[::2], words[1::2])}

    def stop(self):
        if self.process.poll() is None:
            self.process.kill()
        self.process.communicate()

    def __enter__(self):
        return self

    def __exit__(self, *_):
        self.stop()


class QuietServer(Server):
    """One that writes no lines about connections."""

    def __init__(self, folder, connections, address):
        super().__init__(folder, connections, address, MURMUR_LOG="none")

    def is_open(self):
        return listens(self.folder, self.address.removeprefix("proxy:"))


class ViewServer(Server):
    """One that gives this many views, in the machine where no address of theirs is given."""

    def __init__(self, folder, connections, views=MANY_VIEWS, view_address="unix:view.sock", **more):
        self.view_address = view_address
        super().__init__(folder, connections, words=("view", view_address, str(views)), **more)
        # of this address nothing is said
        wait(lambda: listens(folder, view_address) or self.process.poll() is not None, PATIENCE)

    def view_stream(self, **more):
        """A connection to the door for views, with options of its socket."""
        return connected(self.folder, self.view_address, **more)

    def view(self):
        """The document, as it is now."""
        with self.view_stream() as stream:
            return read_to_the_end(stream)


def listens(folder, address):
    """Whether somebody listens at an address. To connect there may use up a connection."""
    host, _, port = address.rpartition(":")
    if host == "unix":
        return os.path.exists(os.path.join(folder, port))
    with open("/proc/net/tcp6" if host.startswith("[") else "/proc/net/tcp") as table:
        return re.search(rf":{int(port):04X} \S+ 0A ", table.read()) is not None


def connected(folder, address, **options):
    """A connection to an address of a server in this folder, with options of its socket before it connects."""
    host, _, port = address.removeprefix("proxy:").rpartition(":")
    kind = {"unix": socket.AF_UNIX, "[::1]": socket.AF_INET6}.get(host, socket.AF_INET)
    where = os.path.join(folder, port) if kind == socket.AF_UNIX else (host.strip("[]"), int(port))
    stream = socket.socket(kind)
    for option, value in options.items():
        stream.setsockopt(socket.SOL_SOCKET, getattr(socket, option), value)
    stream.settimeout(PATIENCE)
    stream.connect(where)
    if kind != socket.AF_UNIX:
        stream.setsockopt(socket.IPPROTO_TCP, socket.TCP_NODELAY, 1)
    return stream


def read_to_the_end(stream):
    """All that comes until the other side closes."""
    back = bytearray()
    while piece := stream.recv(65536):
        back += piece
    return bytes(back)


def header(source, family=TCP_OVER_IPV4, command=0x21, extra=b""):
    """The header of a relay for a client at this address, which came to another."""
    kind, destination = (socket.AF_INET, "192.0.2.1") if family == TCP_OVER_IPV4 else (socket.AF_INET6, "2001:db8::1")
    addresses = b"".join(socket.inet_pton(kind, address) for address in (source, destination))
    addresses += struct.pack(">HH", 40000, 64738) + extra
    return SIGNATURE + bytes([command, family]) + struct.pack(">H", len(addresses)) + addresses


def is_closed(stream, seconds=PATIENCE):
    """Whether the other side closes within this many seconds."""
    stream.settimeout(seconds)
    try:
        while stream.recv(65536):
            pass
        return True
    except TimeoutError:
        return False
    except OSError:
        return True


def reset(stream):
    """Closes so that the other side sees a reset."""
    stream.setsockopt(socket.SOL_SOCKET, socket.SO_LINGER, struct.pack("ii", 1, 0))
    stream.close()


class Tests(list):
    """Tests, each of which is given a folder of its own. An instance is the decorator that adds one."""

    def __call__(self, function):
        def in_a_folder():
            with tempfile.TemporaryDirectory() as folder:
                return function(folder)
        in_a_folder.__name__ = function.__name__
        self.append(in_a_folder)
        return in_a_folder

    def run(self):
        """Runs them all, or those that the command line names. The status of the program."""
        soft, hard = resource.getrlimit(resource.RLIMIT_NOFILE)
        if soft < DESCRIPTORS:
            resource.setrlimit(resource.RLIMIT_NOFILE, (DESCRIPTORS, hard))
        return run_checks([check for check in self if check.__name__ in sys.argv[1:] or len(sys.argv) == 1])
