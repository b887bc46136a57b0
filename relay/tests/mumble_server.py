"""Debian's mumble-server for the tests: a database that it made itself, filled by SQL, and the server running on it."""
import os
import pwd
import shutil
import signal
import sqlite3
import subprocess

from client import Client
from reader.mumble import AUTHENTICATE, PERMISSION_QUERY, PING, SERVER_SYNC, USER_STATE, VERSION
from reader.wire import message, read_fields
from trial import free_port, wait

PROGRAM, USER = "/usr/sbin/murmurd", "mumble-server"
BAN_LIST = 10
# How long it may take to start, in seconds; the first time it makes a certificate.
PATIENCE = 120
# Settings under which nothing leaves the machine, nobody is kept out, and everybody arrives in the root.
SETTINGS = ("host=127.0.0.1", "logfile=", "bonjour=false", "allowping=false", "logdays=-1", "kdfIterations=1000",
            "messagelimit=100000", "messageburst=100000", "autobanAttempts=0", "rememberchannel=false")


class Murmurd:
    """A mumble-server on a database below a folder, which runs while the block of `with` does."""

    def __init__(self, folder, *settings):
        self.folder, self.port, self.process = folder, free_port(), None
        self.database, self.ini, self.log_path = (os.path.join(folder, name)
                                                  for name in ("murmur.sqlite", "murmur.ini", "log"))
        with open(self.ini, "w", encoding="utf-8") as file:
            print(f"database={self.database}", f"port={self.port}", *SETTINGS, *settings, sep="\n", file=file)
        self.give()

    def give(self):
        """Lets its user read and write in the folder, where it changes to one."""
        if os.getuid() == 0:
            owner = pwd.getpwnam(USER)
            for path in (self.folder, *(os.path.join(self.folder, name) for name in os.listdir(self.folder))):
                os.chown(path, owner.pw_uid, owner.pw_gid)
            os.chmod(os.path.dirname(self.folder), os.stat(os.path.dirname(self.folder)).st_mode | 0o111)

    def fill(self, script):
        """Runs SQL on its database while it does not run."""
        database = sqlite3.connect(self.database)
        database.executescript(script)
        database.close()
        self.give()

    def set_password(self, password):
        """Sets the password of SuperUser."""
        subprocess.run([PROGRAM, "-ini", self.ini, "-supw", password], capture_output=True, check=False)
        self.give()

    def __enter__(self):
        with open(self.log_path, "w") as log:
            self.process = subprocess.Popen([PROGRAM, "-fg", "-ini", self.ini], stdin=subprocess.DEVNULL, stdout=log,
                                            stderr=log)
        wait(lambda: "Not registering server" in self.log() or self.process.poll() is not None, PATIENCE)
        assert self.process.poll() is None, self.log()
        return self

    def __exit__(self, *_):
        if self.process.poll() is None:
            self.process.send_signal(signal.SIGTERM)
        self.process.wait(PATIENCE)

    def log(self):
        with open(self.log_path, errors="replace") as log:
            return log.read()


def made_by_itself(folder):
    """A server below a folder with a database that it has just made."""
    with Murmurd(folder) as server:
        return server


def copied(made, folder, *settings):
    """Another server below a folder, with a copy of that database."""
    shutil.copy(made.database, os.path.join(folder, "murmur.sqlite"))
    return Murmurd(folder, *settings)


# ---- who asks it

def log_in(server, name, password=None, tokens=()):
    """A client that is logged in there."""
    client = Client(server.port)
    client.send(VERSION, message((1, 0x10400), (2, "test")))
    words = [(1, name), *([(2, password)] if password is not None else []), *((3, token) for token in tokens), (5, 1)]
    client.send(AUTHENTICATE, message(*words))
    client.wait_until(lambda: client.session)
    return client


def welcome_of(client):
    """The welcome that it was sent, or the empty text."""
    payload = client.wait(SERVER_SYNC)
    return next((value.decode() for number, _, value in read_fields(payload) if number == 3), "")


def enter(client, channel):
    """Goes to a channel, and answers whether it is there."""
    client.send(USER_STATE, message((1, client.session), (5, channel)))
    ping(client)
    return client.users[client.session]["channel"] == channel


def permissions_of(client, channel):
    """What it answers somebody who asks for the permissions in a channel. It says only what it has not said before, and
    at first that somebody may do nothing: so the last answer counts, and a Ping shows that no other comes."""
    client.send(PERMISSION_QUERY, message((1, channel)))
    ping(client)
    answers = [{number: value for number, _, value in read_fields(payload)}
               for kind, payload in client.frames if kind == PERMISSION_QUERY]
    return next((answer[2] for answer in reversed(answers) if answer.get(1) == channel), 0)


def ping(client):
    """Waits until all that was sent before is answered: a Ping, which has a number of its own, is answered last."""
    number = 1 << 32 | len(client.frames)
    client.send(PING, message((1, number)))
    client.wait_until(lambda: any(kind == PING and (1, 0, number) in read_fields(payload)
                                  for kind, payload in reversed(client.frames)))
