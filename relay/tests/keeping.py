"""What the tests of kept channels share: a server that keeps them, a client that edits them, and what is to be kept."""
import copy
import hashlib
import os
import shutil
import sqlite3
import subprocess
import sys
import tempfile
from contextlib import closing, contextmanager

from client import PATIENCE
from reader import kept
from reader.mumble import ACL, CHANNEL_REMOVE, CHANNEL_STATE, PERMISSION_DENIED, PING, decode, encode
from reader.wire import frame, message
from server import Server
from trial import wait

PASSWORD = "a password of the tests"
# SuperUser, whose name is SuperUser.
DOCUMENT = {"accounts": [{"id": 0, "name": "SuperUser",
                          "password_sha256": hashlib.sha256(PASSWORD.encode()).hexdigest()}]}
ROOT = 0


class PlainServer(Server):
    """A server into which SuperUser may log in."""

    def superuser(self):
        return self.client().log_in("SuperUser", PASSWORD)


class KeepingServer(PlainServer):
    """A server that keeps its channels in a file, beside its own folder; also one that ends at once."""

    def __init__(self, folder, path, connections=1, document=None, **environment):
        self.path = path
        super().__init__(folder, connections, document=DOCUMENT if document is None else document,
                         words=("keep", path), **{"MURMUR_PACE": "none", **environment})

    def ended(self):
        """The status, the output and the lines on standard error, once it has ended by itself."""
        output, _ = self.process.communicate(timeout=2 * PATIENCE)
        return self.process.returncode, output, self.log().splitlines()


def content(path):
    """The bytes of a file, or None where there is none."""
    if not os.path.isfile(path):
        return None
    with open(path, "rb") as file:
        return file.read()


def copied(path, folder):
    """A copy of a file and of its log, as they are now."""
    copy_path = os.path.join(tempfile.mkdtemp(dir=folder), "kept.db")
    for end in ("", "-wal"):
        if os.path.exists(path + end):
            shutil.copyfile(path + end, copy_path + end)
    return copy_path


def is_whole(path):
    """Makes sure that SQLite finds nothing wrong with a file. With none, or an empty one, nothing is wrong."""
    if not content(path):
        return
    with closing(sqlite3.connect(path)) as database:
        found = database.execute("PRAGMA integrity_check").fetchall()
    assert found == [("ok",)], found


def seen_in(rows):
    """What is kept, as a test compares it: channels by their numbers, with what their policies say, and links."""
    channels = {number: (one.parent, one.name, one.description, one.position, one.max_users,
                         kept.rights_of(one.policy)) for number, one in rows.channels.items()}
    return channels, set(rows.links)


def is_kept(path, editor, folder):
    """Waits until a file that a server has open holds all that was edited."""
    wait(lambda: seen_in(kept.read(copied(path, folder))) == (editor.channels, editor.links), PATIENCE)


def run_once(folder, path, visit=None, status=0, connections=1, **more):
    """A server over a file that one client visits, and that ends by itself when the client leaves."""
    with KeepingServer(folder, path, connections, **more) as server:
        assert server.is_open(), server.log()
        client = server.superuser()
        told = visit(client) if visit else None
        client.close()
        code, output, lines = server.ended()
    assert code == status, (code, output, lines)
    return told


def refused(folder, path, status=12, line="murmur: 12 KeeperFault", beside=()):
    """A server over this file ends at once, with this status and line; the file is as it was, and nothing lies beside
    it that was not there, but what is named."""
    before, around = content(path), set(os.listdir(os.path.dirname(path)))
    below = tempfile.mkdtemp(dir=folder)
    with KeepingServer(below, path) as server:
        assert not server.is_open(), "it serves"
        code, output, lines = server.ended()
    assert (code, output) == (status, "") and lines[-1] == line, (code, output, lines)
    assert content(path) == before, "the file is another one"
    left = set(os.listdir(os.path.dirname(path))) - around
    assert left <= {os.path.basename(path) + end for end in beside}, left
    return lines


@contextmanager
def holding(path, statement):
    """Another process has run a statement on a database, and keeps it open."""
    words = "import sqlite3, sys; one = sqlite3.connect(sys.argv[1], isolation_level=None)\n" \
            "one.execute(sys.argv[2]); print('ready', flush=True); sys.stdin.read()"
    holder = subprocess.Popen([sys.executable, "-c", words, path, statement], stdin=subprocess.PIPE,
                              stdout=subprocess.PIPE, text=True)
    assert holder.stdout.readline() == "ready\n"
    try:
        yield
    finally:
        holder.communicate()


class HastyServer(KeepingServer):
    """One that is not waited for."""

    def is_open(self):
        return True


class Editor:
    """A client that edits channels, and what is to be kept after each of its edits."""

    def __init__(self, client, channels=None, links=None):
        self.client = client
        self.channels = channels or {ROOT: (ROOT, "Root", "", 0, 0, {})}
        self.links = links or set()
        self.edits = []
        self.greatest = max(self.channels)
        # the frames that are to be written in one piece, while there are any
        self.held = None

    def send(self, kind, fields, change):
        """Sends an edit that is accepted, and notes what it does."""
        if self.held is None:
            self.client.send(kind, encode(kind, fields))
        else:
            self.held += frame(kind, encode(kind, fields))
        self.edits.append(change)
        change(self.channels, self.links)

    @contextmanager
    def at_once(self):
        """What is sent within is written in one piece at its end."""
        self.held = bytearray()
        yield
        self.client.write(self.held)
        self.held = None

    def make(self, name, parent=ROOT, **info):
        """A new channel, and its number."""
        self.greatest += 1
        number = self.greatest

        def change(channels, _):
            channels[number] = (parent, name, info.get("description", ""), info.get("position", 0),
                                info.get("max_users", 0), {})
        self.send(CHANNEL_STATE, {"parent": parent, "name": name, **info}, change)
        return number

    def edit(self, number, **fields):
        """Another name, parent, description, position or limit of a channel."""
        places = ("parent", "name", "description", "position", "max_users")

        def change(channels, _):
            row = list(channels[number])
            for key, value in fields.items():
                row[places.index(key)] = value
            channels[number] = tuple(row)
        self.send(CHANNEL_STATE, {"channel_id": number, **fields}, change)

    def link(self, one, other, is_linked=True):
        pair = (min(one, other), max(one, other))

        def change(_, links):
            (links.add if is_linked else links.discard)(pair)
        self.send(CHANNEL_STATE, {"channel_id": one, "links_add" if is_linked else "links_remove": [other]}, change)

    def set_list(self, number, rights):
        """The groups and entries of a channel, as a configuration has them."""
        def change(channels, _):
            channels[number] = (*channels[number][:5], rights)
        self.send(ACL, decode(ACL, kept.policy_of(number, rights)), change)

    def remove(self, number):
        """A channel goes, with all that is in it, and their links."""
        gone = self.below(number)

        def change(channels, links):
            for one in gone:
                channels.pop(one)
            links -= {pair for pair in links if gone & set(pair)}
        self.send(CHANNEL_REMOVE, {"channel_id": number}, change)

    def below(self, number):
        """A channel and all that is in it."""
        found, last = {number}, 0
        while len(found) > last:
            last = len(found)
            found |= {one for one, row in self.channels.items() if row[0] in found and one != ROOT}
        return found

    def read(self):
        """Takes what has come."""
        while self.client.read(0):
            pass

    def settle(self):
        """Waits until all that was sent is decided, and makes sure that nothing was refused."""
        echo = (PING, message((1, 1 << 40)))
        self.client.send(*echo)
        self.client.wait_until(lambda: echo in self.client.frames)
        assert not any(kind == PERMISSION_DENIED for kind, _ in self.client.frames), "an edit was refused"

    def states(self, channels, links):
        """What is kept after each beginning of the edits, in order, from what was there before them."""
        channels, links = copy.copy(channels), set(links)
        yield channels, links
        for change in self.edits:
            change(channels, links)
            yield channels, links


def place_in(folder, name="kept.db"):
    """A path in a new folder, in which nothing else lies."""
    below = os.path.join(folder, f"at {len(os.listdir(folder))}")
    os.mkdir(below)
    return os.path.join(below, name)


def edited(client):
    """Edits of each kind, and the editor that made them."""
    editor = Editor(client)
    hall = editor.make("Hall", description="a 'quoted' text", position=-3, max_users=20)
    stage, attic = editor.make("Stage", hall), editor.make("Grüße", ROOT)
    cellar = editor.make("Cellar", attic)
    gone = editor.make("Gone", stage)
    editor.link(hall, stage)
    editor.link(cellar, hall)
    editor.link(attic, gone)
    editor.edit(hall, name="Great hall", parent=attic)
    editor.set_list(hall, {"inherit_acls": False, "groups": [{"name": "team", "inheritable": False, "add": [0, 7]}],
                           "acls": [{"account": 7, "subs": False, "grant": 0x1}, {"group": "all", "deny": 0x4}]})
    editor.link(cellar, hall, False)
    editor.remove(gone)
    editor.edit(ROOT, description="welcome", max_users=100)
    editor.settle()
    return editor


def filled(folder):
    """A file with some channels that a server made and closed, and what is in it."""
    path = place_in(folder)
    editor = run_once(folder, path, edited)
    return path, (editor.channels, editor.links)


def starts_as_before(folder, path, seen):
    """A server takes the file, and shows and keeps the channels that are in it."""
    told = run_once(folder, path, lambda client: dict(client.channels))
    assert told == {row[1]: number for number, row in seen[0].items()}, told
    assert seen_in(kept.read(path)) == seen
