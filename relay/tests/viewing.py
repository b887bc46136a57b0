#!/usr/bin/env python3
"""What stands in for the address at which a server shows its channels and users: each connection there gets a document
and is closed, as from the server. For the tests it can also come in pieces, late, not whole or not at all.

usage: relay/tests/viewing.py ADDRESS [DOCUMENT]

ADDRESS is IP:PORT or unix:PATH; without DOCUMENT it has one of its own.
"""
import json
import os
import socket
import sys
import threading
import time

# The document of a server at which ann and bob have logged in, and nothing else.
TWO_USERS = (b'{"channels":[{"id":0,"links":[],"name":"Root","parent":null,"temporary":false}],"revision":2,"users":['
             b'{"account":null,"channel":0,"deaf":false,"listens":[],"mute":false,"name":"ann","session":1},'
             b'{"account":null,"channel":0,"deaf":false,"listens":[],"mute":false,"name":"bob","session":2}]}\n')


# ---- documents

def channel(number, name, parent=0, links=(), temporary=False):
    """A channel as a document has it."""
    return {"id": number, "links": sorted(links), "name": name, "parent": parent if number else None,
            "temporary": temporary}


def user(session, name, where=0, account=None, mute=False, deaf=False, listens=()):
    """A user as a document has it."""
    return {"account": account, "channel": where, "deaf": deaf, "listens": sorted(listens), "mute": mute, "name": name,
            "session": session}


def document(channels, users=(), revision=0, links=()):
    """The bytes of a document: compact, its keys in the order of their bytes, with a line feed at its end. `links` are
    those of the root."""
    whole = {"channels": [channel(0, "Root", links=links), *channels], "revision": revision, "users": list(users)}
    return json.dumps(whole, ensure_ascii=False, separators=(",", ":")).encode() + b"\n"


# What somebody may call a channel or a user, and what a reader may take for something else.
TRAPS = ('"session":1,"temporary":true,', "\\", '<img src=x onerror="document.title=1">', "</script><b>", "\u202eabc",
         "&amp;", "{{1}}", "Zoë 🦊", "'; DROP", '"revision":9')


def example():
    """A document with all that can be in one."""
    channels = [channel(1, "Lobby", links=[3]), channel(2, "Games"), channel(3, "Stage", 2, [1]),
                channel(4, "Table", 2, temporary=True), channel(7, TRAPS[2], 3)]
    channels += [channel(10 + place, trap, 7) for place, trap in enumerate(TRAPS) if place != 2]
    users = [user(1, "ann", 1, 0), user(2, "bob", 1, mute=True), user(3, "cat", 3, 5, mute=True, deaf=True),
             user(5, "dan", 0, listens=[1, 3]), *(user(20 + place, trap, 4) for place, trap in enumerate(TRAPS))]
    return document(channels, users, 18446744073709551615)


def longest(channels=2048, users=512, links=64):
    """A document that is about as long as one can be, or one of so many channels, users and links of each channel."""
    name = '"' * 128
    links = range(4294960001, 4294960001 + links)
    return document([channel(4294960000 + one, name, 0, links) for one in range(1, channels)],
                    [user(one, name, 0, 4294967295, True, True, links[:32]) for one in range(1, users + 1)], 1 << 63)


# ---- the address

def whole(text):
    """Sends a document at once."""
    return lambda stream: stream.sendall(text)


def in_pieces(text, size, pause):
    """Sends a document in pieces of this size, with a pause behind each."""
    def send(stream):
        for at in range(0, len(text), size):
            stream.sendall(text[at:at + size])
            time.sleep(pause)
    return send


def silent(seconds):
    """Sends nothing for so long."""
    return lambda _: time.sleep(seconds)


class Viewing:
    """Listens at an address while the block of `with` runs; `send` is what a connection gets, `count` how many came."""

    def __init__(self, address, send):
        host, _, port = address.rpartition(":")
        self.address, self.send, self.count = address, send, 0
        self.listener = socket.socket(socket.AF_UNIX if host == "unix" else socket.AF_INET)
        if host == "unix":
            if os.path.exists(port):
                os.remove(port)
            self.listener.bind(port)
            os.chmod(port, 0o666)
        else:
            self.listener.setsockopt(socket.SOL_SOCKET, socket.SO_REUSEADDR, 1)
            self.listener.bind((host, int(port)))
        self.listener.listen(64)

    def __enter__(self):
        threading.Thread(target=self.accept, daemon=True).start()
        return self

    def accept(self):
        """Gives each connection what it is to get, until the listener is closed."""
        while True:
            try:
                stream, _ = self.listener.accept()
            except OSError:
                return
            self.count += 1
            threading.Thread(target=self.serve, args=(stream,), daemon=True).start()

    def serve(self, stream):
        """Sends to a connection and closes it; whoever has gone is none of its business."""
        with stream:
            try:
                self.send(stream)
            except OSError:
                pass

    def __exit__(self, *_):
        # what waits in accept() would keep the address
        self.listener.shutdown(socket.SHUT_RDWR)
        self.listener.close()


def main(words):
    """Stands in for a server until it is ended."""
    if not 1 <= len(words) <= 2 or ":" not in words[0]:
        print(__doc__.strip(), file=sys.stderr)
        return 1
    text = example()
    if len(words) == 2:
        with open(words[1], "rb") as file:
            text = file.read()
    with Viewing(words[0], whole(text)):
        threading.Event().wait()
    return 0


if __name__ == "__main__":
    sys.exit(main(sys.argv[1:]))
