"""Bans as clients send and are sent them."""
import ipaddress

from client import PATIENCE, PlainClient
from reader.mumble import (AUTHENTICATE, PERMISSIONS, USER_REMOVE, VERSION, decode_by, encode, encode_by, fields_of,
                           with_blocks)
from reader.wire import frame, message
from server import TCP_OVER_IPV4, TCP_OVER_IPV6, header

BAN_LIST = 10
FIELDS = with_blocks(fields_of(query="2 flag"), bans=(1, fields_of(
    address="1 bytes", mask="2 number", name="3 text", hash="4 text", reason="5 text", start="6 text",
    duration="7 number")))
# The frame that whoever is banned is sent in answer to a login: a Reject of type 0, `banned`.
BANNED = bytes.fromhex("00040000000a0800120662616e6e6564")
# How many bans there may be, and how long each of their texts, in bytes.
BANS, TEXT = 1024, 1024
# Anybody may kick and ban, or kick alone.
ANYBODY_BANS, ANYBODY_KICKS = ({"channels": [{"id": 0, "acls": [{"group": "all", "grant": PERMISSIONS[name]}]}]}
                               for name in ("Ban", "Kick"))


def bytes_of(address):
    """An address as a ban has it."""
    address = ipaddress.ip_address(address)
    return bytes(10) + b"\xff\xff" + address.packed if address.version == 4 else address.packed


def ban(network, duration=0, **texts):
    """The ban of an address or a network, for so many seconds or for ever (0), as the server lists it."""
    network = ipaddress.ip_network(network)
    mask = network.prefixlen + 128 - network.max_prefixlen
    return {"address": bytes_of(network.network_address), "mask": mask, **texts, "duration": duration}


def send_list(client, *bans):
    client.send(BAN_LIST, encode_by(FIELDS, {"bans": bans}))


def send_lists(client, *lists):
    """Several lists at once."""
    client.stream.sendall(b"".join(frame(BAN_LIST, encode_by(FIELDS, {"bans": bans})) for bans in lists))


def ask_list(client):
    client.send(BAN_LIST, encode_by(FIELDS, {"query": True}))


def listed(client, seconds=PATIENCE):
    """The bans that there are."""
    seen = answers(client)
    ask_list(client)
    client.wait_until(lambda: answers(client) > seen, seconds)
    payload = [payload for kind, payload in client.frames if kind == BAN_LIST][-1]
    return decode_by(FIELDS, payload).get("bans", [])


def answers(client):
    return sum(kind == BAN_LIST for kind, _ in client.frames)


def set_list(client, *bans):
    """Sets the bans, which are then those that are listed."""
    send_list(client, *bans)
    assert listed(client) == list(bans), listed(client)


def kick_with_a_ban(client, session, reason=""):
    client.send(USER_REMOVE, encode(USER_REMOVE, {"session": session, "reason": reason, "ban": True}))


def kick(client, session, reason):
    client.send(USER_REMOVE, encode(USER_REMOVE, {"session": session, "reason": reason}))


def login(name):
    """What a client sends first."""
    return frame(VERSION, message((1, 0x10400))) + frame(AUTHENTICATE, message((1, name), (5, 1)))


def header_of(address):
    """What a relay sends first for a client at this address."""
    return header(address, TCP_OVER_IPV6 if ":" in address else TCP_OVER_IPV4)


def stream_from(server, address):
    """A connection of a client that is at this address, as a relay passes it on; without one of its own."""
    stream = server.connect()
    if address:
        stream.sendall(header_of(address))
    return stream


def comes_in(server, address, name):
    """A client from there that is let in."""
    return PlainClient(stream_from(server, address)).log_in(name)


def is_banned(server, address):
    """Whether the login of a client from there is answered by nothing but that it is banned."""
    with stream_from(server, address) as stream:
        stream.sendall(login("somebody"))
        given = b""
        while len(given) < len(BANNED) and (piece := stream.recv(65536)):
            given += piece
    assert given == BANNED or BANNED not in given, given
    return given == BANNED
