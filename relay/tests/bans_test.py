#!/usr/bin/env python3
"""Tests of bans by address, over plain sockets on which a header names each client's address, as a relay's does. MURMUR
is the program.

Each test starts a server of its own. Prints a line a test; the status is 1 where one failed.
"""
import re
import subprocess
import sys
import time

from bans import (ANYBODY_BANS, ANYBODY_KICKS, BAN_LIST, BANS, TEXT, ask_list, ban, bytes_of, comes_in, is_banned, kick,
                  kick_with_a_ban, listed, send_list, send_lists, set_list, stream_from)
from client import PATIENCE
from crowds import LOGINS_A_SECOND, talkers_beside_the_banned
from reader.mumble import PERMISSION_DENIED, PERMISSIONS, USER_REMOVE, VOICE, decode
from reader.wire import frame, message
from server import Server, Tests, connected, is_closed
from trial import PROGRAM, free_port

# With what the addresses begin that the server gives to connections which have none.
OWN = bytes_of("fd6d:7572:6d75:7200::")[:8]
# A ban that ends, in seconds, and how long a busy machine may take beside that.
SHORT, SLACK = 2, 2
# For how long banned clients log in beside those who talk, in seconds.
LOGIN_SECONDS = 3

test = Tests()


def proxied():
    return f"proxy:127.0.0.1:{free_port()}"


def ended_with(client, kind):
    """What a client was sent of this kind before it was closed."""
    payload = client.wait(kind)
    assert is_closed(client.stream)
    client.close()
    return decode(kind, payload)


def denials(client):
    return [decode(kind, payload) for kind, payload in client.frames if kind == PERMISSION_DENIED]


def denied(client, seconds=PATIENCE):
    """The next denial that a client is sent."""
    seen = len(denials(client))
    client.wait_until(lambda: len(denials(client)) > seen, seconds)
    return denials(client)[-1]


def text_goes_round(one, other):
    """Whether what one says is heard by another."""
    one.send(VOICE, bytes([0x80, 1, 3, 7, 7, 7]))
    return other.wait(VOICE) == bytes([0x80, one.session, 1, 3, 7, 7, 7])


# ---- who is kept out

@test
def who_is_removed_with_a_ban_comes_back_from_elsewhere_alone(folder):
    with Server(folder, 7, proxied(), ANYBODY_BANS) as server:
        ann, bob, cat = (comes_in(server, address, name) for address, name in (
            ("127.0.0.2", "ann"), ("127.0.0.3", "bob"), ("127.0.0.4", "cat")))
        kick_with_a_ban(ann, bob.session, "noise")
        told = ended_with(bob, USER_REMOVE)
        assert (told["session"], told["actor"], told["reason"]) == (bob.session, ann.session, "noise"), told
        assert listed(ann) == [ban("127.0.0.3", reason="noise")], listed(ann)
        assert is_banned(server, "127.0.0.3")
        # those who stay hear each other, and come back
        assert text_goes_round(ann, cat)
        cat.close()
        ann.wait_until(lambda: ann.user("cat") is None)
        cat = comes_in(server, "127.0.0.4", "cat")
        assert not is_banned(server, "127.0.0.5")
        set_list(ann)
        bob = comes_in(server, "127.0.0.3", "bob")
        for client in (ann, bob, cat):
            client.close()
        totals = server.totals()
        # a login that is refused for its address is no command
        assert (totals["connections"], totals["accepted"]) == (7, 12), totals


@test
def a_ban_of_two_seconds_ends(folder):
    with Server(folder, 1000, proxied(), ANYBODY_BANS, MURMUR_STOP="unix:stop.sock") as server:
        ann = comes_in(server, "203.0.113.2", "ann")
        began = time.monotonic()
        set_list(ann, ban("203.0.113.3", SHORT))
        assert is_banned(server, "203.0.113.3")
        while is_banned(server, "203.0.113.3"):
            assert time.monotonic() < began + SHORT + SLACK
            time.sleep(0.1)
        seconds = time.monotonic() - began
        # its clock has whole seconds
        assert seconds > SHORT - 1, seconds
        # it is in the list still; set again it is the same ban, which began when it began
        set_list(ann, ban("203.0.113.3", SHORT))
        assert not is_banned(server, "203.0.113.3")
        connected(folder, "unix:stop.sock").close()
        server.totals()
    return f"after {seconds:.1f} s"


@test
def a_network_of_64_bits_is_kept_out_whole(folder):
    with Server(folder, 6, proxied(), ANYBODY_BANS) as server:
        ann = comes_in(server, "2001:db8:1:3::1", "ann")
        set_list(ann, ban("2001:db8:1:2::/64", reason="a network"), ban("203.0.113.0/30"))
        for address, wanted in (("2001:db8:1:2::1", True), ("2001:db8:1:2:ffff:ffff:ffff:ffff", True),
                                ("2001:db8:1:3::2", False), ("203.0.113.3", True), ("203.0.113.4", False)):
            assert is_banned(server, address) == wanted, address
        ann.close()
        server.totals()


@test
def without_headers_a_ban_keeps_nobody_else_out(folder):
    forms = [f"127.0.0.1:{free_port()}", "unix:the.sock"]
    for form in forms:
        with Server(folder, 5, form, ANYBODY_BANS) as server:
            ann, bob, cat = (comes_in(server, None, name) for name in ("ann", "bob", "cat"))
            kick_with_a_ban(ann, bob.session)
            ended_with(bob, USER_REMOVE)
            assert [(one["mask"], one["address"][:8]) for one in listed(ann)] == [(128, OWN)], listed(ann)
            bob, dan = (comes_in(server, None, name) for name in ("bob", "dan"))
            assert text_goes_round(bob, cat)
            for client in (ann, bob, cat, dan):
                client.close()
            server.totals()
    return f"{len(forms)} forms"


# ---- the list

@test
def a_book_of_1024_bans_is_answered_whole(folder):
    """Also one with the longest texts, which is longer than any command may be."""
    short = [ban(f"198.51.{100 + place // 256}.{place % 256}", name=f"user {place}", duration=place)
             for place in range(BANS)]
    texts = {key: letter * TEXT for key, letter in (("name", "n"), ("hash", "h"), ("reason", "r"))}
    long = [ban(f"2001:db8::{place:x}", **texts) for place in range(BANS)]
    with Server(folder, 3, proxied(), ANYBODY_BANS, MURMUR_PACE="none") as server:
        ann = comes_in(server, "203.0.113.2", "ann")
        for bans in (short, long):
            set_list(ann, *bans)
        # one more by a kick, and the first is dropped
        bob = comes_in(server, "203.0.113.3", "bob")
        kick_with_a_ban(ann, bob.session, "r" * TEXT + "é")
        ended_with(bob, USER_REMOVE)
        assert listed(ann) == [*long[1:], ban("203.0.113.3", reason="r" * TEXT)]
        assert is_banned(server, "203.0.113.3")
        length = max(len(payload) for kind, payload in ann.frames if kind == BAN_LIST)
        ann.close()
        server.totals()
    return f"{length:,} bytes"


@test
def what_is_beyond_the_limits_is_refused_and_changes_nothing(folder):
    kept = ban("203.0.113.9", reason="kept")
    plain = ban("203.0.113.8")
    wrong = [[plain] * (BANS + 1), [plain, {**plain, "mask": 129}],
             *([{**plain, "address": bytes(length)}] for length in (15, 17)),
             *([{**plain, key: "x" * (TEXT + 1)}] for key in ("name", "hash", "reason"))]
    with Server(folder, 2, proxied(), ANYBODY_BANS, MURMUR_PACE="none") as server:
        ann = comes_in(server, "203.0.113.2", "ann")
        set_list(ann, kept)
        for bans in wrong:
            send_list(ann, *bans)
            told = denied(ann)
            assert told.get("type", 0) == 0 and "permission" not in told, told
            assert listed(ann) == [kept], listed(ann)
        # what is no BanList is ignored
        for payload in (b"\x0a\x05", b"\x0a\x02\x10\x05", message((1, b"\x10\x01"))):
            ann.send(BAN_LIST, payload)
            assert listed(ann) == [kept], payload
        assert len(denials(ann)) == len(wrong), denials(ann)
        assert is_banned(server, "203.0.113.9")
        ann.close()
        server.totals()
    return f"{len(wrong)} lists"


@test
def who_lacks_ban_is_denied_and_sees_no_address(folder):
    kicks = {"channels": [{"id": 0, "acls": [{"group": "all", "grant": PERMISSIONS["Kick"]}]}]}
    with Server(folder, 3, proxied(), kicks) as server:
        ann, bob = (comes_in(server, f"203.0.113.{at}", name) for at, name in ((2, "ann"), (3, "bob")))
        for ask in (ask_list, send_list, lambda one: send_list(one, ban("203.0.113.3")),
                    lambda one: kick_with_a_ban(one, bob.session)):
            ask(ann)
            told = denied(ann)
            assert (told["permission"], told["session"], told["type"]) == (PERMISSIONS["Ban"], ann.session, 1), told
            assert told.get("channel_id", 0) == 0, told
        assert not any(kind == BAN_LIST for kind, _ in ann.frames), ann.frames
        assert not is_banned(server, "203.0.113.3")
        assert text_goes_round(ann, bob)
        ann.close()
        bob.close()
        server.totals()


@test
def before_a_login_no_list_is_read(folder):
    with Server(folder, 2, proxied(), ANYBODY_BANS) as server:
        ann = comes_in(server, "203.0.113.2", "ann")
        with stream_from(server, "203.0.113.3") as early:
            early.sendall(frame(BAN_LIST, message((2, 1))))
            early.settimeout(0.3)
            try:
                assert not early.recv(1)
            except TimeoutError:
                pass
        assert listed(ann) == []
        ann.close()
        server.totals()


# ---- beside the rest

@test
def a_journal_with_bans_is_legal(folder):
    with Server(folder, 4, proxied(), ANYBODY_BANS, words=("journal",)) as server:
        ann, bob = (comes_in(server, f"203.0.113.{at}", name) for at, name in ((2, "ann"), (3, "bob")))
        assert text_goes_round(ann, bob)
        kick_with_a_ban(ann, bob.session, "noise")
        ended_with(bob, USER_REMOVE)
        assert is_banned(server, "203.0.113.3")
        set_list(ann)
        bob = comes_in(server, "203.0.113.3", "bob")
        assert text_goes_round(bob, ann)
        ann.close()
        bob.close()
        output, _ = server.process.communicate(timeout=2 * PATIENCE)
        assert server.process.returncode == 0, (server.process.returncode, server.log())
    journal, _, totals = output.rpartition("served ")
    audited = subprocess.run([PROGRAM, "audit"], input=journal, capture_output=True, text=True, check=False)
    assert audited.returncode == 0 and audited.stdout.startswith("legal "), audited
    return f"{len(journal.splitlines())} lines, {totals.strip()}: {audited.stdout.strip()}"


def lines_on_bans(server):
    """What a server that has ended says of bans in its log, of connections by their numbers."""
    return re.findall(r"^murmur: (\d+ (?:sent|was|banned|is) .*)$", server.log(), re.M)


@test
def bans_are_in_the_log(folder):
    """A line for each ban that is set, added or met, and for each list that is sent."""
    with Server(folder, 3, proxied(), ANYBODY_BANS) as server:
        ann, bob = (comes_in(server, f"203.0.113.{at}", name) for at, name in ((2, "ann"), (3, "bob")))
        banned = bob.session
        kick_with_a_ban(ann, banned, "noise")
        ended_with(bob, USER_REMOVE)
        assert is_banned(server, "203.0.113.3")
        set_list(ann)
        ann.close()
        server.totals()
        assert lines_on_bans(server) == [f"1 banned session {banned}", "3 is banned", "1 sent a list of bans",
                                         "1 was sent the list of bans"], server.log()


@test
def what_is_denied_is_told_apart_in_the_log(folder):
    """Of who may not ban, and of lists that may not be. A kick is no ban, whatever its reason."""
    with Server(folder, 3, proxied(), ANYBODY_KICKS) as server:
        ann, bob, cat = (comes_in(server, f"203.0.113.{at}", name) for at, name in ((2, "ann"), (3, "bob"), (4, "cat")))
        for ask in (lambda: send_list(ann), lambda: ask_list(ann), lambda: kick_with_a_ban(ann, bob.session)):
            ask()
            denied(ann)
        kick(ann, bob.session, "noise \1")
        ended_with(bob, USER_REMOVE)
        ann.close()
        cat.close()
        server.totals()
        assert lines_on_bans(server) == ["1 sent a list of bans", *["1 was denied Ban"] * 3], server.log()
    with Server(folder, 1, proxied()) as server:
        ann = comes_in(server, "203.0.113.2", "ann")
        kick_with_a_ban(ann, ann.session)
        denied(ann)
        ann.close()
        server.totals()
        assert lines_on_bans(server) == ["1 was denied Kick"], server.log()
    with Server(folder, 1, proxied(), ANYBODY_BANS) as server:
        ann = comes_in(server, "203.0.113.2", "ann")
        send_list(ann, ban("203.0.113.0/24", reason="r" * (TEXT + 1)))
        denied(ann)
        # two in one piece, of which the second ends as a query does
        send_lists(ann, [], [{"address": bytes_of("203.0.113.9"), "mask": 1}])
        assert len(listed(ann)) == 1
        ann.close()
        server.totals()
        assert lines_on_bans(server) == ["1 sent a list of bans", "1 was refused", *["1 sent a list of bans"] * 2,
                                         "1 was sent the list of bans"], server.log()


@test
def a_server_without_headers_says_by_which_address_bans_go(folder):
    """Over a Unix socket and over TCP, where each connection has the address that connects. With headers no line is said."""
    lines = {}
    for form in ("unix:the.sock", f"127.0.0.1:{free_port()}", proxied()):
        with Server(folder, 1, form) as server:
            comes_in(server, "203.0.113.2" if form.startswith("proxy:") else None, "ann").close()
            server.totals()
            lines[form] = [line for line in server.log().splitlines() if re.search(r"\bbans?\b", line)]
    *without, with_headers = lines.values()
    assert not with_headers and all(len(said) == 1 for said in without), lines
    assert all(f"proxy:{form}," in said[0] for form, said in zip(lines, without)), lines
    return without[0][0]


@test
def logins_of_who_is_banned_cost_no_talker_a_copy(folder):
    """Two hundred a second, over a full book whose last ban is theirs."""
    with talkers_beside_the_banned(folder) as (server, talkers):
        logins, refused = talkers.talk_beside(LOGIN_SECONDS, "banned", server.port, LOGINS_A_SECOND)
        talkers.part()
        connected(folder, "unix:stop.sock").close()
        assert server.totals()["full"] == 0
    assert logins > LOGINS_A_SECOND / 2 and refused >= 0.9 * logins, (logins, refused)
    return f"{talkers.circle.due} copies beside {logins} logins, of which {refused} were refused in time"


if __name__ == "__main__":
    sys.exit(test.run())
