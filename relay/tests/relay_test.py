#!/usr/bin/env python3
"""Tests of the relay with the server behind it, as `relay/try` starts them. MURMUR is the program.

Each test comes from an address of its own below 127.0.0.0/8, since the relay counts by address. Prints a line a
test; the status is 1 where one failed.
"""
import os
import pty
import re
import resource
import signal
import socket
import ssl
import subprocess
import sys
import tempfile
import threading
import time
import warnings

import limits_test
from bans import BAN_LIST, ban, listed
from client import ENTER, PATIENCE, Client, Ended, parse, trusting_context
from reader.mumble import (AUTHENTICATE, CRYPT_SETUP, PERMISSION_DENIED, PING, REJECT, TEXT_MESSAGE, USER_REMOVE,
                           VERSION, VOICE)
from limits_test import comes_in, is_reported, lines, login_frames
from reader.wire import message
from server import is_closed
from trial import PASSWORD, PROGRAM, RELAY, UNPROVED, Installation, free_port, run_checks, said_by, wait

# The addresses that the relay keeps out.
KEPT_OUT, KEPT_OUT_NETWORK, KEPT_OUT_LATER = "127.0.9.1", "127.0.9.128/25", "127.0.9.2"


def not_refused(port):
    """Whether somebody listens there."""
    try:
        socket.create_connection(("127.0.0.1", port), 1, source_address=("127.0.3.9", 0)).close()
        return True
    except OSError:
        return False


TESTS = []


def test(function):
    TESTS.append(function)
    return function


@test
def crypt_setup_comes_first_and_once(at):
    client = Client(at.port, "127.0.1.1").log_in("first")
    client.stay(6)
    kinds = [kind for kind, _ in client.frames]
    assert kinds[:2] == [CRYPT_SETUP, VERSION], kinds
    assert kinds.count(CRYPT_SETUP) == 1 and PING in kinds, kinds
    client.close()


@test
def keys_are_of_16_bytes_and_of_one_connection(at):
    blocks = []
    for _ in range(20):
        client = Client(at.port, "127.0.1.2").log_in("second")
        payload = client.wait(CRYPT_SETUP)
        assert len(payload) == 54, payload.hex()
        fields = parse(payload)
        assert [number for number, _ in fields] == [1, 2, 3] and all(len(block) == 16 for _, block in fields)
        blocks += [block for _, block in fields]
        client.close()
        time.sleep(0.1)
    assert len(set(blocks)) == 60, "a key or a nonce came twice"


@test
def voice_and_texts_pass(at):
    ann, bob = Client(at.port, "127.0.1.3").log_in("ann"), Client(at.port, "127.0.1.3").log_in("bob")
    ann.wait_until(lambda: ann.user("bob"))
    packets = [bytes([0x80, i, 0x3C]) + bytes((7 * i + j) % 256 for j in range(60)) for i in range(100)]
    for packet in packets:
        ann.send(VOICE, packet)
        time.sleep(0.01)
    bob.wait_until(lambda: sum(kind == VOICE for kind, _ in bob.frames) == 100 or None)
    heard = [payload for kind, payload in bob.frames if kind == VOICE]
    assert heard == [bytes([0x80, ann.session]) + packet[1:] for packet in packets], "copies differ"
    bob.send(TEXT_MESSAGE, message((2, ann.session), (5, "x" * 20000)))
    assert dict(parse(ann.wait(TEXT_MESSAGE)))[5] == b"x" * 20000
    ann.close()
    bob.close()


@test
def a_denial_names_the_permission(at):
    client = Client(at.port, "127.0.1.4").log_in("denied")
    client.enter(client.channels["Staff"])
    denial = dict(parse(client.wait(PERMISSION_DENIED)))
    assert denial[5] == 1 and denial[1] == ENTER and denial[2] == client.channels["Staff"], denial
    client.close()


@test
def the_password_that_was_set_opens_and_kicks(at):
    guest = Client(at.port, "127.0.1.5").log_in("guest")
    administrator = Client(at.port, "127.0.1.5").log_in("SuperUser", PASSWORD)
    administrator.kick(administrator.wait_until(lambda: administrator.user("guest"))[0], "for the test")
    removal = dict(parse(guest.wait(USER_REMOVE)))
    assert removal[1] == guest.session and removal[3] == b"for the test", removal
    try:
        guest.stay(5)
        raise AssertionError("the kicked client is still connected")
    except Ended:
        administrator.close()


@test
def who_is_banned_is_told_so_and_nobody_else(at):
    """By the messages that a stock client sends: a removal with a ban, a list that it has edited, and an empty one."""
    assert message((1, 4), (3, "begone"), (4, 1)).hex() == "08041a066265676f6e652001"
    edited = bytes.fromhex("0a6c0a1000000000000000000000ffff0a0102031080011a03626f622228303132333435363738396162"
                           "636465663031323334353637383961626364656630313233343536372a0b626164206d616e6e65727332"
                           "14323032362d31312d32375430373a34323a31345a3880e7840f")
    administrator = Client(at.port, "127.0.5.1").log_in("SuperUser", PASSWORD)
    bob, cat = Client(at.port, "127.0.5.2").log_in("bob"), Client(at.port, "127.0.5.3").log_in("cat")
    administrator.wait_until(lambda: administrator.user("cat"))
    administrator.send(USER_REMOVE, message((1, bob.session), (3, "begone"), (4, 1)))
    removal = dict(parse(bob.wait(USER_REMOVE)))
    assert removal[1] == bob.session and removal[3] == b"begone", removal
    assert is_closed(bob.stream)
    assert listed(administrator) == [ban("127.0.5.2", reason="begone")], listed(administrator)
    assert is_banned(at, "127.0.5.2", "bob")
    wait(lambda: any(line[0] == "bob" and line[2] == "rejected" for line in lines(at, "127.0.5.2")), PATIENCE)
    # the other stays, leaves and comes back
    cat.send(VOICE, bytes([0x80, 1, 3, 7, 7, 7]))
    assert administrator.wait(VOICE)[2:] == bytes([1, 3, 7, 7, 7])
    cat.close()
    assert comes_in(at.port, "127.0.5.3", "cat")
    # the date of an entry is not read, and the list without bob's ban lets bob in
    administrator.send(BAN_LIST, edited)
    hash_of = "0123456789abcdef0123456789abcdef01234567"
    assert listed(administrator) == [ban("10.1.2.3", 31536000, name="bob", hash=hash_of, reason="bad manners")]
    assert comes_in(at.port, "127.0.5.2", "bob")
    administrator.send(BAN_LIST)
    assert listed(administrator) == []
    administrator.close()


def is_banned(at, source, name):
    """Whether a login from there is rejected since the address is banned."""
    client = Client(at.port, source)
    client.stream.sendall(login_frames(name))
    told = dict(parse(client.wait(REJECT)))
    client.close()
    return (told[1], told[2]) == (0, b"banned")


@test
def a_rejection_is_read_by_who_sends_on(at):
    client = Client(at.port, "127.0.1.6")
    client.send(VERSION, message((1, 0x10400)))
    client.send(AUTHENTICATE, message((1, "SuperUser"), (2, "guessed"), (5, 1)))
    for _ in range(16):
        client.send(TEXT_MESSAGE, message((5, "y" * 1000)))
    assert dict(parse(client.wait(REJECT)))[1] == 3
    client.close()


@test
def old_tls_is_refused(at):
    warnings.simplefilter("ignore", DeprecationWarning)
    for version, good in ((ssl.TLSVersion.TLSv1_1, False), (ssl.TLSVersion.TLSv1_2, True), (ssl.TLSVersion.TLSv1_3, True)):
        context = trusting_context()
        context.set_ciphers("DEFAULT:@SECLEVEL=0")
        context.minimum_version = context.maximum_version = version
        try:
            Client(at.port, "127.0.1.7", context=context).log_in("tls").close()
            opened = True
        except ssl.SSLError:
            opened = False
        assert opened == good, version


@test
def addresses_are_kept_out(at):
    for source in (KEPT_OUT, "127.0.9.200"):
        assert not comes_in(at.port, source)
        is_reported(at, source, "-", "PR", "kept-out")
    assert comes_in(at.port, KEPT_OUT_LATER)
    assert at.haproxy(f"add acl kept-out {KEPT_OUT_LATER}") == ""
    assert not comes_in(at.port, KEPT_OUT_LATER)


@test
def the_server_gets_the_address(at):
    Client(at.port, "127.0.3.1").log_in("address").close()
    wait(lambda: re.search(r"^murmur: \d+ from 127\.0\.3\.1\b", at.log(), re.M), PATIENCE)
    if os.path.exists("/proc/net/if_inet6"):
        Client(at.port, "::1", "::1").log_in("address6").close()
        wait(lambda: re.search(r"^murmur: \d+ from \[?::1\b", at.log(), re.M), PATIENCE)


@test
def who_is_silent_goes_and_who_pings_stays(at):
    # what one of them is sent, a voice packet a second, does not keep it there
    silent, speaks = Client(at.port, "127.0.3.2").log_in("silent"), Client(at.port, "127.0.3.2").log_in("speaks")
    nobody = Client(at.port, "127.0.3.2")
    ends = {}

    def until_the_end(name, client):
        began = time.monotonic()
        try:
            while True:
                client.read(60)
        except Ended:
            ends[name] = time.monotonic() - began

    threads = [threading.Thread(target=until_the_end, args=pair) for pair in (("silent", silent), ("nobody", nobody))]
    for thread in threads:
        thread.start()
    for second in range(25):
        speaks.send(VOICE, bytes([0x80, second, 3, 1, 2, 3]))
        speaks.stay(1)
    for thread in threads:
        thread.join(1)
    assert all(8 <= ends.get(name, 0) <= 15 for name in ("silent", "nobody")), ends
    assert any(kind == VOICE for kind, _ in silent.frames), "nothing was sent to who is silent"
    assert speaks.user("silent") is None and speaks.user("speaks"), "the wrong users are shown"
    Client(at.port, "127.0.3.2").log_in("silent").close()
    speaks.close()


def drain_closes(clients, drain):
    """Runs the drain, which is to close these clients at once and to end the server."""
    closed = []

    def stay(client):
        try:
            client.stay(60)
        except Ended:
            closed.append(time.monotonic())

    threads = [threading.Thread(target=stay, args=(client,)) for client in clients]
    for thread in threads:
        thread.start()
    began = time.monotonic()
    drained = subprocess.run(drain, capture_output=True, text=True, timeout=120)
    assert drained.returncode == 0 and " ended after " in drained.stdout, drained
    for thread in threads:
        thread.join(1)
    assert len(closed) == len(clients) and max(closed) < began + 5, "a client was not closed at once"


def processes(master):
    """What the master says of its workers: nothing while it starts or reloads."""
    try:
        return said_by(master, b"show proc\n")
    except OSError:
        return b""


@test
def one_key_ends_both(_at):
    port = free_port()
    with tempfile.TemporaryDirectory() as folder:
        process, terminal = pty.fork()
        if process == 0:
            os.execv(os.path.join(RELAY, "try"), ["try", *UNPROVED, "-p", str(port), folder])
        seen = b""
        while b"q ends the server and the relay." not in seen:
            seen += os.read(terminal, 4096)
        ann, bob = Client(port).log_in("ann"), Client(port).log_in("bob")
        ann.send(VOICE, bytes([0x80, 1, 3, 7, 7, 7]))
        assert bob.wait(VOICE) == bytes([0x80, ann.session, 1, 3, 7, 7, 7])
        os.write(terminal, b"q")
        try:
            while os.read(terminal, 4096):
                pass
        except OSError:
            pass
        os.close(terminal)
        assert os.waitstatus_to_exitcode(os.waitpid(process, 0)[1]) == 0
        assert not not_refused(port) and not {"murmur.sock", "admin.sock"} & set(os.listdir(folder))


@test
def two_trials_do_not_share(at):
    with tempfile.TemporaryDirectory() as folder:
        for port, place, why in ((at.port, folder, f"is port {at.port} free?"),
                                 (free_port(), at.folder, "another relay/try runs in")):
            done = subprocess.run([os.path.join(RELAY, "try"), *UNPROVED, "-p", str(port), place],
                                  stdin=subprocess.DEVNULL, capture_output=True, text=True, timeout=30)
            assert done.returncode == 1 and why in done.stderr, done
    Client(at.port, "127.0.3.8").log_in("first").close()


@test
def a_trial_takes_as_many_descriptors_as_it_may_need(_at):
    """Where a process may have few of them, the server and the relay are started with enough for 1,024 connections."""
    few, wanted = 64, 4096
    limits = (few, resource.getrlimit(resource.RLIMIT_NOFILE)[1])
    with tempfile.TemporaryDirectory() as folder:
        trial = subprocess.Popen([os.path.join(RELAY, "try"), *UNPROVED, "-p", str(free_port()), folder],
                                 stdin=subprocess.DEVNULL, stdout=subprocess.DEVNULL, stderr=subprocess.DEVNULL,
                                 preexec_fn=lambda: resource.setrlimit(resource.RLIMIT_NOFILE, limits))
        try:
            wait(lambda: os.path.exists(os.path.join(folder, "admin.sock")), 30)
            with open(f"/proc/{trial.pid}/task/{trial.pid}/children") as children:
                soft = [resource.prlimit(int(child), resource.RLIMIT_NOFILE)[0] for child in children.read().split()]
            assert len(soft) >= 2 and min(soft) >= wanted, soft
        finally:
            trial.terminate()
            trial.wait(20)


@test
def drain_closes_the_clients_of_workers_that_a_reload_left(at):
    port = free_port()
    with open(at.path("haproxy.cfg")) as configuration, open(at.path("master.cfg"), "w") as other:
        text = re.sub(r"^( *bind) \S+(?= .*ssl)", rf"\1 127.0.0.1:{port}", configuration.read(), flags=re.M)
        other.write(text.replace("admin.sock", "worker.sock").replace("murmur.sock", "second.sock"))
    with open(at.path("murmur.json")) as configuration:
        server = subprocess.Popen([PROGRAM, "serve", "proxy:unix:second.sock", "200"], cwd=at.folder, stdin=configuration,
                                  stdout=subprocess.DEVNULL, stderr=subprocess.DEVNULL,
                                  env={**os.environ, "MURMUR_STOP": "unix:second-stop.sock"})
    master = subprocess.Popen(["haproxy", "-W", "-S", at.path("master.sock"), "-f", "master.cfg"], cwd=at.folder,
                              stdout=subprocess.DEVNULL, stderr=subprocess.DEVNULL)
    try:
        wait(lambda: not_refused(port) and os.path.exists(at.path("second.sock")), PATIENCE)
        before = Client(port, "127.0.3.3").log_in("before")
        # its worker may be there before the master hears signals
        wait(lambda: processes(at.path("master.sock")), PATIENCE)
        master.send_signal(signal.SIGUSR2)
        wait(lambda: re.search(rb"# old workers\n\d", processes(at.path("master.sock"))), PATIENCE)
        after = Client(port, "127.0.3.3").log_in("after")
        drain_closes([before, after], [os.path.join(RELAY, "drain"), at.path("second-stop.sock")])
        assert server.wait(20) == 0
    finally:
        for process in (server, master):
            if process.poll() is None:
                process.terminate()
            process.wait(20)


@test
def drain_ends_the_server_and_its_clients_come_back(at):
    clients = [Client(at.port, "127.0.3.4").log_in(f"drained{i}") for i in range(5)]
    drain = [os.path.join(RELAY, "drain"), at.path("stop.sock")]
    drain_closes(clients, drain)
    assert at.process.wait(20) == 0, "the server's status"
    connections = len(re.findall(r"^murmur: \d+ from ", at.log(), re.M))
    assert re.search(rf"^served connections {connections} accepted \d+ ", at.log(), re.M), "no line of totals"
    again = subprocess.run(drain, capture_output=True, text=True, timeout=120)
    assert again.returncode == 0 and "nobody serves" in again.stdout, again
    at.start()
    Client(at.port, "127.0.3.5").log_in("after").close()


def main():
    checks = [check for check in limits_test.TESTS + TESTS if check.__name__ in sys.argv[1:] or len(sys.argv) == 1]
    with tempfile.TemporaryDirectory() as folder:
        at = Installation(folder).set_password()
        with open(at.path("kept-out"), "w") as kept_out:
            kept_out.write(f"# kept out\n{KEPT_OUT}\n{KEPT_OUT_NETWORK}\n")
        at.start()
        try:
            return run_checks(checks, at)
        finally:
            at.stop()


if __name__ == "__main__":
    sys.exit(main())
