#!/usr/bin/env python3
"""Tests of how the server starts and stops: what it says of its address and its environment, what it does with too few
descriptors, and a stop in good order. MURMUR is the program. Prints a line a test; the status is 1 where one failed."""
import os
import pty
import re
import resource
import signal
import socket
import stat
import subprocess
import sys
import threading
import time

from client import PATIENCE, Ended, PlainClient
from reader.mumble import AUTHENTICATE, TEXT_MESSAGE, VERSION, VOICE
from reader.wire import message
from server import Server, Tests, header, is_closed
from trial import PROGRAM, RELAY, free_port, is_asleep, wait

# How soon a server ends that is asked to, in seconds.
SOON = 10
# Enough descriptors for a server, and too few for 100 clients; too few for its threads.
FEW, TOO_FEW = 64, 5

test = Tests()


def ask_to_stop(folder, name="stop.sock"):
    """A connection to the socket for a stop. Nothing comes over it: it ends when the server has ended."""
    stream = socket.socket(socket.AF_UNIX)
    stream.settimeout(SOON)
    stream.connect(os.path.join(folder, name))
    return stream


def stopped(server):
    """The totals of a server that is asked to stop, which it does soon."""
    began = time.monotonic()
    with ask_to_stop(server.folder) as stream:
        totals = server.totals()
        assert is_closed(stream)
    seconds = time.monotonic() - began
    assert seconds < SOON, f"it took {seconds:.1f} s"
    assert "stop.sock" not in os.listdir(server.folder), "the file of the socket is left"
    assert "overslept" not in server.log(), server.log()
    return totals


class Stoppable(Server):
    """One with a socket for a stop, and with further words. It is there once the files of its sockets are."""

    def __init__(self, folder, *words, **environment):
        self.folder, self.address = folder, "unix:the.sock"
        self.log_path = os.path.join(folder, "log")
        with open(self.log_path, "w") as log:
            self.process = subprocess.Popen([PROGRAM, "serve", self.address, "1000", *words], cwd=folder,
                                            stdin=subprocess.DEVNULL, stdout=subprocess.PIPE, stderr=log, text=True,
                                            env={**os.environ, "MURMUR_STOP": "unix:stop.sock", **environment})
        # the door comes last; its file is there just before it listens
        wait(lambda: self.process.poll() is not None or (self.is_open() and is_asleep(self.process)), PATIENCE)

    def is_open(self):
        return os.path.exists(os.path.join(self.folder, "the.sock"))


def journal_of(server):
    """The journal that a server wrote, its totals, and what the audit says of it."""
    output, _ = server.process.communicate(timeout=30)
    assert server.process.returncode == 0, (server.process.returncode, server.log())
    journal, totals = output[:output.rindex("served ")], output[output.rindex("served "):]
    audit = subprocess.run([PROGRAM, "audit"], input=journal, capture_output=True, text=True, timeout=60)
    assert audit.returncode == 0, audit.stderr
    return journal, totals, audit.stdout


def voice(number):
    return bytes([0x80, number % 128, 3, 7, 7, 7])


@test
def a_stop_ends_it_with_its_totals(folder):
    with Server(folder, 1000, MURMUR_STOP="unix:stop.sock") as server:
        clients = [server.client().log_in(f"user{i}") for i in range(4)]
        for client in clients:
            client.wait_until(lambda: len(client.users) == 4 or None)
        for number in range(10):
            clients[0].send(VOICE, voice(number))
        for client in clients[1:]:
            client.wait_until(lambda: sum(kind == VOICE for kind, _ in client.frames) == 10 or None)
        totals = stopped(server)
        assert totals == {"connections": 4, "accepted": 8, "looks": 10, "copies": 30, "full": 0, "stale": 0}, totals
        assert all(is_closed(client.stream) for client in clients)
        assert "murmur: is asked to stop\n" in server.log() and server.log().count(" closed after ") == 4, server.log()


@test
def a_stop_while_all_talk_leaves_a_legal_journal(folder):
    users = 12
    with Stoppable(folder, "journal") as server:
        clients = [server.client().log_in(f"user{i}") for i in range(users)]

        def talk(client):
            number = 0
            try:
                while True:
                    client.send(VOICE, voice(number))
                    if number % 10 == 0:
                        client.mute(number % 20 == 0)
                    client.read(0.01)
                    number += 1
            except (Ended, OSError):
                pass

        threads = [threading.Thread(target=talk, args=(client,)) for client in clients]
        for thread in threads:
            thread.start()
        time.sleep(1)
        began = time.monotonic()
        with ask_to_stop(folder):
            journal, totals, audit = journal_of(server)
        assert time.monotonic() - began < SOON + 10, "the stop, and the audit"
        for thread in threads:
            thread.join(SOON)
        heard = re.findall(r"^v (\d+) \d+ \S+ (\d+)((?: \d+/\d+/[sf])*)$", journal, re.M)
        ends = re.findall(r"^x (\d+) (\w+)$", journal, re.M)
        leaves = len(re.findall(r"^c \d+ - leave accepted ", journal, re.M))
        accepted = len(re.findall(r"^c .* accepted \d+$", journal, re.M))
        assert sorted(int(connection) for connection, _ in ends) == list(range(1, users + 1)), ends
        assert leaves == users and heard, (leaves, len(heard))
        sent = sum(words.count("/s") for _, _, words in heard)
        full = sum(words.count("/f") for _, _, words in heard)
        assert totals.startswith(f"served connections {users} accepted {accepted} looks {len(heard)} copies {sent} "
                                 f"full {full} stale "), totals
        return f"{len(heard)} packets; {audit.strip()}"


@test
def a_journal_is_audited_and_redacted_as_it_is_written(folder):
    """By the scripts for administrators, which take off the totals; and by the commands of README."""
    def said_by(*words, status=0):
        done = subprocess.run(words, capture_output=True, text=True, timeout=60, cwd=folder,
                              env={**os.environ, "MURMUR": PROGRAM})
        assert done.returncode == status, done
        return done.stdout

    password, secret = "never in a copy", "attack at dawn"
    with Stoppable(folder, "journal") as server:
        ann = server.client().log_in("ann", password)
        ann.send(TEXT_MESSAGE, message((3, 0), (5, secret)))
        ann.stay(0.5)
        with ask_to_stop(folder):
            written, _ = server.process.communicate(timeout=30)
    assert re.search(r"\nend\nserved connections 1 .*\n$", written), written
    docs = os.path.join(RELAY, "../docs")
    copies = {"journal": written}
    for name in ("journal", "redacted"):
        with open(os.path.join(folder, name), "w") as file:
            file.write(copies[name])
        assert said_by(f"{docs}/audit", name) == "legal controls 3 voices 0 copies 0 full 0\n"
        copies["redacted"] = said_by(f"{docs}/redact", name)
    assert copies["redacted"] == said_by(f"{docs}/redact", "redacted")
    for word in (password, secret):
        assert word.encode().hex() in copies["journal"] and word.encode().hex() not in copies["redacted"], word
    with open(os.path.join(RELAY, "../README.md")) as readme:
        command, answer = re.search(r"^(sed .*docs/audit changed)\n# (.*)$", readme.read(), re.M).groups()
    command = command.replace("docs/", f"{docs}/").replace("examples/", os.path.join(RELAY, "../examples/"))
    assert answer in said_by("sh", "-c", command, status=5)


@test
def a_stop_waits_for_nobody(folder):
    # who is too fast, who never reads, who says nothing, who has sent half a frame, and who has no header yet
    port = free_port()
    environment = {"MURMUR_STOP": "unix:stop.sock", "MURMUR_PACE": "20/50,200/400"}
    with Server(folder, 1000, f"proxy:127.0.0.1:{port}", **environment) as server:

        def behind_a_relay(name, **more):
            stream = server.connect(**more)
            stream.sendall(header("203.0.113.7"))
            client = PlainClient(stream)
            return client.log_in(name) if name else client

        fast, deaf = behind_a_relay("fast"), behind_a_relay("deaf", SO_RCVBUF=4096)
        half, silent = behind_a_relay("half"), behind_a_relay(None)
        half.stream.sendall(bytes([0, TEXT_MESSAGE, 0, 0, 1, 0]) + bytes(100))
        without = server.connect()
        talker = behind_a_relay("talker")
        for number in range(40):
            talker.send(TEXT_MESSAGE, message((3, 0), (5, "x" * 900)))
        for number in range(200):
            fast.mute(number % 2 == 0)
        time.sleep(0.5)
        totals = stopped(server)
        assert totals["connections"] == 5, totals
        for stream in (fast.stream, deaf.stream, half.stream, silent.stream, talker.stream, without):
            assert is_closed(stream)


@test
def a_stop_ends_it_with_nobody_there_and_after_the_last_session(folder):
    with Server(folder, 1000, MURMUR_STOP="unix:stop.sock") as server:
        time.sleep(0.5)
        assert stopped(server)["connections"] == 0
    with Server(folder, 2, MURMUR_STOP="unix:stop.sock") as server:
        ann, bob = server.client().log_in("ann"), server.client().log_in("bob")
        ann.stay(0.5)
        late = server.connect()
        assert stopped(server)["connections"] == 2
        assert is_closed(late) and is_closed(bob.stream)


@test
def many_are_stopped_at_once(folder):
    with Server(folder, 1000, MURMUR_STOP="unix:stop.sock") as server:
        clients = []
        for number in range(300):
            client = server.client()
            client.send(VERSION, message((1, 0x10400), (2, "test")))
            client.send(AUTHENTICATE, message((1, f"user{number}"), (5, 1)))
            clients.append(client)
        for client in clients:
            client.wait_until(lambda: client.session, 60)
        began = time.monotonic()
        totals = stopped(server)
        assert totals["connections"] == 300 and totals["accepted"] == 600, totals
        return f"{time.monotonic() - began:.1f} s"


@test
def no_stop_is_asked_for_by_a_second_server(folder):
    before = os.umask(0o077)
    try:
        first = Server(folder, 1000, MURMUR_STOP="unix:stop.sock")
    finally:
        os.umask(before)
    with first:
        mode = os.stat(f"{folder}/stop.sock").st_mode
        assert stat.S_ISSOCK(mode) and not mode & 0o077, "others may stop it"
        ann = first.client().log_in("ann")
        os.mkdir(f"{folder}/second")
        with Server(f"{folder}/second", 1, MURMUR_STOP=f"unix:{folder}/stop.sock") as second:
            assert second.process.wait(10) == 8, second.log()
            assert f"murmur: cannot listen on unix:{folder}/stop.sock: " in second.log(), second.log()
            assert second.log().endswith("murmur: 8 DoorFault\n"), second.log()
        ann.stay(0.5)
        assert stopped(first)["connections"] == 1


@test
def a_socket_that_a_killed_server_left_is_replaced(folder):
    with Server(folder, 1000, MURMUR_STOP="unix:stop.sock") as killed:
        killed.process.send_signal(signal.SIGKILL)
        killed.process.wait(10)
        assert os.path.exists(f"{folder}/stop.sock")
    with Server(folder, 1000, MURMUR_STOP="unix:stop.sock") as server:
        assert stopped(server)["connections"] == 0
    # but no other file
    with open(f"{folder}/stop.sock", "w") as file:
        file.write("kept")
    with Server(folder, 1000, MURMUR_STOP="unix:stop.sock") as server:
        assert server.process.wait(10) == 8, server.log()
    with open(f"{folder}/stop.sock") as file:
        assert file.read() == "kept"
    for text in ("stop.sock", "unix:", "127.0.0.1:0", ""):
        with Server(folder, 1000, MURMUR_STOP=text) as server:
            assert server.process.wait(10) == 8, server.log()
            assert f"murmur: MURMUR_STOP={text} is no unix:PATH\n" in server.log(), server.log()


@test
def the_socket_is_removed_where_it_ends_by_itself(folder):
    with Server(folder, 1, MURMUR_STOP="unix:stop.sock") as server:
        assert "stop.sock" in os.listdir(folder)
        server.client().log_in("ann").close()
        assert server.totals()["connections"] == 1
        assert "stop.sock" not in os.listdir(folder)
        assert "is asked to stop" not in server.log()


@test
def drain_stops_it_and_waits_for_its_end(folder):
    drain = [os.path.join(RELAY, "drain"), f"{folder}/stop.sock"]
    with Server(folder, 1000, MURMUR_STOP="unix:stop.sock") as server:
        ann = server.client().log_in("ann")
        drained = subprocess.run(drain, capture_output=True, text=True, timeout=60)
        assert drained.returncode == 0, drained
        assert re.fullmatch(rf"murmur-drain: process {server.process.pid} ended after \d+ s\n", drained.stdout), drained
        assert server.totals()["connections"] == 1 and is_closed(ann.stream)
    again = subprocess.run(drain, capture_output=True, text=True, timeout=60)
    assert again.returncode == 0 and "nobody serves" in again.stdout, again
    for words in (["-h"], ["one", "two"]):
        wrong = subprocess.run([drain[0], *words], capture_output=True, text=True, timeout=60)
        assert wrong.returncode == 1 and "usage" in wrong.stderr, wrong


@test
def who_cannot_be_accepted_is_said_once(folder):
    for log in ("all", "none"):
        with Stoppable(folder, MURMUR_LOG=log) as server:
            resource.prlimit(server.process.pid, resource.RLIMIT_NOFILE, (FEW, FEW))
            streams = [server.connect() for _ in range(100)]
            wait(lambda: "cannot accept" in server.log(), PATIENCE)
            time.sleep(2.5)
            line = "murmur: cannot accept connections: Too many open files (os error 24)\n"
            assert server.log().count("cannot accept") == 1 and line in server.log(), server.log()
            # as many as went away get in, and then it is said again
            for stream in streams[:5]:
                stream.close()
            wait(lambda: server.log().count(line) > 1, PATIENCE)
            totals = stopped(server)
            assert FEW - 30 < totals["connections"] < FEW, totals
    return f"{totals['connections']} of 100 got in"


@test
def too_few_descriptors_are_not_out_of_memory(folder):
    def run_with_few(*words, text):
        return subprocess.run([PROGRAM, *words], input=text, capture_output=True, text=True, timeout=60, cwd=folder,
                              preexec_fn=lambda: resource.setrlimit(resource.RLIMIT_NOFILE, (TOO_FEW, TOO_FEW)))

    serve = run_with_few("serve", "unix:the.sock", "1", text="{}")
    assert serve.returncode == 8 and not serve.stdout, serve
    assert serve.stderr == "murmur: cannot listen on unix:the.sock: Too many open files (os error 24)\nmurmur: 8 DoorFault\n"
    replay = run_with_few("replay", text="recording 1\nworkers 1\nconfig 7b7d\nend\n")
    assert replay.returncode == 0 and replay.stdout.startswith("totals ") and not replay.stderr, replay


@test
def a_port_that_the_system_chose_is_said(folder):
    for address in ("127.0.0.1:0", "proxy:127.0.0.1:0"):
        with Server(folder, 1, address) as server:
            said = re.search(r"^murmur: listening on (\S+):(\d+)$", server.log(), re.M)
            assert said and f"{said.group(1)}:0" == address and said.group(2) != "0", server.log()
            with socket.create_connection(("127.0.0.1", int(said.group(2))), 5) as stream:
                if address.startswith("proxy:"):
                    stream.sendall(header("203.0.113.7"))
                PlainClient(stream).log_in("ann")
            assert server.totals()["connections"] == 1


@test
def at_a_terminal_it_says_what_it_reads(folder):
    said = "murmur: reads the configuration from standard input\n"

    def log():
        with open(f"{folder}/terminal.log") as file:
            return file.read()

    terminal, standard_input = pty.openpty()
    for words in (["serve", "unix:the.sock", "1"], ["serve"], ["serve", "unix:the.sock"]):
        with open(f"{folder}/terminal.log", "w") as errors:
            process = subprocess.Popen([PROGRAM, *words], cwd=folder, stdin=standard_input, stdout=subprocess.DEVNULL,
                                       stderr=errors, env={**os.environ, "MURMUR_LOG": "none"})
        try:
            if len(words) == 3:
                wait(lambda: said in log(), PATIENCE)
                os.write(terminal, b"{}\n\x04")
                wait(lambda: os.path.exists(f"{folder}/the.sock"), PATIENCE)
            else:
                assert process.wait(10) == 1 and said not in log()
        finally:
            process.kill()
            process.wait(10)
    os.close(terminal)
    os.close(standard_input)
    with Stoppable(folder, MURMUR_LOG="none") as server:
        assert said not in server.log()


@test
def words_of_the_log_are_known_or_named(folder):
    for word, reports, is_named in (("none", False, False), ("off", False, False), ("all", True, False), ("on", True, False),
                                    ("quiet", True, True), ("NONE", True, True), ("", True, True)):
        with Stoppable(folder, MURMUR_LOG=word) as server:
            server.client().log_in("ann").close()
            assert stopped(server)["connections"] == 1
            assert ("murmur: 1 from ::\n" in server.log()) == reports, (word, server.log())
            named = f"murmur: MURMUR_LOG={word} is no word for it; it is none or off, all or on, which applies\n"
            assert (named in server.log()) == is_named, (word, server.log())


if __name__ == "__main__":
    sys.exit(test.run())
