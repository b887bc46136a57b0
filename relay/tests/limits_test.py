"""Tests of what the relay limits, refuses and writes to its log; `relay_test.py` runs them with its own.

Each test comes from addresses of its own below 127.0.0.0/8, since the relay counts by address.
"""
import itertools
import os
import re
import signal
import socket
import ssl
import subprocess
import tempfile
import threading
import time
from concurrent.futures import ThreadPoolExecutor

from client import PATIENCE, Client, Ended, parse, trusting_context
from reader.mumble import AUTHENTICATE, PING, REJECT, TEXT_MESSAGE, USER_REMOVE, VERSION
from reader.wire import HEADER, frame, message
from trial import PASSWORD, PROGRAM, RELAY, free_port, is_asleep, said_by, wait

# The limits of haproxy.cfg: connections at once, logins in two minutes, wrong passwords in five, tries in ten seconds.
AT_ONCE, LOGINS, WRONG_PASSWORDS, TRIES = 30, 40, 6, 60
# How long the relay waits for a client that sends nothing, and for a server that does not answer, in seconds.
SILENCE, SERVER_SILENCE = 10, 30
# The most connections that the server has open at once, and so those that the relay passes on.
CONNECTION_LIMIT = 1024
# What a Reject says: the password of an account is wrong, a name is in use.
WRONG_PASSWORD, NAME_IN_USE = 3, 5

GUESTS = itertools.count(1)
TESTS = []


def test(function):
    TESTS.append(function)
    return function


def login_frames(name, password=None):
    fields = [(1, name), *([(2, password)] if password is not None else []), (5, 1)]
    frames = ((VERSION, message((1, 0x10400), (2, "test"))), (AUTHENTICATE, message(*fields)))
    return b"".join(frame(kind, payload) for kind, payload in frames)


def comes_in(port, source, name=None, password=None, context=None):
    """Whether a login from this address gets in, under a new name where none is given; the relay or the server closes
    the connection otherwise."""
    try:
        client = Client(port, source, context=context)
        client.log_in(name or f"guest {next(GUESTS)}", password)
        client.close()
        return True
    except (Ended, ConnectionError, ssl.SSLError):
        return False


def rejection(port, source, name, password=None):
    """The cause that the server gives for a login that fails."""
    client = Client(port, source)
    client.stream.sendall(login_frames(name, password))
    cause = dict(parse(client.wait(REJECT)))[1]
    client.close()
    return cause


def lines(at, source):
    """The lines of the relay's log about an address: name, state at the end, word for a refusal."""
    return re.findall(rf'^{re.escape(source)}:\d+ "(.*)" \d+ ms, \d+ in, \d+ out, (\S\S) (\S+)$', at.log(), re.M)


def is_reported(at, source, *line):
    wait(lambda: line in lines(at, source), PATIENCE)


def connections(at, source):
    """How many connections the server was given from an address."""
    return len(re.findall(rf"^murmur: \d+ from {re.escape(source)}\b", at.log(), re.M))


@test
def only_a_whole_login_uses_up_a_connection(at):
    whole = login_frames("whole")
    cuts = range(1, len(whole), 5)
    for length in cuts:
        client = Client(at.port, "127.0.4.1")
        client.stream.sendall(whole[:length])
        client.read(0.1)
        client.close()
    time.sleep(0.5)
    assert connections(at, "127.0.4.1") == 0, "a part of a login uses up a connection"
    wait(lambda: lines(at, "127.0.4.1") == [("-", "PR", "no-login")] * len(cuts), PATIENCE)
    # nor does one that haproxy cannot look at as a whole
    client = Client(at.port, "127.0.4.1")
    client.send(AUTHENTICATE, message((1, "long"), *[(3, "x" * 100)] * 200))
    try:
        client.stay(5)
        raise AssertionError("a login of 20,000 bytes is waited for")
    except Ended:
        pass
    assert connections(at, "127.0.4.1") == 0
    client = Client(at.port, "127.0.4.2")
    for byte in whole:
        client.stream.sendall(bytes([byte]))
        time.sleep(0.005)
    client.wait_until(lambda: client.session)
    client.close()
    # a Version in the packet of the login, alone before it, and none
    for first in (len(whole), HEADER.size + HEADER.unpack_from(whole)[1]):
        client = Client(at.port, "127.0.4.2")
        client.stream.sendall(whole[:first])
        time.sleep(0.2)
        client.stream.sendall(whole[first:])
        client.wait_until(lambda: client.session)
        client.close()
    client = Client(at.port, "127.0.4.2")
    client.send(AUTHENTICATE, message((1, "without"), (3, "x" * 100), (3, "y" * 10000), (5, 1)))
    client.wait_until(lambda: client.session)
    client.close()
    wait(lambda: connections(at, "127.0.4.2") == 4, PATIENCE)


@test
def who_sends_a_login_too_slowly_is_refused(at):
    pauses = {"127.0.4.3": 0.5, "127.0.4.4": 7, "127.0.4.5": 60}

    def send_slowly(source, pause):
        client = Client(at.port, source)
        try:
            for byte in login_frames("slow" * 20):
                client.stream.sendall(bytes([byte]))
                client.read(pause)
        except (Ended, OSError):
            client.close()

    threads = [threading.Thread(target=send_slowly, args=pair) for pair in pauses.items()]
    for thread in threads:
        thread.start()
    for thread in threads:
        thread.join()
    for source in pauses:
        is_reported(at, source, "-", "PR", "no-login")
        took = int(re.search(rf'^{re.escape(source)}:\d+ "-" (\d+) ms', at.log(), re.M).group(1))
        assert 9000 < took < 25000 and connections(at, source) == 0, took


@test
def one_address_has_30_connections_at_once(at):
    here = [Client(at.port, "127.0.2.1").log_in(f"one of {AT_ONCE}, {i}") for i in range(AT_ONCE)]
    assert not comes_in(at.port, "127.0.2.1"), "the 31st came in"
    is_reported(at, "127.0.2.1", "-", "PR", "too-many-at-once")
    assert comes_in(at.port, "127.0.2.2"), "another address suffers for it"
    here.pop().close()
    wait(lambda: comes_in(at.port, "127.0.2.1"), PATIENCE)
    for client in here:
        client.close()


@test
def one_address_logs_in_40_times_in_two_minutes(at):
    came = 0
    while came < 100 and comes_in(at.port, "127.0.2.3", f"login {came}"):
        came += 1
    assert came == LOGINS, came
    is_reported(at, "127.0.2.3", f"login {LOGINS}", "PR", "too-many-logins")
    assert connections(at, "127.0.2.3") == LOGINS


@test
def one_address_tries_60_times_in_ten_seconds(at):
    def try_once():
        stream = socket.socket()
        stream.bind(("127.0.2.4", 0))
        # the relay may reset it before it is connected
        stream.connect_ex(("127.0.0.1", at.port))
        stream.setblocking(False)
        return stream

    def is_open(stream):
        try:
            return stream.recv(1) != b""
        except BlockingIOError:
            return True
        except OSError:
            return False

    tried = [try_once() for _ in range(TRIES + 20)]
    time.sleep(0.5)
    assert [is_open(stream) for stream in tried] == [True] * TRIES + [False] * 20
    for stream in tried:
        stream.close()


@test
def wrong_passwords_are_counted_and_nothing_else(at):
    # what else the server refuses is no guess at a password
    here = Client(at.port, "127.0.2.5").log_in("guest")
    assert {rejection(at.port, "127.0.2.5", "guest") for _ in range(WRONG_PASSWORDS + 2)} == {NAME_IN_USE}
    here.close()
    assert comes_in(at.port, "127.0.2.5", "SuperUser", PASSWORD)
    wait(lambda: sum(word == "rejected" for _, _, word in lines(at, "127.0.2.5")) == WRONG_PASSWORDS + 2, PATIENCE)
    guesses = {rejection(at.port, "127.0.2.6", "SuperUser", f"guess {i}") for i in range(WRONG_PASSWORDS)}
    assert guesses == {WRONG_PASSWORD}
    wrong = [("SuperUser", "wrong-password")] * WRONG_PASSWORDS
    wait(lambda: [line[::2] for line in lines(at, "127.0.2.6")] == wrong, PATIENCE)
    assert not comes_in(at.port, "127.0.2.6", "SuperUser", PASSWORD) and not comes_in(at.port, "127.0.2.6")
    is_reported(at, "127.0.2.6", "SuperUser", "PR", "wrong-passwords")
    assert comes_in(at.port, "127.0.2.7"), "another address suffers for it"
    assert at.haproxy("clear table mumble key ::ffff:127.0.2.6") == ""
    assert comes_in(at.port, "127.0.2.6")


@test
def the_log_has_names_and_no_passwords(at):
    word = "never in a log"
    names = {"Änne": "Änne", 'a\nb "c" \x7f\x1b[1m': "a?b ?c? ??[1m", "n" * 200: "n" * 128, "": "-"}
    for sent, written in names.items():
        client = Client(at.port, "127.0.4.6")
        client.stream.sendall(login_frames(sent, word))
        try:
            client.stay(0.3)
        except Ended:
            pass
        client.close()
        wait(lambda: written in [name for name, _, _ in lines(at, "127.0.4.6")], PATIENCE)
    assert len(lines(at, "127.0.4.6")) == 4 and word not in at.log()
    # what is cut off or lies about its length is the server's to refuse
    longest = b"\x0a" + b"\xff" * 8 + b"\x7f"
    for payload in (b"\x0a", b"\x0a\x05abcd", longest, b"\x0a" + b"\xff" * 20, b"\x0b\x0c", b"\x0d\0"):
        client = Client(at.port, "127.0.4.8")
        client.send(AUTHENTICATE, payload)
        try:
            client.stay(0.3)
        except Ended:
            pass
        client.close()
    wait(lambda: connections(at, "127.0.4.8") == len(lines(at, "127.0.4.8")) == 6, PATIENCE)
    assert {name for name, _, _ in lines(at, "127.0.4.8")} == {"-"}
    # of two names the one counts that the server takes
    client = Client(at.port, "127.0.4.7")
    client.send(AUTHENTICATE, message((1, "first"), (2, word), (5, 1), (1, "last"), (77, 1 << 63), (78, b"\x0a\x01x")))
    client.wait_until(lambda: client.session)
    assert client.users[client.session]["name"] == "last"
    client.close()
    wait(lambda: "last" in [name for name, _, _ in lines(at, "127.0.4.7")], PATIENCE)


class FastRelay:
    """The relay of a trial with another port, no server yet, and clocks that go ten times as fast: what is counted in
    two minutes is counted in 12 seconds, and a client that tries every ten seconds is one that tries every second. It
    passes on this many connections at once."""

    def __init__(self, at, slots=CONNECTION_LIMIT):
        self.folder, self.port = tempfile.mkdtemp(dir=at.folder), free_port()
        with open(at.path("haproxy.cfg")) as configuration:
            text = re.sub(r"^( *bind) \S+(?= .*ssl)", rf"\1 127.0.0.1:{self.port}", configuration.read(), flags=re.M)
        text = re.sub(r"(_rate)\((\d+)m\)", lambda rate: f"{rate[1]}({6 * int(rate[2])}s)", text)
        text = text.replace("_rate(10s)", "_rate(1s)")
        text = text.replace("timeout connect 5s", "timeout connect 5s\n    retries 0")
        assert f" maxconn {CONNECTION_LIMIT}\n" in text, text
        text = text.replace(f" maxconn {CONNECTION_LIMIT}\n", f" maxconn {slots}\n")
        for name in ("admin.sock", "murmur.sock"):
            text = text.replace(name, os.path.join(self.folder, name))
        path = os.path.join(self.folder, "fast.cfg")
        with open(path, "w") as other:
            other.write(text)
        self.log_path = os.path.join(self.folder, "log")
        self.running, self.configuration = [], at.path("murmur.json")
        with open(self.log_path, "w") as log:
            self.running.append(subprocess.Popen(["haproxy", "-db", "-f", path], cwd=at.folder, stdout=log, stderr=log))
        wait(self.listens, PATIENCE)

    def listens(self):
        try:
            said_by(os.path.join(self.folder, "admin.sock"), b"show version\n")
            return True
        except OSError:
            return False

    def log(self):
        with open(self.log_path) as log:
            return log.read()

    def serve(self):
        words = [PROGRAM, "serve", "proxy:unix:murmur.sock", "1000"]
        with open(self.configuration) as configuration:
            self.running.append(subprocess.Popen(words, cwd=self.folder, stdin=configuration, stdout=subprocess.DEVNULL,
                                                 stderr=subprocess.DEVNULL))
        wait(lambda: os.path.exists(os.path.join(self.folder, "murmur.sock")), PATIENCE)

    def settle(self):
        """Waits until the server has taken its memory."""
        wait(lambda: is_asleep(self.running[-1]), 60)

    def __enter__(self):
        return self

    def __exit__(self, *_):
        for process in self.running:
            process.terminate()
            # it may be one that was stopped
            process.send_signal(signal.SIGCONT)
            process.wait(20)


@test
def a_household_comes_back_after_the_server_was_away(at):
    clients, away, patience = 6, 25, 8
    entered, stopped = {}, threading.Event()

    def try_again(relay, number):
        while not stopped.is_set():
            began = time.monotonic()
            try:
                client = Client(relay.port, "127.0.8.1").log_in(f"member {number}")
                entered[number] = time.monotonic()
                while not stopped.is_set():
                    client.stay(1)
                return client.close()
            except (Ended, OSError):
                stopped.wait(max(0, began + 1 - time.monotonic()))

    with FastRelay(at) as relay:
        threads = [threading.Thread(target=try_again, args=(relay, number)) for number in range(clients)]
        for thread in threads:
            thread.start()
        time.sleep(away)
        assert not entered
        relay.serve()
        began = time.monotonic()
        try:
            wait(lambda: len(entered) == clients, patience)
        except TimeoutError:
            raise AssertionError(f"{len(entered)} of {clients} came in within {10 * patience} s") from None
        finally:
            stopped.set()
            for thread in threads:
                thread.join()
    seconds = sorted(10 * (at_time - began) for at_time in entered.values())
    return f"{clients} of {clients}, the last {seconds[-1]:.0f} s after the server, ten times as fast"


def page_of_certificates():
    """The blocks of docs/CERTIFICATES.md: commands for the authority and for Ann, and what haproxy.cfg gets."""
    with open(os.path.join(RELAY, "../docs/CERTIFICATES.md")) as page:
        blocks = re.findall(r"^```(\w+)\n(.*?)^```$", page.read(), re.M | re.S)
    commands = [block for language, block in blocks if language == "sh"]
    return commands, [block for language, block in blocks if language == "haproxy"]


def signed(folder, name):
    """TLS with the certificate that the commands of the page make for somebody in this folder."""
    (authority, ann), _ = page_of_certificates()
    if not os.path.exists(os.path.join(folder, "authority.pem")):
        subprocess.run(["sh", "-ec", authority], cwd=folder, check=True, stderr=subprocess.DEVNULL)
    for_name = re.sub(r"\bann\b", name, ann).replace("pkcs12 -export", "pkcs12 -export -passout pass:secret")
    subprocess.run(["sh", "-ec", for_name], cwd=folder, check=True, stderr=subprocess.DEVNULL)
    context = trusting_context()
    context.load_cert_chain(os.path.join(folder, f"{name}.pem"), os.path.join(folder, f"{name}.key"))
    return context


@test
def only_certificates_of_a_firm_get_in(at):
    _, (bind, names, revoked) = page_of_certificates()
    firm, other, port = tempfile.mkdtemp(dir=at.folder), tempfile.mkdtemp(dir=at.folder), free_port()
    ann, bob, stranger = signed(firm, "ann"), signed(firm, "bob"), signed(other, "ann")
    serial = subprocess.run(["openssl", "x509", "-in", f"{firm}/bob.pem", "-noout", "-serial"], check=True, text=True,
                            capture_output=True).stdout.strip().removeprefix("serial=")
    with open(at.path("haproxy.cfg")) as configuration, open(f"{firm}/revoked", "w") as file:
        text = re.sub(r"^( *bind) \S+ (.*ssl.*)$", lambda line: f"{line[1]} 127.0.0.1:{port} {line[2]} {bind.strip()}",
                      configuration.read(), flags=re.M)
        file.write(f"{serial}\n")
    login = "    tcp-request content lua.login\n"
    text = text.replace(login, revoked + login + names)
    text = re.sub(r"/etc(/haproxy)?/murmur\b", firm, text).replace("admin.sock", "firm.sock")
    with open(at.path("firm.cfg"), "w") as configuration:
        configuration.write(text)
    with open(at.path("firm.log"), "w") as log:
        relay = subprocess.Popen(["haproxy", "-db", "-f", "firm.cfg"], cwd=at.folder, stdout=log, stderr=log)
    try:
        wait(lambda: os.path.exists(at.path("firm.sock")), PATIENCE)
        answers = {(who, name): comes_in(port, source, name, context=context) for who, source, name, context in (
            ("ann", "127.0.8.4", "ann", ann), ("ann", "127.0.8.5", "SuperUser", ann), ("bob", "127.0.8.6", "bob", bob),
            ("stranger", "127.0.8.7", "ann", stranger), ("nobody", "127.0.8.8", "ann", None))}
    finally:
        relay.terminate()
        relay.wait(20)
    with open(at.path("firm.log")) as log:
        said = log.read()
    assert answers == {("ann", "ann"): True, ("ann", "SuperUser"): False, ("bob", "bob"): False,
                       ("stranger", "ann"): False, ("nobody", "ann"): False}, (answers, said)
    for source, word in (("127.0.8.5", " PR other-name"), ("127.0.8.6", " PR revoked"),
                         ("127.0.8.7", " SSL client certificate not trusted"), ("127.0.8.8", " SSL handshake failure")):
        assert re.search(rf"^{re.escape(source)}:.*{word}$", said, re.M), (source, said)


@test
def who_guessed_is_refused_for_a_while(at):
    with FastRelay(at) as relay:
        relay.serve()
        for guess in range(WRONG_PASSWORDS):
            assert rejection(relay.port, "127.0.8.2", "SuperUser", f"guess {guess}") == WRONG_PASSWORD
        began = time.monotonic()
        assert not comes_in(relay.port, "127.0.8.2", "SuperUser", PASSWORD)
        wait(lambda: comes_in(relay.port, "127.0.8.2", "SuperUser", PASSWORD), 60)
        return f"{10 * (time.monotonic() - began):.0f} s, ten times as fast"


@test
def who_lost_the_line_gets_the_name_back(at):
    lost, other = Client(at.port, "127.0.3.6").log_in("lost"), Client(at.port, "127.0.3.6").log_in("other")
    began = time.monotonic()
    # as a stock client does: it notices, and comes back ten seconds later
    other.stay(10.5)
    while not comes_in(at.port, "127.0.3.7", "lost"):
        assert time.monotonic() < began + 13, "the name is still in use"
        other.stay(0.3)
    other.wait(USER_REMOVE)
    is_reported(at, "127.0.3.6", "lost", "cD", "-")
    lost.close()
    other.close()
    return f"{time.monotonic() - began:.1f} s"


def silent_until_closed(at, source, begin, seconds):
    """How long a client that has begun so, and then reads and sends nothing, is there."""
    client = Client(at.port, source)
    began = time.monotonic()
    begin(client)
    try:
        while time.monotonic() < began + 3 * SILENCE:
            client.read(1)
    except Ended:
        seconds.append(time.monotonic() - began)
    client.close()


def goes_after(relay, name, pings=False):
    """How long a client is there that sends its login and then, if anything, pings, and what the relay says of it."""
    client = Client(relay.port, "127.0.8.9")
    began = time.monotonic()
    client.stream.sendall(login_frames(name))
    try:
        while time.monotonic() < began + 2 * SERVER_SILENCE:
            client.read(SILENCE / 4)
            if pings:
                client.send(PING)
    except (Ended, OSError):
        pass
    seconds = time.monotonic() - began
    client.close()
    assert client.session is None, f"{name} came in"
    wait(lambda: name in (line[0] for line in lines(relay, "127.0.8.9")), PATIENCE)
    return seconds, dict(line[:2] for line in lines(relay, "127.0.8.9"))[name]


def all_at_once(*calls):
    """What each of these answers."""
    with ThreadPoolExecutor(len(calls)) as threads:
        return [answer.result() for answer in [threads.submit(*call) for call in calls]]


@test
def whose_login_waits_is_gone_after_a_while(at):
    with FastRelay(at) as relay:
        relay.serve()
        relay.settle()
        # it decides nothing more
        relay.running[-1].send_signal(signal.SIGSTOP)
        gone = all_at_once((goes_after, relay, "silent"), (goes_after, relay, "pings", True))
        assert [why for _, why in gone] == ["cD", "sD"], gone
        assert all(SERVER_SILENCE - 1 < seconds < SERVER_SILENCE + SILENCE for seconds, _ in gone), gone
    return " and ".join(f"{seconds:.1f} s" for seconds, _ in gone)


@test
def who_waits_for_a_slot_is_gone_as_who_is_silent(at):
    with FastRelay(at, slots=1) as relay:
        relay.serve()
        relay.settle()
        first = Client(relay.port, "127.0.8.10").log_in("first")
        staying = threading.Thread(target=first.stay, args=(2 * SILENCE,))
        staying.start()
        gone = all_at_once((goes_after, relay, "silent"), (goes_after, relay, "pings", True))
        assert [why for _, why in gone] == ["sQ", "sQ"], gone
        assert all(SILENCE - 1 < seconds < 2 * SILENCE for seconds, _ in gone), gone
        staying.join()
        first.close()
        assert comes_in(relay.port, "127.0.8.9", "next")
    return " and ".join(f"{seconds:.1f} s" for seconds, _ in gone)


@test
def who_stops_in_the_midst_of_a_frame_is_gone(at):
    whole = frame(TEXT_MESSAGE, message((3, 0), (5, "x" * 100)))
    lengths, seconds = (0, 3, HEADER.size, HEADER.size + 50), []

    def stop_at(length):
        return lambda client: client.log_in(f"{length} bytes").stream.sendall(whole[:length])

    # one of them sends nothing at all
    begins = [("127.0.5.1", lambda client: None), *(("127.0.5.2", stop_at(length)) for length in lengths)]
    threads = [threading.Thread(target=silent_until_closed, args=(at, *begin, seconds)) for begin in begins]
    for thread in threads:
        thread.start()
    for thread in threads:
        thread.join()
    assert len(seconds) == len(begins) and SILENCE - 1 < min(seconds) and max(seconds) < 2 * SILENCE, seconds
    for length in lengths:
        is_reported(at, "127.0.5.2", f"{length} bytes", "cD", "-")
    assert connections(at, "127.0.5.1") == 0
    return f"{min(seconds):.1f} to {max(seconds):.1f} s"
