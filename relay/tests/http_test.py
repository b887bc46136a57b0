#!/usr/bin/env python3
"""Tests of what the relay shows of the server over HTTP: the part `view` of haproxy.cfg with view.lua, over the server,
and over a stand-in for it (viewing.py) where that is to be late, or to send what no server sends. MURMUR is the
program. Prints a line a test; the status is 1 where one failed. Words are the names of tests to run."""
import http.client
import json
import os
import re
import socket
import subprocess
import sys
import tempfile
import threading
import time
from contextlib import contextmanager

from client import PATIENCE
from server import ViewServer
from trial import RELAY, free_port, run_checks, wait
from viewing import TRAPS, TWO_USERS, Viewing, document, example, in_pieces, longest, silent, user, whole
from views_test import Seen

# How much faster than usual view.lua is in most tests.
FAST = 2.5
# Through which view.lua asks the server. A machine has one of a name: each relay of a test gets its own.
STREAM = "abns@murmur-view"
# At most how many requests in ten seconds an address may send.
REQUESTS = 60
TESTS = []


def test(function):
    TESTS.append(function)
    return function


def part(name, text):
    """A section of the relay's configuration, switched on."""
    section = re.search(rf"^{name}\n(?: .*\n|\n)*", text, re.M).group()
    return re.sub(r"^ *disabled\n", "", section, flags=re.M)


def configuration(folder, port, address):
    """The part `view` of the relay's configuration, over the server at an address. Root has it run below the folder
    where the server's socket is."""
    with open(os.path.join(RELAY, "haproxy.cfg")) as file:
        text = file.read()
    first, server = ["global", "    nbthread 1", f"    lua-load {folder}/view.lua"], address.replace("unix:", "unix@")
    if os.getuid() == 0 and server.startswith(f"unix@{folder}"):
        first += [f"    chroot {folder}", "    user nobody"]
        server = server.replace(folder, "")
    sections = "\n".join([*first, "", part("defaults", text), part("frontend view", text),
                          part("listen view-documents", text)])
    sections = re.sub(r"^( *bind) 127\S+", rf"\1 127.0.0.1:{port}", sections, flags=re.M)
    sections = re.sub(r"^( *server view) \S+", rf"\1 {server}", sections, flags=re.M)
    sections = sections.replace("/usr/share/murmur/view.html", os.path.join(RELAY, "view.html"))
    return sections.replace(STREAM, f"{STREAM}-{port}")


class Relay:
    """The part `view` of the relay over a server at an address, `fast` times as fast as usual; `change` is made to its
    configuration."""

    def __init__(self, folder, address, fast=FAST, change=lambda text: text):
        self.port, self.fast = free_port(), fast
        # haproxy fills the names of such sockets up
        self.stream = f"\0murmur-view-{self.port}".ljust(108, "\0")
        with open(os.path.join(RELAY, "view.lua")) as file:
            text = file.read().replace(STREAM, f"{STREAM}-{self.port}")
        text = re.sub(r"^(local (?:INTERVAL|PATIENCE)) = (\d+)$", rf"\1 = \2 / {fast}", text, flags=re.M)
        with open(os.path.join(folder, "view.lua"), "w") as file:
            file.write(text)
        os.chmod(folder, 0o755)
        path = os.path.join(folder, "view.cfg")
        with open(path, "w") as file:
            file.write(change(configuration(folder, self.port, address)))
        checked = subprocess.run(["haproxy", "-c", "-f", path], capture_output=True, text=True, check=False)
        assert checked.returncode == 0 and "WARNING" not in checked.stderr, checked.stderr
        self.log_path = os.path.join(folder, "relay.log")
        with open(self.log_path, "w") as log:
            self.process = subprocess.Popen(["haproxy", "-db", "-f", path], cwd=folder, stdout=log, stderr=log)
        wait(lambda: self.listens() or self.process.poll() is not None, PATIENCE)
        assert self.process.poll() is None, self.log()

    def listens(self):
        """Whether it takes connections."""
        try:
            socket.create_connection(("127.0.0.1", self.port), 1).close()
            return True
        except OSError:
            return False

    def log(self):
        with open(self.log_path) as log:
            return log.read()

    def wait(self):
        """Waits until the server is asked again."""
        time.sleep(5.2 / self.fast)

    def __enter__(self):
        return self

    def __exit__(self, *_):
        self.process.terminate()
        self.process.wait(20)
        assert "runtime error" not in self.log(), self.log()


def asked(relay, path="/view.json", method="GET", line=None, body=None):
    """What the relay answers: the status, the headers by their names in small letters, and the body."""
    line = line or http.client.HTTPConnection("127.0.0.1", relay.port, timeout=30)
    line.request(method, path, body)
    reply = line.getresponse()
    return reply.status, {name.lower(): value for name, value in reply.getheaders()}, reply.read()


@contextmanager
def shown(send, **more):
    """A relay over a stand-in that sends this to each connection, and that stand-in."""
    with tempfile.TemporaryDirectory() as folder:
        with Viewing(f"unix:{folder}/view.sock", send) as server, Relay(folder, server.address, **more) as relay:
            yield relay, server


ROOMS = {"channels": [{"id": 1 + place, "parent": place // 3, "name": name} for place, name in enumerate(TRAPS)],
         "links": [[1, 2], [2, 5]]}


class Served:
    """A server with a configuration and users, and a relay."""

    def __init__(self, folder, rooms=None, names=("ann", "bob"), **more):
        self.server = ViewServer(folder, len(names), document=rooms or ROOMS, view_address=f"unix:{folder}/view.sock")
        os.chmod(f"{folder}/view.sock", 0o666)
        self.relay = Relay(folder, f"unix:{folder}/view.sock", **more)
        self.clients = [self.server.client().log_in(name) for name in names]

    def document(self):
        """The document that is due where nobody has done anything."""
        return Seen(self.clients[1]).document(2)

    def totals(self):
        """How the server ends once its users leave."""
        for client in self.clients:
            client.close()
        return self.server.totals()

    def __enter__(self):
        self.relay.__enter__()
        return self

    def __exit__(self, *caught):
        self.server.stop()
        self.relay.__exit__(*caught)


@contextmanager
def served(**more):
    with tempfile.TemporaryDirectory() as folder, Served(folder, **more) as both:
        yield both


def metrics(text):
    """The numbers of a page for Prometheus by their names; each is of a kind and has a help."""
    numbers = {}
    lines = text.decode().splitlines()
    for helps, types, value in zip(lines[::3], lines[1::3], lines[2::3], strict=True):
        name, number = value.split(" ")
        assert re.fullmatch(rf"# HELP {name} \S.*", helps), helps
        assert re.fullmatch(rf"# TYPE {name} (gauge|counter)", types), types
        numbers[name] = int(number)
    return numbers


# ---- what is answered

@test
def the_document_is_passed_on():
    with served() as both:
        status, headers, body = asked(both.relay)
        assert status == 200 and headers["content-type"] == "application/json", (status, headers)
        assert headers["cache-control"] == "no-store" and headers["content-length"] == str(len(body)), headers
        assert "access-control-allow-origin" not in headers, headers
        assert body == both.document(), body


@test
def metrics_are_those_of_the_document():
    with served() as both:
        view = json.loads(asked(both.relay)[2])
        status, headers, body = asked(both.relay, "/metrics")
    assert status == 200 and headers["content-type"] == "text/plain; version=0.0.4; charset=utf-8", headers
    counts = {"murmur_users": len(view["users"]), "murmur_channels": len(view["channels"])}
    assert list(counts.values()) == [2, 1 + len(TRAPS)], counts
    assert metrics(body) == {"murmur_up": 1, **counts, "murmur_revision": view["revision"]}, body
    with shown(whole(example())) as (relay, _):
        assert metrics(asked(relay, "/metrics")[2])["murmur_revision"] == 18446744073709551615


@test
def only_the_head_comes_without_a_body():
    with shown(whole(example())) as (relay, _):
        line = http.client.HTTPConnection("127.0.0.1", relay.port, timeout=30)
        for path in ("/view.json", "/metrics", "/", "/nothing"):
            full, head = asked(relay, path, line=line), asked(relay, path, "HEAD", line)
            assert full[2] and not head[2] and full[:2] == head[:2], (path, full, head)


@test
def it_can_only_be_read():
    with shown(whole(example())) as (relay, _):
        for method in ("POST", "PUT", "DELETE", "OPTIONS", "PATCH"):
            for path in ("/view.json", "/metrics", "/", "/nothing"):
                status, headers, _ = asked(relay, path, method, body=b"x" * 100)
                assert (status, headers.get("allow")) == (405, "GET, HEAD"), (method, path, status, headers)
        for path in ("/view", "/view.json/", "/metrics/a", "/..", "/view.json%00"):
            assert asked(relay, path)[0] == 404, path
        assert asked(relay, "/view.json?callback=x")[0] == 200


@test
def the_page_is_served():
    with shown(whole(example())) as (relay, _):
        status, headers, body = asked(relay, "/")
    with open(os.path.join(RELAY, "view.html"), "rb") as file:
        assert (status, body) == (200, file.read()), status
    assert headers["content-type"] == "text/html; charset=utf-8", headers


@test
def other_sites_may_read_it_only_where_that_is_asked_for():
    def allow(text):
        return re.sub(r"# (http-after-response .*Access-Control)", r"\1", text)

    with shown(whole(TWO_USERS), change=allow) as (relay, _):
        assert asked(relay)[1]["access-control-allow-origin"] == "*"


# ---- how often the server is asked

@test
def the_server_is_asked_at_most_every_five_seconds():
    """At the usual pace, and however many ask at once."""
    seconds, statuses = 14, []

    def ask_again(relay, end):
        while time.monotonic() < end:
            statuses.append(asked(relay)[0])
            time.sleep(0.4)

    def let_ask(text):
        return text.replace(f"gt {REQUESTS}", f"gt {REQUESTS}000")

    with served(fast=1, change=let_ask) as both:
        began = time.monotonic()
        threads = [threading.Thread(target=ask_again, args=(both.relay, began + seconds)) for _ in range(20)]
        for thread in threads:
            thread.start()
        for thread in threads:
            thread.join()
        views = both.totals()["viewed"]
        assert set(statuses) == {200} and views == 3, (set(statuses), views)
    return f"{len(statuses)} requests in {seconds} s, {views} views"


@test
def what_came_last_is_kept_until_then():
    with shown(None) as (relay, server):
        server.send = lambda stream: stream.sendall(document([], [user(server.count, "ann")]))
        bodies = []
        for number in range(1, 4):
            bodies += [asked(relay)[2], asked(relay)[2]]
            assert server.count == number and metrics(asked(relay, "/metrics")[2])["murmur_users"] == 1
            relay.wait()
        assert bodies[::2] == bodies[1::2] == [document([], [user(number, "ann")]) for number in (1, 2, 3)], bodies


@test
def who_hangs_up_holds_up_nobody():
    with shown(in_pieces(TWO_USERS, 100, 0.04)) as (relay, server):
        for number in range(1, 4):
            for _ in range(5):
                line = socket.create_connection(("127.0.0.1", relay.port))
                line.sendall(b"GET /view.json HTTP/1.1\r\nHost: x\r\n\r\n")
                line.close()
            assert asked(relay)[::2] == (200, TWO_USERS) and server.count == number, server.count
            relay.wait()


@test
def nobody_else_reaches_the_server():
    with shown(whole(TWO_USERS)) as (relay, server):
        for asks in (0, 1):
            for _ in range(20):
                with socket.socket(socket.AF_UNIX) as stream:
                    stream.connect(relay.stream)
                    stream.settimeout(5)
                    try:
                        assert stream.recv(1000) == b""
                    except ConnectionError:
                        pass
            assert server.count == asks, server.count
            assert asked(relay)[0] == 200


# ---- where nothing whole comes

@test
def a_document_that_is_cut_is_none():
    lengths = [0, 1, 2, *range(20, len(TWO_USERS), 37), len(TWO_USERS) - 2, len(TWO_USERS) - 1, len(TWO_USERS)]
    with shown(None) as (relay, server):
        for length in lengths:
            server.send = whole(TWO_USERS[:length])
            status, headers, body = asked(relay)
            there = length == len(TWO_USERS)
            assert status == (200 if there else 503) and (body == TWO_USERS) == there, (length, status, body)
            assert there or headers["retry-after"], headers
            up = metrics(asked(relay, "/metrics")[2])
            assert up["murmur_up"] == there and (there or list(up) == ["murmur_up"]), up
            relay.wait()
        # one that the relay does not reach in time is none either
        assert len(lengths) // 2 < server.count <= len(lengths), server.count
    return f"{len(lengths)} lengths, {server.count} of them asked for"


@test
def a_slow_document_is_waited_for_and_a_silent_server_is_not():
    with shown(None, fast=1) as (relay, server):
        times = []
        for send, wanted in ((in_pieces(TWO_USERS, 40, 0.2), 200), (silent(20), 503),
                             (in_pieces(TWO_USERS, 10, 0.5), 503), (whole(TWO_USERS), 200)):
            server.send = send
            began = time.monotonic()
            assert asked(relay)[0] == wanted
            times.append(time.monotonic() - began)
            time.sleep(max(0, began + 5.2 - time.monotonic()))
        assert max(times) < 4, times
    return ", ".join(f"{one:.1f} s" for one in times)


@test
def the_server_goes_and_comes_back():
    with tempfile.TemporaryDirectory() as folder, Relay(folder, f"unix:{folder}/view.sock") as relay:
        for _ in range(3):
            assert asked(relay)[0] == 503 and metrics(asked(relay, "/metrics")[2]) == {"murmur_up": 0}
            relay.wait()
            with Viewing(f"unix:{folder}/view.sock", whole(TWO_USERS)):
                assert asked(relay)[::2] == (200, TWO_USERS)
            relay.wait()
    with tempfile.TemporaryDirectory() as folder:
        with Viewing(f"127.0.0.1:{free_port()}", whole(TWO_USERS)) as server, Relay(folder, server.address) as relay:
            assert asked(relay)[::2] == (200, TWO_USERS)


@test
def the_longest_document_is_passed_on_whole():
    text = longest()
    with shown(whole(text)) as (relay, server):
        began = time.monotonic()
        assert asked(relay)[::2] == (200, text)
        seconds = time.monotonic() - began
        assert metrics(asked(relay, "/metrics")[2])["murmur_channels"] == 2048
        relay.wait()
        # and one that no server sends is not kept
        server.send = whole(b"x" * 8_000_001 + b"\n")
        assert asked(relay)[0] == 503
        relay.wait()
        server.send = in_pieces(text, 50_000, 0.001)
        assert asked(relay)[::2] == (200, text)
    return f"{len(text):,} bytes in {seconds:.2f} s"


# ---- limits

@test
def who_asks_too_often_is_refused():
    with shown(whole(TWO_USERS)) as (relay, _):
        statuses = [asked(relay, "/metrics")[0] for _ in range(REQUESTS + 20)]
    assert statuses == [200] * REQUESTS + [429] * 20, statuses


@test
def it_is_off_as_it_is_installed():
    with open(os.path.join(RELAY, "haproxy.cfg")) as file:
        text = file.read()
    for name in ("frontend view", "listen view-documents"):
        section = re.search(rf"^{name}\n(?: .*\n)*", text, re.M).group()
        assert re.search(r"^    disabled$", section, re.M), section
        assert re.search(r"^    bind (127\.0\.0\.1:64780|abns@murmur-view)$", section, re.M), section


# ---- the schema

@test
def the_schema_takes_what_the_server_shows_and_nothing_else():
    import jsonschema  # of Debian's python3-jsonschema, which the other tests need not
    with open(os.path.join(RELAY, "../docs/view.schema.json")) as file:
        schema = jsonschema.Draft202012Validator(json.load(file))
    with open(os.path.join(RELAY, "tests/wrong-views.txt")) as file:
        wrong = file.read().splitlines()[1:]
    with served() as both:
        texts = [both.server.view()]
    for text in (*texts, TWO_USERS, example(), longest(), document([])):
        schema.validate(json.loads(text))
    for line in wrong:
        assert not schema.is_valid(json.loads(line)), line
    return f"{len(wrong)} are refused"


def main():
    return run_checks([one for one in TESTS if one.__name__ in sys.argv[1:] or len(sys.argv) == 1])


if __name__ == "__main__":
    sys.exit(main())
