#!/usr/bin/env python3
"""Tests of relay/view.html in headless Chromium, over the relay of http_test.py: what it draws of a document, that
names stay text, that it follows what users do, and what it says where the server is away. MURMUR is the program. Prints
a line a test; the status is 1 where one failed. Words are the names of tests to run.

With `--picture FILE` it only writes the picture of the page that is in the documents."""
import base64
import html
import http.server
import json
import os
import re
import select
import shutil
import subprocess
import sys
import tempfile
import threading
import time

from client import PATIENCE
from crowds import ask
from http_test import served, shown
from reader.mumble import CHANNEL_STATE, PERMISSIONS, USER_STATE
from trial import RELAY, free_port, run_checks
from viewing import TRAPS, example, longest, whole
from views_test import talk

# The browser, how long it lets the page's clock run, in milliseconds, and within how many seconds the page shows a
# change: it asks every five.
BROWSER = shutil.which("chromium") or shutil.which("google-chrome")
MOMENT, SOON = 1500, 15
TESTS = []
ROOMS = {"channels": [
    {"id": 0, "acls": [{"group": "all", "grant": PERMISSIONS["MakeTempChannel"]}]},
    {"id": 1, "parent": 0, "name": "Lobby"}, {"id": 2, "parent": 0, "name": "Games"},
    {"id": 3, "parent": 2, "name": "Alpha"}, {"id": 4, "parent": 2, "name": "Bravo"},
    {"id": 5, "parent": 0, "name": "Stage", "acls": [{"group": "all", "deny": PERMISSIONS["Speak"]}]}],
    "links": [[3, 4]]}
NAMES = ("ann", "bob", "kai", "mia", "ole", "zoë")


def test(function):
    TESTS.append(function)
    return function


def browsed(address, *words):
    """What Chromium writes once the page has run for a moment."""
    with tempfile.TemporaryDirectory() as home:
        words = [BROWSER, "--headless", "--no-sandbox", "--disable-gpu", f"--user-data-dir={home}", "--hide-scrollbars",
                 f"--virtual-time-budget={MOMENT}", *words, address]
        done = subprocess.run(words, capture_output=True, text=True, timeout=300, check=False,
                              env={**os.environ, "HOME": home})
    assert done.returncode == 0, done.stderr
    return done.stdout


def drawn(port):
    """The elements of the page as Chromium has them, once it has had an answer."""
    for _ in range(5):
        page = browsed(f"http://127.0.0.1:{port}/", "--dump-dom")
        if "The server is asked." not in page:
            break
    return page


def plain(page):
    """The tree without marks: a line each channel and user."""
    tree = page.partition('<main id="tree">')[2].partition("</main>")[0]
    return [html.unescape(re.sub("<[^>]*>", "", line)) for line in re.split("<li[^>]*>", tree)[1:]]


class Browser:
    """A browser with one page, which is asked and told over pipes (the DevTools protocol)."""

    def __init__(self, home, address):
        (to_it, self.to_it), (self.from_it, from_it) = os.pipe(), os.pipe()
        words = [BROWSER, "--headless", "--no-sandbox", "--disable-gpu", f"--user-data-dir={home}", "--hide-scrollbars",
                 "--remote-debugging-pipe", "--window-size=400,460"]
        self.process = subprocess.Popen(["bash", "-c", f'exec "$@" 3<&{to_it} 4>&{from_it}', "bash", *words],
                                        pass_fds=(to_it, from_it), env={**os.environ, "HOME": home},
                                        stdin=subprocess.DEVNULL, stdout=subprocess.DEVNULL, stderr=subprocess.DEVNULL)
        os.close(to_it)
        os.close(from_it)
        self.kept, self.count, self.session = b"", 0, {}
        page = self.ask("Target.createTarget", url=address)["targetId"]
        self.session = {"sessionId": self.ask("Target.attachToTarget", targetId=page, flatten=True)["sessionId"]}

    def ask(self, method, **parameters):
        """What it answers."""
        self.count += 1
        command = {"id": self.count, "method": method, "params": parameters, **self.session}
        os.write(self.to_it, json.dumps(command).encode() + b"\0")
        while True:
            said, end, rest = self.kept.partition(b"\0")
            if not end:
                assert select.select([self.from_it], [], [], 2 * PATIENCE)[0], f"nothing is answered to {method}"
                piece = os.read(self.from_it, 1 << 16)
                assert piece, "the browser has ended"
                self.kept += piece
                continue
            self.kept, answer = rest, json.loads(said)
            if answer.get("id") == self.count:
                assert "result" in answer, answer
                return answer["result"]

    def page(self):
        """The elements of the page."""
        return self.ask("Runtime.evaluate", expression="document.documentElement?.outerHTML ?? ''")["result"]["value"]

    def wait_for(self, lines):
        """Waits until the tree has these lines. How long that took, in seconds."""
        began = time.monotonic()
        while plain(self.page()) != lines:
            assert time.monotonic() < began + SOON, (plain(self.page()), lines)
            time.sleep(0.1)
        return time.monotonic() - began

    def picture(self):
        """A picture of the page, as PNG."""
        return base64.b64decode(self.ask("Page.captureScreenshot")["data"])

    def __enter__(self):
        return self

    def __exit__(self, *_):
        self.process.kill()
        self.process.wait()
        os.close(self.to_it)
        os.close(self.from_it)


def tree(table=None, **inside):
    """The lines of the page, with these in the channels; `table` are those in the temporary channel, if it is there."""
    channels = {"Root": "Root", "Games": "Games", "Alpha": "Alphalinked to Bravo", "Bravo": "Bravolinked to Alpha",
                "Lobby": "Lobby", "Stage": "Stage"}
    lines = []
    for name, shown_as in channels.items():
        lines += [shown_as, *inside.get(name, ())]
        if name == "Bravo" and table is not None:
            lines += ["Mia's tabletemporary", *table]
    return lines


def scene(file=None):
    """Users talk, move and mute, and one page shows it. How long it took to show each, in seconds; a picture goes to
    the file."""
    seconds = []
    with tempfile.TemporaryDirectory() as home, served(rooms=ROOMS, names=NAMES) as both:
        ann, bob, kai, mia, ole, zoe = both.clients

        def deed(client, kind=USER_STATE, **fields):
            for one in both.clients:
                talk(one)
            ask(client, kind, **fields)

        with Browser(home, f"http://127.0.0.1:{both.relay.port}/") as browser:
            browser.wait_for(tree(Root=NAMES))
            deed(ann, channel_id=1)
            deed(bob, channel_id=1)
            seconds.append(browser.wait_for(tree(Root=NAMES[2:], Lobby=["ann", "bob"])))
            deed(bob, self_mute=1, self_deaf=1)
            deed(ann, self_mute=1)
            seconds.append(browser.wait_for(tree(Root=NAMES[2:], Lobby=["annmute", "bobmutedeaf"])))
            deed(ann, self_mute=0)
            deed(kai, channel_id=3)
            deed(ole, channel_id=4)
            deed(zoe, channel_id=5, listening_channel_add=[3, 4])
            deed(mia, CHANNEL_STATE, parent=2, name="Mia's table", temporary=True)
            zoes = ["zoëmutelistens to Alpha, Bravo"]
            seconds.append(browser.wait_for(tree(
                ["mia"], Alpha=["kai"], Bravo=["ole"], Lobby=["ann", "bobmutedeaf"], Stage=zoes)))
            page = browser.page()
            assert re.search(r'<p id="state"[^>]*>Users: 6\. Channels: 7\. \S+', page), page
            # a tree: what is in a channel lies in the list that is in its own element
            assert re.search(r'Games</bdi><ul class=""><li class=""><bdi class="channel">Alpha</bdi>', page), page
            if file:
                with open(file, "wb") as picture:
                    picture.write(browser.picture())
            bob.close()
            kai.close()
            seconds.append(browser.wait_for(tree(["mia"], Bravo=["ole"], Lobby=["ann"], Stage=zoes)))
            assert both.totals()["looks"] > 0
    return seconds


@test
def it_follows_users_who_talk_move_and_mute():
    return "after " + ", ".join(f"{one:.1f} s" for one in scene())


@test
def names_are_text():
    with shown(whole(example())) as (relay, _):
        page = drawn(relay.port)
    tree = page.partition('<main id="tree">')[2].partition("</main>")[0]
    assert set(re.findall(r"<(\w+)", tree)) == {"ul", "li", "bdi", "span"}, set(re.findall(r"<(\w+)", tree))
    assert "<title>Channels</title>" in page, page
    names = [html.unescape(name) for name in re.findall(r"<bdi[^>]*>(.*?)</bdi>", tree)]
    assert all(names.count(trap) >= 2 for trap in TRAPS), names
    return f"{len(TRAPS)} names"


@test
def it_says_that_the_server_is_away():
    with shown(lambda _: None) as (relay, _):
        page = drawn(relay.port)
        assert '<body class="away">' in page and "The server is away: status 503." in page, page
        assert plain(page) == [], page


@test
def what_was_last_there_stays():
    """A server of its own in place of the relay: one document, then none."""
    answers = [(200, example()), (503, b"")]
    lines = sum(len(json.loads(example())[key]) for key in ("channels", "users"))

    class Handler(http.server.BaseHTTPRequestHandler):
        def do_GET(self):
            if self.path == "/":
                with open(os.path.join(RELAY, "view.html"), "rb") as file:
                    status, text = 200, file.read()
            elif self.path == "/view.json":
                status, text = answers.pop(0) if len(answers) > 1 else answers[0]
            else:
                status, text = 404, b""
            self.send_response(status)
            self.send_header("Content-Type", "text/html; charset=utf-8")
            self.send_header("Content-Length", str(len(text)))
            self.end_headers()
            self.wfile.write(text)

        def log_message(self, *_):
            """Writes nothing."""

    port = free_port()
    server = http.server.ThreadingHTTPServer(("127.0.0.1", port), Handler)
    threading.Thread(target=server.serve_forever, daemon=True).start()
    page = browsed(f"http://127.0.0.1:{port}/", "--dump-dom", "--virtual-time-budget=7000")
    server.shutdown()
    server.server_close()
    assert '<body class="away">' in page and len(plain(page)) == lines, page
    assert re.search(r"The server is away: status 503\. What is below was so at \S+", page), page


@test
def many_are_drawn():
    with shown(whole(longest(400, 200, 4))) as (relay, _):
        page = drawn(relay.port)
    assert len(plain(page)) == 600, len(plain(page))


def main(words):
    if words[:1] == ["--picture"] and len(words) == 2:
        scene(os.path.abspath(words[1]))
        return 0
    if not BROWSER:
        print("FAILED  page_test.py: there is no chromium")
        return 1
    return run_checks([one for one in TESTS if one.__name__ in words or not words])


if __name__ == "__main__":
    sys.exit(main(sys.argv[1:]))
