#!/usr/bin/env python3
"""Bans from the windows of a stock client (Debian's `mumble`) through the relay. MURMUR is the program.

usage: ban_window_test.py [FOLDER]

SuperUser bans a user by the menu, and finds, changes and removes the ban in the client's list of bans, by mouse and
keys. What the server then has is read by another client. Last another stock client is banned, and shows it. Pictures
of the windows go to FOLDER (relay/out/pictures). Prints a line a check; the status is 1 where one failed.
"""
import itertools
import json
import os
import re
import shutil
import sys
import tempfile
import time

from bans import ban, bytes_of, listed, set_list
from client import PATIENCE, Client, Ended
from limits_test import comes_in
from reader.mumble import PERMISSIONS
from stock_client_test import Children, Sound, StockClient
from trial import PASSWORD, RELAY, Installation, run_checks, wait

# Where in the window these are, on a display of 900 by 600.
SERVER_MENU, FIRST_GUEST = (40, 12), (319, 113)
REASON, MASK, UPDATE, REMOVE, OK = (294, 327), (432, 292), (544, 292), (544, 327), (443, 444)
# Seconds that a window takes to show what was done.
MOMENT = 1.5
# Whence the one comes who is banned, and a neighbour.
BANNED, NEIGHBOUR = "127.0.6.2", "127.0.6.77"


class Administrator(StockClient):
    """SuperUser, whose mouse and keys the test moves."""

    def __init__(self, at, folder, sound, children):
        super().__init__("SuperUser", at, folder, sound, children)

    def url(self, channel):
        return f"mumble://{self.name}:{PASSWORD.replace(' ', '%20')}@127.0.0.1:{self.port}/{channel}"

    def click(self, place, button=1):
        self.run("xdotool", "mousemove", *map(str, place), "click", str(button))
        time.sleep(MOMENT)

    def press(self, *keys):
        self.run("xdotool", "key", *keys)
        time.sleep(MOMENT)

    def write(self, text):
        self.run("xdotool", "type", text)
        time.sleep(MOMENT)

    def open_list(self):
        self.click(SERVER_MENU)
        self.press("b")


class Bans:
    """The checks, in the order in which they are made."""

    def __init__(self, at, administrator, another, pictures):
        self.at, self.administrator, self.another, self.pictures = at, administrator, another, pictures
        self.bob, self.readers = None, itertools.count()

    def reader(self):
        """Another client. Each comes from an address of its own, since the relay counts by address."""
        number = next(self.readers)
        return Client(self.at.port, f"127.0.{8 + number // 250}.{1 + number % 250}").log_in(f"reader {number}")

    def listed(self):
        """The list as another client is sent it."""
        reader = self.reader()
        bans = listed(reader)
        reader.close()
        return bans

    def picture(self, what):
        self.administrator.picture(os.path.join(self.pictures, f"{what}.png"))

    def the_administrator_connects(self):
        self.bob = Client(self.at.port, BANNED).log_in("bob")
        self.bob.wait_until(lambda: self.bob.user("SuperUser"), 60)
        self.bob.stay(2 * MOMENT)

    def a_user_is_banned_by_the_menu(self):
        self.administrator.click(FIRST_GUEST, button=3)
        self.administrator.press("b")
        self.administrator.write("noise")
        self.administrator.press("Return")
        try:
            self.bob.stay(10)
            raise AssertionError("who was banned is still connected")
        except Ended:
            pass
        assert self.listed() == [ban(BANNED, reason="noise")], self.listed()
        assert not comes_in(self.at.port, BANNED) and comes_in(self.at.port, NEIGHBOUR)

    def the_list_shows_and_changes_it(self):
        self.administrator.open_list()
        self.picture("bans")
        self.administrator.click(MASK)
        self.administrator.press("ctrl+a")
        self.administrator.write("24")
        self.administrator.click(REASON)
        self.administrator.press("End")
        self.administrator.write(" all day")
        self.administrator.click(UPDATE)
        self.administrator.click(OK)
        wanted = {"address": bytes_of(BANNED), "mask": 96 + 24, "reason": "noise all day", "duration": 0}
        wait(lambda: self.listed() == [wanted], PATIENCE)
        assert not comes_in(self.at.port, NEIGHBOUR)

    def the_list_removes_it(self):
        self.administrator.open_list()
        self.picture("bans-changed")
        self.administrator.click(REMOVE)
        self.administrator.click(OK)
        wait(lambda: self.listed() == [], PATIENCE)
        assert comes_in(self.at.port, BANNED) and comes_in(self.at.port, NEIGHBOUR)

    def a_client_that_is_banned_shows_it(self):
        reader = self.reader()
        set_list(reader, ban("127.0.0.1"))
        reader.close()
        ann = self.another()
        time.sleep(10 * MOMENT)
        text = ann.log()
        ann.picture(os.path.join(self.pictures, "banned.png"))
        line = re.search(r".*\bbanned\b.*", text)
        assert line, text
        return line.group()


def let_everybody_ban(at):
    """So that another client than SuperUser can read the list."""
    with open(at.path("murmur.json")) as file:
        document = json.load(file)
    document["channels"][0]["acls"].append({"group": "all", "grant": PERMISSIONS["Ban"]})
    with open(at.path("murmur.json"), "w") as file:
        json.dump(document, file)


def main():
    pictures = os.path.abspath(sys.argv[1] if len(sys.argv) > 1 else os.path.join(RELAY, "out/pictures"))
    os.makedirs(pictures, exist_ok=True)
    missing = [tool for tool in ("mumble", "Xvfb", "pulseaudio", "dbus-daemon", "import", "xdotool")
               if not shutil.which(tool)]
    if missing:
        print("FAILED  missing:", *missing)
        return 1
    children = Children()
    with tempfile.TemporaryDirectory() as folder:
        at = Installation(os.path.join(folder, "server")).set_password()
        let_everybody_ban(at)
        at.start()
        try:
            sound = Sound(folder, children)
            administrator = Administrator(at, folder, sound, children)
            bans = Bans(at, administrator, lambda: StockClient("ann", at, folder, sound, children), pictures)
            status = run_checks([bans.the_administrator_connects, bans.a_user_is_banned_by_the_menu,
                                 bans.the_list_shows_and_changes_it, bans.the_list_removes_it,
                                 bans.a_client_that_is_banned_shows_it])
        finally:
            children.end()
            at.stop()
    print(f"pictures: {pictures}")
    return status


if __name__ == "__main__":
    sys.exit(main())
