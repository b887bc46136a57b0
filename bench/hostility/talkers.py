"""Well-behaved users in one channel, who talk at an even pace. Every copy that one of them is due is counted."""

import os
import selectors
import sys
import time

from .server import TOP, connect

sys.path.insert(0, os.path.join(TOP, "cases"))
from reader.mumble import (AUTHENTICATE, PERMISSION_DENIED, PING, REJECT, SERVER_SYNC, USER_STATE,  # noqa: E402
                           VERSION, VOICE)
from reader.wire import frame, message, read_frames, read_varint  # noqa: E402

TALKERS = 20
PACKETS_A_SECOND = 25
CHANNEL = 1
PING_EVERY = 5
AUDIO = bytes(range(56))


def login(name):
    return frame(VERSION, message((1, 0x10400), (2, "hostile"))) + frame(AUTHENTICATE, message((1, name), (5, 1)))


class Guest:
    """A connection that takes the frames that come."""

    def __init__(self, port, selector, name, preamble=b""):
        self.stream, self.selector = connect(port), selector
        selector.register(self.stream, selectors.EVENT_READ, self)
        self.name, self.session, self.kept = name, None, b""
        self.began, self.synced, self.is_open = time.monotonic(), None, True
        self.faults = []
        self.send(preamble + login(name))

    def send(self, data):
        try:
            if self.is_open and self.stream.send(data) != len(data):
                self.lose("its line is full")
        except OSError as fault:
            self.lose(f"it could not send: {fault}")

    def lose(self, fault):
        self.faults.append(f"{self.name}: {fault}")
        self.leave()

    def leave(self):
        if self.is_open:
            self.selector.unregister(self.stream)
            self.stream.close()
        self.is_open = False

    def read(self):
        try:
            piece = self.stream.recv(1 << 20)
        except BlockingIOError:
            return
        except OSError as fault:
            return self.lose(f"it could not read: {fault}")
        if not piece:
            return self.lose("its connection was closed")
        self.take_frames(self.kept + piece, time.monotonic())

    def take_frames(self, data, now):
        frames, self.kept = read_frames(data)
        for kind, payload in frames:
            if kind == VOICE:
                self.hear(payload, now)
            elif kind in (USER_STATE, SERVER_SYNC, REJECT, PERMISSION_DENIED):
                self.take(kind, payload, now)

    def take(self, kind, payload, now):
        if kind == SERVER_SYNC:
            self.session, self.synced = read_varint(payload, 1)[0], now
        elif kind in (REJECT, PERMISSION_DENIED):
            self.faults.append(f"{self.name}: it was denied something")

    def hear(self, copy, now):
        pass


class Talker(Guest):
    """One who stays in the channel, and hears each packet of the others there."""

    def __init__(self, port, selector, name, delays, preamble=b""):
        super().__init__(port, selector, name, preamble)
        self.is_there, self.sent, self.arrived, self.delays = False, [], 0, delays
        self.heard, self.others = {}, {}

    def take(self, kind, payload, now):
        super().take(kind, payload, now)
        if kind == USER_STATE and self.session is not None and not self.is_there:
            place = message((5, CHANNEL))
            self.is_there = payload[:1] == b"\x08" and read_varint(payload, 1)[0] == self.session and place in payload

    def enter(self):
        self.send(frame(USER_STATE, message((1, self.session), (5, CHANNEL))))

    def speak(self):
        number = len(self.sent)
        self.sent.append(time.monotonic())
        self.send(frame(VOICE, b"\x80" + said(number)))

    def hear(self, copy, now):
        session, at = (copy[1], 2) if copy[1] < 128 else ((copy[1] & 63) << 8 | copy[2], 3)
        speaker = self.others.get(session)
        if speaker is None:
            return
        number = int.from_bytes(copy[-4:], "big")
        if copy[at:] != said(number) or number <= self.heard.get(session, -1) or number >= len(speaker.sent):
            self.faults.append(f"{self.name}: a copy of {speaker.name} that is not the next, or not what was said")
            return
        self.heard[session] = number
        self.arrived += 1
        self.delays.append(now - speaker.sent[number])


def said(number):
    """The packet of this number, behind its first byte."""
    return bytes([number & 127, len(AUDIO) + 4]) + AUDIO + number.to_bytes(4, "big")


class Circle:
    """The talkers, and visitors who log in one after another, are sent all that there is, and leave. With a preamble each
    sends it first, as the header of a relay."""

    def __init__(self, port, preamble=b""):
        self.port, self.preamble, self.selector = port, preamble, selectors.DefaultSelector()
        self.talkers, self.delays, self.faults = [], [], []
        self.visitor, self.visits, self.visitors_answered, self.visitors_unanswered = None, [], 0, 0
        self.due = self.packets = self.turn = 0
        self.next_ping = time.monotonic() + PING_EVERY

    def gather(self, count=TALKERS, patience=20):
        """So many more log in, enter the channel, and know each other."""
        comers = [Talker(self.port, self.selector, f"talker {len(self.talkers) + place}", self.delays, self.preamble)
                  for place in range(count)]
        if not self.read_while(lambda: any(comer.session is None for comer in comers), patience):
            return False
        for comer in comers:
            comer.enter()
        if not self.read_while(lambda: any(not comer.is_there for comer in comers), patience):
            return False
        self.talkers += comers
        for talker in self.talkers:
            talker.others = {other.session: other for other in self.talkers if other is not talker}
        return True

    def read_while(self, is_wanted, patience):
        """Reads as long as something is missing. Whether it came in time."""
        end = time.monotonic() + patience
        while is_wanted():
            if time.monotonic() > end:
                return False
            self.read_until(time.monotonic() + 0.02)
        return True

    def read_until(self, end):
        while True:
            for key, _ in self.selector.select(max(end - time.monotonic(), 0)):
                key.data.read()
            if time.monotonic() >= end:
                return

    def talk(self, seconds, visit_every=None, each_second=None):
        """All talk by turns for so long. With `visit_every` somebody logs in after so many seconds, again and again."""
        began = now = time.monotonic()
        packets, next_visit, next_look = 0, began + 0.5, began
        while now < began + seconds:
            self.speak_next()
            packets += 1
            if visit_every and now >= next_visit:
                next_visit = now + visit_every
                self.receive()
            if each_second and now >= next_look:
                next_look = now + 0.25
                each_second()
            self.ping(now)
            self.read_until(began + packets / (PACKETS_A_SECOND * len(self.talkers)))
            now = time.monotonic()
        self.read_until(now + 0.3)

    def speak_next(self):
        talker = self.talkers[self.turn % len(self.talkers)]
        self.turn += 1
        if talker.is_open:
            talker.speak()
            self.packets += 1
            self.due += len(self.talkers) - 1

    def ping(self, now):
        if now >= self.next_ping:
            self.next_ping = now + PING_EVERY
            for talker in self.talkers:
                talker.send(frame(PING, message((1, 1))))

    def receive(self):
        """The visitor who was answered leaves, and the next one comes."""
        if self.visitor is not None and self.visitor.is_open and self.visitor.synced is None:
            return
        self.see_off()
        name = f"visitor {len(self.visits)} {time.monotonic_ns()}"
        self.visitor = Guest(self.port, self.selector, name, self.preamble)

    def see_off(self):
        visitor, self.visitor = self.visitor, None
        if visitor is None:
            return
        if visitor.synced is None:
            self.visitors_unanswered += 1
        else:
            self.visitors_answered += 1
            self.visits.append(visitor.synced - visitor.began)
        self.faults += visitor.faults
        visitor.leave()

    @property
    def arrived(self):
        return sum(talker.arrived for talker in self.talkers)

    def settle(self, patience=15):
        """Reads until every copy is there, or nothing more comes."""
        last, since = self.arrived, time.monotonic()
        end = since + patience
        while self.arrived < self.due and time.monotonic() < min(end, since + 3):
            self.read_until(time.monotonic() + 0.1)
            if self.arrived != last:
                last, since = self.arrived, time.monotonic()

    def part(self):
        self.see_off()
        for talker in self.talkers:
            self.faults += talker.faults
            talker.leave()


def share(numbers, part):
    """The number below which this part of the others lies."""
    ordered = sorted(numbers)
    return ordered[min(int(part * len(ordered)), len(ordered) - 1)] if ordered else 0.0
