"""Connections that mean no good, by kinds, and a crowd of them in a process of its own."""

import random
import socket
import struct
import time

from .server import connect
from .talkers import CHANNEL, login

from reader.mumble import (ACL, AUTHENTICATE, CHANNEL_STATE, PERMISSION_QUERY, PING, SERVER_SYNC, TEXT_MESSAGE,
                           USER_STATE, VOICE, VOICE_TARGET)
from reader.wire import HEADER, field, frame, message, read_frames, read_varint, varint

GREATEST_PAYLOAD, COMMAND_LIMIT, TEXT_LIMIT = 8_388_607, 65_000, 20_000
# How many bytes wait at most for an enemy's line, and how often a second each has a turn.
WAITING_LIMIT, TURNS_A_SECOND = 1 << 18, 50
COMINGS_A_SECOND = 400


class Enemy:
    """A connection of a crowd. `label` is its kind, `crowd` how many there are, and `allowance` the kilobytes that each
    may make the server keep. `edits` and `hears` say whether its commands may be accepted beside logins and leaves, and
    whether it may be where the talkers are."""

    label, crowd, allowance = "", 200, 192
    edits, hears = False, False
    reads, receive_room = True, None

    def __init__(self, crowd, number):
        self.crowd, self.number, self.draws = crowd, number, crowd.draws
        self.stream = connect(crowd.port, self.receive_room)
        self.waiting, self.received, self.session, self.is_over = b"", b"", None, False
        self.name = f"enemy {crowd.connections} {crowd.salt}"
        self.begin()

    @classmethod
    def kind_of(cls, _number):
        """What kind the enemy of this number in the crowd is."""
        return cls

    def begin(self):
        """What it sends at once."""

    def act(self):
        """What it does at each turn."""

    def log_in(self):
        self.crowd.attempts += 1
        self.send(login(self.name))

    def send(self, data):
        if len(self.waiting) < WAITING_LIMIT:
            self.waiting += data

    def turn(self):
        if self.reads:
            self.read()
        if not self.is_over:
            self.act()
        if not self.is_over and self.waiting:
            self.write()

    def write(self):
        try:
            count = self.stream.send(self.waiting)
        except BlockingIOError:
            return
        except OSError:
            return self.lose()
        self.crowd.bytes_sent += count
        self.waiting = self.waiting[count:]

    def read(self):
        for _ in range(16):
            try:
                piece = self.stream.recv(1 << 16)
            except BlockingIOError:
                return
            except OSError:
                return self.lose()
            if not piece:
                return self.lose()
            self.crowd.bytes_received += len(piece)
            if self.session is None:
                self.look_for_session(piece)

    def look_for_session(self, piece):
        frames, self.received = read_frames(self.received + piece)
        for kind, payload in frames:
            if kind == SERVER_SYNC:
                self.session, self.received = read_varint(payload, 1)[0], b""
                self.crowd.logins += 1
                return

    def lose(self):
        """The server closed it."""
        self.crowd.closed += 1
        self.end()

    def end(self, is_reset=False):
        if is_reset:
            self.stream.setsockopt(socket.SOL_SOCKET, socket.SO_LINGER, struct.pack("ii", 1, 0))
        self.stream.close()
        self.is_over = True


class LoggedIn(Enemy):
    """One who logs in first, and then does its `deed` at each turn for as long as its line takes it."""

    edits = True

    def begin(self):
        self.log_in()

    def act(self):
        if self.session is not None and not self.waiting:
            self.deed()

    def deed(self):
        pass


class RandomBytes(Enemy):
    label = "random bytes"

    def act(self):
        if not self.waiting:
            self.send(self.draws.randbytes(self.draws.randrange(1, 2000)))


class RandomPayloads(LoggedIn):
    label, hears = "frames of random bytes, and of messages with bytes changed", True
    MESSAGES = [frame(USER_STATE, message((9, 1), (10, 0))), frame(PERMISSION_QUERY, message((1, 1))),
                frame(TEXT_MESSAGE, message((3, 1), (5, "text"))),
                frame(VOICE_TARGET, message((1, 3), (2, message((1, 1), (2, 0), (3, "group"))))),
                frame(ACL, message((1, 0), (2, 1), (4, message((1, 1), (2, 1), (5, "all"), (6, 7))))),
                frame(CHANNEL_STATE, message((1, 1), (3, "name"), (5, "description")))]

    def deed(self):
        if self.draws.random() < 0.5:
            kind = self.draws.choice([0, *range(2, 27), 65535])
            self.send(frame(kind, self.draws.randbytes(self.draws.randrange(300))))
        else:
            changed = bytearray(self.draws.choice(self.MESSAGES))
            for _ in range(self.draws.randrange(1, 4)):
                changed[self.draws.randrange(6, len(changed))] = self.draws.randrange(256)
            self.send(bytes(changed))


class CutFrames(Enemy):
    label = "logins cut at any byte, half of them by a reset"

    def begin(self):
        whole = login(self.name)
        self.send(whole[:self.draws.randrange(len(whole))])

    def act(self):
        if not self.waiting and self.draws.random() < 0.1:
            self.end(self.draws.random() < 0.5)


class ByteAtATime(Enemy):
    label = "frames of 8 MB, a byte at a time"

    def begin(self):
        self.send(HEADER.pack(TEXT_MESSAGE, GREATEST_PAYLOAD))

    def act(self):
        self.send(b"\x0a")


class AlmostWhole(Enemy):
    label, crowd, allowance = "frames of 8 MB without their last byte", 16, 9_000

    def begin(self):
        self.left = GREATEST_PAYLOAD - 1
        self.send(HEADER.pack(TEXT_MESSAGE, GREATEST_PAYLOAD))

    def act(self):
        for _ in range(4):
            if not self.waiting and self.left and not self.is_over:
                count = min(self.left, WAITING_LIMIT)
                self.left -= count
                self.send(bytes(count))
                self.write()


class LyingLengths(LoggedIn):
    label = "lengths that lie, of frames, blocks and varints"
    PAYLOADS = [b"\x0a\xff\x7f", b"\x2a\x05abc", b"\x0a\xff\xff\xff\xff\x0f", b"\x08" + b"\xff" * 9 + b"\x02",
                b"\x08" + b"\x80" * 11, b"\x02\x00", b"\x0b", b"\x0c", b"\x0e", b"\x0f", b"\x22\x04\x0a\x7f\x00\x00",
                b"\x12\x03\x08\xff\xff", b"\x5a\x05\xff\xff\xff\xff\xff", b"\x09\x00", b"\x0d\x00", b"\x1a\x02\xc3\x28"]

    def deed(self):
        kind = self.draws.choice([0, 2, 3, USER_STATE, CHANNEL_STATE, TEXT_MESSAGE, ACL, VOICE_TARGET, PERMISSION_QUERY,
                                  8, 6])
        payload = self.draws.choice(self.PAYLOADS)
        if self.draws.random() < 0.01:
            # what follows is taken for the rest of this frame, or for the header of the next
            self.send(HEADER.pack(kind, self.draws.choice([1, 200, GREATEST_PAYLOAD + 1])) + payload)
        else:
            self.send(frame(kind, payload))


class GreatCommands(LoggedIn):
    label, allowance, hears = "commands of 65,000 bytes, as fast as they are read", 2_600, True

    def deed(self):
        self.send(self.draws.choice(GREAT_COMMANDS))


GREAT_COMMANDS = [
    # texts that name one channel or tree again and again, a target, entries of a list, tokens, a listen again and again
    frame(TEXT_MESSAGE, field(3, 2) * 32_490 + field(5, "x")),
    frame(TEXT_MESSAGE, field(4, 2) * 32_490 + field(5, "x")),
    frame(VOICE_TARGET, message((1, 1)) + field(2, field(1, 1) * 60 + field(2, 2)) * 500),
    frame(ACL, message((1, 0)) + field(4, message((1, 1), (2, 1), (5, "all"), (6, 8))) * 4_000),
    frame(AUTHENTICATE, message((1, "another")) + field(3, "t" * 120) * 530),
    frame(USER_STATE, b"".join(varint(21 << 3) + varint(1) for _ in range(21_000))),
    frame(TEXT_MESSAGE, message((3, 2), (5, "x" * 64_900))),
]


class Comments(LoggedIn):
    """Each comment is sent to everybody."""
    label, crowd, allowance = "comments of 20,000 bytes to everybody", 10, 1_000

    def deed(self):
        self.send(frame(USER_STATE, message((14, self.draws.choice("abcdefgh") * TEXT_LIMIT))))


class Storm(Enemy):
    label = "logins and leaves, without a pause"

    def begin(self):
        self.log_in()
        self.lasts = self.draws.randrange(8)

    def act(self):
        self.lasts -= 1
        if self.lasts < 0:
            self.end(self.draws.random() < 0.3)


class Deaf(Enemy):
    """Each sixth never reads, in the channel of those who talk. The others fill its line with texts, and then toggle a
    mute until the box of its notices is full."""

    label, crowd, allowance = "20 who never read, and 100 who toggle a mute", 120, 256
    edits, hears = True, True
    TEXTS = 400

    def __init__(self, crowd, number):
        self.is_deaf, self.is_mute = number % 6 == 0, 0
        self.receive_room = 4096 if self.is_deaf else None
        super().__init__(crowd, number)

    def begin(self):
        self.log_in()

    def act(self):
        if self.session is None or self.waiting:
            return
        if self.is_deaf:
            self.be_deaf()
        elif self.crowd.texts < self.TEXTS and self.crowd.victims:
            self.crowd.texts += 1
            self.send(frame(TEXT_MESSAGE, b"".join(field(2, victim) for victim in sorted(self.crowd.victims)[-64:]) +
                            field(5, "x" * TEXT_LIMIT)))
        else:
            self.is_mute ^= 1
            self.send(frame(USER_STATE, message((9, self.is_mute))))

    def be_deaf(self):
        if self.reads:
            self.crowd.victims.add(self.session)
            self.send(frame(USER_STATE, message((1, self.session), (5, CHANNEL))))
        self.reads = False
        # whether the server closed it is seen when it writes
        if self.draws.random() < 0.02:
            self.send(frame(PING))


class Unanswered(LoggedIn):
    label, allowance, receive_room = "who ask, and never read what they are answered", 768, 4096
    QUESTIONS = [frame(PING, message((1, 1))) * 40, frame(PERMISSION_QUERY, message((1, 1))),
                 frame(USER_STATE, message((1, 1), (7, 1))), frame(CHANNEL_STATE, message((5, 0), (3, "name")))]

    def deed(self):
        self.reads = False
        self.send(self.draws.choice(self.QUESTIONS))


class HalfOpen(Enemy):
    label = "half-open: silent, ended after a login, ended at once"

    def begin(self):
        if self.number % 3 == 1:
            self.log_in()
        if self.number % 3 == 2:
            self.stream.shutdown(socket.SHUT_WR)

    def act(self):
        if self.number % 3 == 1 and not self.waiting and self.session is not None and self.draws.random() < 0.05:
            self.stream.shutdown(socket.SHUT_WR)
            self.session = None


class Beyond(Enemy):
    label, crowd, allowance = "1,200 silent connections, where 1,024 may be open", 1200, 24


class Speakers(LoggedIn):
    label, crowd, hears = "20 who join in, and speak as fast as they are read", 20, True

    def begin(self):
        super().begin()
        self.is_in = False

    def deed(self):
        if not self.is_in:
            self.is_in = True
            self.send(frame(USER_STATE, message((1, self.session), (5, CHANNEL))))
        self.crowd.may_speak = True
        self.send(frame(VOICE, b"\x80\x00\x05\x00\x00\x00\x00\x00") * 8)


class Directed(LoggedIn):
    """Texts for one who never reads wait in its box, whose length is counted in texts and not in bytes."""
    label, crowd, allowance = "8 who send texts of 20,000 bytes to 2 who never read", 10, 33_000

    def __init__(self, crowd, number):
        self.is_deaf = number < 2
        super().__init__(crowd, number)

    def deed(self):
        if self.is_deaf:
            self.crowd.victims.add(self.session)
            self.reads = False
        elif self.crowd.victims:
            self.send(frame(TEXT_MESSAGE, message((2, self.draws.choice(sorted(self.crowd.victims))),
                                                  (5, "x" * TEXT_LIMIT))))


class Mixture(Enemy):
    """Each is of one of the other kinds."""

    label, allowance, edits, hears = "all of these at once", 768, True, True
    KINDS = [RandomBytes, RandomPayloads, CutFrames, ByteAtATime, LyingLengths, GreatCommands, Storm, Deaf, Deaf,
             Unanswered, HalfOpen]

    @classmethod
    def kind_of(cls, number):
        return cls.KINDS[number % len(cls.KINDS)]


KINDS = [RandomBytes, RandomPayloads, CutFrames, ByteAtATime, AlmostWhole, LyingLengths, GreatCommands, Comments, Storm,
         Deaf, Unanswered, HalfOpen, Beyond, Speakers, Directed, Mixture]


class Crowd:
    """As many enemies of one kind as it has; where one is gone, another comes, while there are connections left."""

    def __init__(self, kind, port, connections, seed):
        self.kind, self.port, self.left = kind, port, connections
        self.draws, self.salt = random.Random(seed), seed
        self.connections = self.attempts = self.logins = self.closed = 0
        self.bytes_sent = self.bytes_received = 0
        self.may_speak, self.victims, self.texts = False, set(), 0
        self.enemies, self.comings = [], 0.0

    def come(self, number):
        if self.left <= 0 or self.comings < 1:
            return None
        self.left -= 1
        self.comings -= 1
        self.connections += 1
        try:
            return self.kind.kind_of(number)(self, number)
        except OSError:
            return None

    def turn(self):
        self.comings = min(self.comings + COMINGS_A_SECOND / TURNS_A_SECOND, COMINGS_A_SECOND)
        for number in range(self.kind.crowd):
            if number == len(self.enemies):
                self.enemies.append(None)
            if self.enemies[number] is None or self.enemies[number].is_over:
                self.enemies[number] = self.come(number)
            elif not self.enemies[number].is_over:
                self.enemies[number].turn()

    def run(self, seconds):
        began, turns = time.monotonic(), 0
        while (now := time.monotonic()) < began + seconds:
            self.turn()
            turns += 1
            time.sleep(max(began + turns / TURNS_A_SECOND - time.monotonic(), 0.0))
        for enemy in self.enemies:
            if enemy is not None and not enemy.is_over:
                enemy.end(self.draws.random() < 0.5)
        return {name: getattr(self, name) for name in ("connections", "attempts", "logins", "closed", "bytes_sent",
                                                       "bytes_received", "may_speak")}
