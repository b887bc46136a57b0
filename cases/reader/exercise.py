"""Exercises, drawn a second time by docs/FORMATS.md, and replayed: the program must count the same."""
from collections import Counter

from . import mumble, program, wire
from .table import NoCase
from .words import number

USERS, WORKERS, CHANNELS = 16, 4, 7
BLOCK = 2 + 1 + CHANNELS + 1
WORD = (1 << 64) - 1


class Draws:
    """PCG XSH RR 64/32 (O'Neill) on stream 0 of a seed."""

    MULTIPLIER, INCREMENT = 6364136223846793005, 1

    def __init__(self, seed):
        self.state = seed + self.INCREMENT & WORD
        self.step()

    def step(self):
        """Moves the state on."""
        self.state = self.state * self.MULTIPLIER + self.INCREMENT & WORD

    def below(self, most):
        """The next word, modulo a number."""
        state = self.state
        self.step()
        shifted, turn = (state >> 18 ^ state) >> 27 & 0xFFFFFFFF, state >> 59
        return ((shifted >> turn | shifted << (-turn & 31)) & 0xFFFFFFFF) % most

    def round(self):
        """A round: who does what, with which number."""
        case, who = self.below(16), 1 + self.below(USERS)
        if case < 10:
            return who, "talks to", self.below(2)
        if case == 13:
            return who, "mutes itself" if self.below(2) else "unmutes itself", None
        verbs = {10: "enters", 11: "enters", 12: "links", 14: "listens to", 15: "aims at"}
        return who, verbs[case], self.below(8)


def parent(channel):
    """The channel above one."""
    return (channel - 1) // 2


def is_below(channel, top):
    """Whether a channel is another, or below it."""
    while channel not in (0, top):
        channel = parent(channel)
    return channel == top


def document():
    """The configuration of an exercise: channels c1 to c7."""
    channels = [f'{{"id":{one},"parent":{parent(one)},"name":"c{one}"}}' for one in range(1, CHANNELS + 1)]
    return f'{{"channels":[{",".join(channels)}]}}'


class Exercise:
    """The steps of an exercise, and who is where, is mute, listens and aims."""

    def __init__(self):
        self.steps = []
        self.revision = 0
        self.here = 0
        self.place = [0] * (USERS + 1)
        self.muted = [False] * (USERS + 1)
        self.listens = [set() for _ in range(USERS + 1)]
        self.aim = [None] * (USERS + 1)

    def command(self, who, kind, message, told):
        """A user asks for something, and these are told of it; nobody may be, and None is a denial."""
        self.steps += [f"frame {who} {mumble.frame_of(kind, message)}", f"edit {who}", "publish"]
        self.revision += told is not None
        self.steps.append(f"tell {who} {'-' if told is None else self.revision}")
        for reader in told or []:
            self.steps += ["post", f"collect {reader}"]

    def everybody(self):
        """All users, in the order of their slots."""
        return list(range(1, self.here + 1))

    def come(self, who):
        """A user logs in: it is told of all that there is, and the others of it."""
        self.steps.append(f"open {who} {(who - 1) % WORKERS}")
        told = [who] * (BLOCK + who) + self.everybody()
        self.here += 1
        self.command(who, mumble.AUTHENTICATE, {"username": f"u{who}"}, told)

    def changed(self, is_changed):
        """Who is told of a change: everybody, or nobody where there is none."""
        return self.everybody() if is_changed else []

    def enter(self, who, channel):
        """A user enters a channel."""
        told = self.changed(self.place[who] != channel)
        self.place[who] = channel
        self.command(who, mumble.USER_STATE, {"channel_id": channel}, told)

    def mute(self, who, muted):
        """A user mutes itself, or no longer."""
        told = self.changed(self.muted[who] != muted)
        self.muted[who] = muted
        self.command(who, mumble.USER_STATE, {"self_mute": muted}, told)

    def listen(self, who, channel):
        """A user listens to a channel."""
        told = self.changed(channel not in self.listens[who])
        self.listens[who].add(channel)
        self.command(who, mumble.USER_STATE, {"listening_channel_add": [channel]}, told)

    def link(self, who, channel):
        """A user may link no channel with the root; the root with itself is nothing."""
        message = {"channel_id": channel, "links_add": [0]}
        self.command(who, mumble.CHANNEL_STATE, message, None if channel else [])

    def set_aim(self, who, channel):
        """A user sets its first voice target to a channel and all below it."""
        self.aim[who] = channel
        targets = [{"channel_id": channel, "children": True}]
        self.command(who, mumble.VOICE_TARGET, {"id": 1, "targets": targets}, [])

    def audience(self, who, target):
        """Who hears a packet of a user, in the order of slots."""
        aim = self.aim[who]
        if self.muted[who] or target and aim is None:
            return []
        covered = [one for one in range(CHANNELS + 1)
                   if (is_below(one, aim) if target else one == self.place[who])]
        return [one for one in self.everybody()
                if one != who and (self.place[one] in covered or self.listens[one] & set(covered))]

    def talk(self, who, target, place):
        """A user speaks in a round, and each of its audience drains a copy."""
        packet = bytes([0x80 | target]) + mumble.put_voice_number(place) + bytes.fromhex("03aabbcc")
        worker, hear = (who - 1) % WORKERS, self.audience(who, target)
        self.steps += [f"frame {who} {wire.frame(mumble.VOICE, packet).hex()}", f"look {worker} {self.revision}"]
        self.steps += [f"offer {worker}"] * len(hear) + [f"drain {one}" for one in hear]

    def round(self, place, who, verb, what):
        """A round of an exercise."""
        acts = {"enters": self.enter, "links": self.link, "listens to": self.listen, "aims at": self.set_aim}
        if verb == "talks to":
            self.talk(who, what, place)
        elif verb in acts:
            acts[verb](who, what)
        else:
            self.mute(who, verb == "mutes itself")


def steps_of(seed, rounds):
    """The steps of an exercise."""
    exercise, draws = Exercise(), Draws(seed)
    for who in range(1, USERS + 1):
        exercise.come(who)
    for place in range(1, rounds + 1):
        exercise.round(place, *draws.round())
    return exercise.steps + ["end"]


VERDICTS = ("accepted", "lacks", "refused", "ignored")


def counted(seed, rounds):
    """The line of an exercise, counted over the transcript of its steps."""
    steps = steps_of(seed, rounds)
    ran = program.run(["replay"], program.recording_of(document(), steps, WORKERS, end=False))
    if ran.status != 0:
        raise NoCase(f"the steps are not allowed: {program.why_of(ran, steps)}")
    words = Counter(line.split(" ")[0] for line in ran.lines)
    verdicts = " ".join(f"{word} {words[word]}" for word in VERDICTS)
    return f"exercise seed {seed} steps {rounds} {verdicts} {ran.lines[-1].removeprefix('totals ')}"


def drawn(seed, first, last):
    """The rounds of an exercise, in words."""
    draws = Draws(seed)
    rounds = [draws.round() for _ in range(last)][first - 1:]
    return "; ".join(" ".join(str(word) for word in one if word is not None) for one in rounds)


def answer(question):
    """The answer of the table `exercises`: `SEED draws FIRST-LAST`, `SEED has STEPS FIRST-LAST of ROUNDS`, or
    `SEED counts ROUNDS`, of which the program must say the same."""
    seed, verb, *words = question.split(" ")
    seed = number(seed)
    if verb == "draws":
        first, _, last = words[0].partition("-")
        return drawn(seed, number(first), number(last))
    if verb == "has":
        first, _, last = words[0].partition("-")
        steps = steps_of(seed, number(words[2]))
        return "; ".join(steps[number(first) - 1:number(last)] + [f"of {len(steps)}"])
    said = program.run(["exercise", str(seed), words[0]]).lines[0]
    line = counted(seed, number(words[0]))
    if said != line:
        raise NoCase(f"the program says {said}, its transcript {line}")
    return said
