"""Whether `murmur-why` says of each packet that exactly those hear it of whom a transcript or a journal says it, and of
a different configuration exactly what two transcripts show."""
import json
import os
import random
import tempfile
from concurrent.futures import ThreadPoolExecutor
from pathlib import Path

from . import compare, exercise, mumble, program, why, wire
from .transcript import told_by_step

EXERCISES, ROUNDS = 200, 60
EXAMPLES = program.TOP / "examples"


class Wrong(Exception):
    """An answer that is not the one of the transcript or the journal."""


def pairs_of(words):
    """The sessions of the words `SESSION/CONTEXT`, with their contexts."""
    return {int(word.split("/")[0]): int(word.split("/")[1]) for word in words}


# ---- recordings as journals

def steps_of(text):
    """The number of the first step of a recording, and its steps."""
    lines = text.splitlines()
    first = 4 if lines[0] == "recording 1" else 5
    return first, lines[first - 1:]


class Journal:
    """The entries of a journal, as the steps of a recording come."""

    def __init__(self, head):
        self.head = [head[0].replace("recording", "journal"), *head[1:]]
        self.controls = []
        self.entries = [[] for _ in range(int(head[1].split(" ")[1]))]
        self.worker, self.version, self.waiting, self.left = {}, {}, {}, set()
        self.held, self.session = {}, {}

    def take(self, step, told):
        """A step, and what the first line says of it."""
        act = getattr(self, "on_" + step[0], None)
        if act:
            act(step[1:], told)

    def on_open(self, step, _):
        """A connection is opened at a worker."""
        self.worker[step[0]], self.version[step[0]], self.waiting[step[0]] = int(step[1]), "-", []

    def on_frame(self, step, told):
        """A frame that asks, speaks, or names a version."""
        connection, digits = step
        if told[0] == "asked":
            self.waiting[connection].append(digits)
        elif told[0] == "heard":
            self.held[self.worker[connection]] = (connection, digits[12:])
        elif told[0] == "kept":
            named = mumble.decode(mumble.VERSION, mumble.split_frame(digits)[1]).get("version")
            self.version[connection] = self.version[connection] if named is None else str(named)

    def leave(self, connection):
        """The leave of a connection waits, once."""
        if connection not in self.left:
            self.left.add(connection)
            self.waiting[connection].append("leave")

    def on_edit(self, step, told):
        """What a connection asked for is decided."""
        connection, command = step[0], self.waiting[step[0]].pop(0)
        is_login = login_of(command) is not None
        if is_login and told[0] == "accepted" and connection not in self.session.values():
            self.session[str(len(self.session) + 1)] = connection
        version = self.version[connection] if is_login else "-"
        self.controls.append(" ".join(["c", connection, version, command, told[0], *told[2:]]))

    def on_post(self, _, told):
        """A session whose box is full leaves."""
        if told[0] == "lagged":
            self.leave(self.session[told[1]])

    def on_look(self, _, told):
        """Who hears the packet of a worker; all copies are sent."""
        worker = int(told[1])
        connection, packet = self.held.pop(worker)
        copies = "".join(f" {word}/s" for word in told[4:])
        self.entries[worker].append(f"v {connection} {told[2]} {packet} {told[3]}{copies}")

    def on_close(self, step, _):
        """A connection ends."""
        self.leave(step[0])
        self.entries[self.worker[step[0]]].append(f"x {step[0]} {step[1]}")

    def text(self):
        """The journal."""
        workers = [line for at, entries in enumerate(self.entries) for line in (f"worker {at}", *entries)]
        return "\n".join([*self.head, *self.controls, *workers, "end", ""])


def journal_of(text, transcript):
    """The journal of a recording: its commands as they were sent, and the packets and ends of its workers."""
    first, steps = steps_of(text)
    journal = Journal(text.splitlines()[:first - 1])
    for step, lines in zip(steps, told_by_step(steps, transcript)):
        journal.take(step.split(" "), lines[0].split(" "))
    return journal.text()


# ---- what is wanted

def login_of(command):
    """The name of a login, or None where a command is none."""
    if command == "leave":
        return None
    kind, payload = mumble.split_frame(command)
    return mumble.decode(kind, payload).get("username", "") if kind == mumble.AUTHENTICATE else None


def names_in(journal):
    """The names of the sessions of a journal."""
    names, here = {}, set()
    for line in journal.splitlines():
        words = line.split(" ")
        if words[0] == "c" and words[4] == "accepted" and words[1] not in here and login_of(words[3]) is not None:
            here.add(words[1])
            names[len(names) + 1] = login_of(words[3])
    return names


def pairs_of(words):
    """The sessions of the words `SESSION/CONTEXT`, with their contexts."""
    return {int(word.split("/")[0]): int(word.split("/")[1]) for word in words}


def looks_of(text, transcript):
    """The audience of each `look` of a recording, by its line."""
    first, steps = steps_of(text)
    told = told_by_step(steps, transcript)
    return {first + at: pairs_of(lines[0].split(" ")[4:])
            for at, (step, lines) in enumerate(zip(steps, told)) if step.startswith("look ")}


def voices_of(journal):
    """The audience of each packet of a journal, by its line."""
    return {at: pairs_of(word.rpartition("/")[0] for word in line.split(" ")[5:])
            for at, line in enumerate(journal.splitlines(), 1) if line.startswith("v ")}


# ---- the comparison

def compare_heard(text, names, wanted):
    """How many packets and sessions are said of as they are wanted, over all packets of a text."""
    ran = why.ask(["heard", "-"], text)
    if ran.status != 0 or ran.errors:
        raise Wrong(f"`heard -` ends with {ran.status}: {ran.errors}")
    packets = why.packets_of(ran.lines)
    if [packet.line for packet in packets] != sorted(wanted):
        raise Wrong(f"`heard -` names the lines {[packet.line for packet in packets]}, not {sorted(wanted)}")
    for packet in packets:
        hearers = packet.hearers(names)
        if hearers != wanted[packet.line]:
            raise Wrong(f"line {packet.line} is heard by {hearers}, not by {wanted[packet.line]}")
    return sum(len(packet.said) for packet in packets)


def compare_recording(text, transcript):
    """The same of a recording, and of the journal that is made of it."""
    journal = journal_of(text, transcript)
    names = names_in(journal)
    return compare_heard(text, names, looks_of(text, transcript)) + compare_journal(journal)


def compare_journal(journal):
    """The same of a journal."""
    return compare_heard(journal, names_in(journal), voices_of(journal))


# ---- the recordings and journals

class Kept:
    """The recordings and the journals that the tables of cases run to their end."""

    def __init__(self):
        self.recordings, self.journals = {}, set()
        self.run = program.run

    def __call__(self, words, text=""):
        """Runs the program, and keeps what it ran."""
        ran = self.run(words, text)
        kept = text if isinstance(text, str) else text.decode("utf-8", "replace")
        if ran.status == 0 and words == ["replay"] and "\nlook " in kept:
            self.recordings[kept] = ran.lines
        if ran.status == 0 and words == ["audit"]:
            self.journals.add(kept)
        return ran


def kept_of_tables():
    """What the tables run; what they say of it is compared elsewhere."""
    kept = Kept()
    program.run = kept
    try:
        with ThreadPoolExecutor(os.cpu_count()) as pool:
            for path in compare.tables_of([]):
                list(pool.map(lambda line, path=path: compare.given_by(path, *line), list(compare.lines_of(path))))
    finally:
        program.run = kept.run
    return kept


def examples():
    """The recordings of the folder `examples` with their transcripts, and its journals."""
    recordings, journals = {}, []
    for path in sorted(EXAMPLES.glob("*.stdout")):
        text = path.with_suffix("").read_text("utf-8")
        if text.startswith("recording "):
            recordings[text] = path.read_text("utf-8").splitlines()
        elif text.startswith("journal "):
            journals.append(text)
    return recordings, journals


def exercises(count):
    """Generated exercises, with their transcripts."""
    for seed in range(count):
        steps = exercise.steps_of(seed, ROUNDS)
        text = program.recording_of(exercise.document(), steps, exercise.WORKERS, end=False)
        ran = program.run(["replay"], text)
        if ran.status != 0:
            raise Wrong(f"exercise {seed} ends with {ran.status}: {ran.errors}")
        yield text, ran.lines


# ---- a different configuration

PLACES = ["Hall", "Stage", "Cellar"]
TRIES = 40


def document_of(draw):
    """A configuration of three channels whose lists have random entries, as a list of entries for each channel."""
    return [[entry_of(draw) for _ in range(draw.randrange(4))] for _ in range(len(PLACES) + 1)]


def entry_of(draw):
    """An entry that denies or grants something."""
    bits = draw.choice([4, 8, 256, 512, 2048, 8 + 256, 4 + 2048, 1 << 6])
    group = draw.choice(["all", "in", "out", "#key", "!#key"])
    return {"group": group, "here": draw.random() < 0.8, "subs": draw.random() < 0.8,
            draw.choice(["grant", "deny", "deny"]): bits}


def text_of(lists):
    """The text of such a configuration."""
    channels = [{"id": 0, "acls": lists[0]}]
    channels += [{"id": at, "parent": (at - 1) // 2, "name": name, "acls": lists[at]}
                 for at, name in enumerate(PLACES, 1)]
    return json.dumps({"channels": channels})


def act_of(draw, users):
    """What one of the users does: a command, or a packet to a target."""
    who, channel = draw.randrange(1, users + 1), draw.randrange(len(PLACES) + 1)
    kind, fields = draw.choice([
        (mumble.VOICE, 0), (mumble.VOICE, 0), (mumble.VOICE, 1),
        (mumble.USER_STATE, {"channel_id": channel}), (mumble.USER_STATE, {"channel_id": channel}),
        (mumble.USER_STATE, {"listening_channel_add": [channel]}),
        (mumble.USER_STATE, {"self_mute": draw.random() < 0.5}),
        (mumble.VOICE_TARGET, {"id": 1, "targets": [{"channel_id": channel, "children": True, "links": True}]}),
        (mumble.CHANNEL_STATE, {"channel_id": channel, "links_add": [draw.randrange(len(PLACES) + 1)]}),
        (mumble.CHANNEL_STATE, {"parent": channel, "name": f"new {draw.randrange(99)}"}),
        (mumble.TEXT_MESSAGE, {"channel_id": [channel], "message": "hello"}),
    ])
    return who, kind, fields


class Played:
    """Acts under a configuration: the recording, and of each act its line and what came of it."""

    def __init__(self, document):
        self.document, self.steps, self.came = document, [], []

    def last(self):
        """What the last step says."""
        told = program.tell(self.document, self.steps, workers=2)
        if len(told.steps) != len(self.steps):
            raise Wrong(f"the steps of a test are not allowed: {told.why}")
        return told.steps[-1][0].split(" ")

    def note(self):
        """What came of an act, by the last step and its line."""
        words = self.last()
        if words[0] == "route":
            self.came.append((len(self.steps) + 3, "audience " + " ".join(words[3:])))
        else:
            self.came.append((len(self.steps) + 3, " ".join([words[0], *words[2:]])))
        return words

    def come(self, who):
        """A user logs in, some with a token."""
        fields = {"username": f"u{who}"} | ({"tokens": ["key"]} if who % 2 else {})
        self.steps.append(f"open {who} {who % 2}")
        self.command(who, mumble.AUTHENTICATE, fields)

    def command(self, who, kind, fields):
        """A command is decided, and published."""
        self.steps += [f"frame {who} {mumble.frame_of(kind, fields)}", f"edit {who}"]
        self.note()
        self.steps += ["publish", f"tell {who} -"]

    def talk(self, who, target):
        """A packet is looked for at what is published, and each copy is offered."""
        published = sum(what.startswith("accepted") for _, what in self.came)
        packet = bytes([0x80 | target, 1]) + bytes.fromhex("03aabbcc")
        self.steps += [f"frame {who} {wire.frame(mumble.VOICE, packet).hex()}", f"look {who % 2} {published}"]
        self.steps += [f"offer {who % 2}"] * int(self.note()[3])

    def play(self, users, acts):
        """Users come, and do this."""
        for who in range(1, users + 1):
            self.come(who)
        for who, kind, fields in acts:
            if kind == mumble.VOICE:
                self.talk(who, fields)
            else:
                self.command(who, kind, fields)
        return self

    def text(self):
        """The recording."""
        return program.recording_of(self.document, self.steps, workers=2)


def makes(kind, fields):
    """Whether an accepted command gives a number."""
    if kind != mumble.CHANNEL_STATE:
        return kind == mumble.AUTHENTICATE
    return "parent" in fields and "channel_id" not in fields


def differences(here, there, acts):
    """The lines in which two plays differ, up to the first in which a number is given in one alone."""
    lines, sessions, channels = [], 0, len(PLACES)
    for (line, was), (_, now), (kind, fields) in zip(here.came, there.came, acts):
        is_accepted = [what.startswith("accepted") for what in (was, now)]
        sessions += makes(kind, fields) and kind == mumble.AUTHENTICATE and any(is_accepted)
        channels += makes(kind, fields) and kind != mumble.AUTHENTICATE and any(is_accepted)
        if was == now or all(is_accepted):
            continue
        if makes(kind, fields) and any(is_accepted):
            number = f"session {sessions}" if kind == mumble.AUTHENTICATE else f"channel {channels}"
            return [*lines, f"line {line} {was} other {now} ends {number}"]
        lines.append(f"line {line} {was} other {now.removeprefix('audience ')}")
    return lines


def compare_other(seed):
    """How many lines of a recording under two configurations, of which one has one entry more, are said to differ."""
    draw = random.Random(seed)
    lists, users = document_of(draw), 4
    changed = [list(one) for one in lists]
    changed[draw.randrange(len(changed))].insert(0, entry_of(draw))
    acts = [act_of(draw, users) for _ in range(TRIES)]
    here, there = (Played(text_of(one)).play(users, acts) for one in (lists, changed))
    kinds = [(mumble.AUTHENTICATE, {})] * users + [(kind, fields) for _, kind, fields in acts]
    wanted = differences(here, there, kinds)
    with tempfile.NamedTemporaryFile("w", suffix=".json") as file:
        for document, lines in ((text_of(lists), []), (text_of(changed), wanted)):
            Path(file.name).write_text(document, encoding="utf-8")
            ran = why.ask(["other", file.name], here.text())
            if ran.status != 0 or sorted(ran.lines) != sorted(lines):
                raise Wrong(f"`other` of seed {seed} ends with {ran.status} and {ran.lines}{ran.errors}, not {lines}")
    return len(wanted)


# ---- how runs end

JOURNAL = ["journal 1", "workers 1", "config -", "c 1 - 0002000000050a03616e6e accepted 1",
           "c 2 - 0002000000050a03626f62 accepted 2", "worker 0", "v 1 2 800103aabbcc 1 2/0/s", "x 1 end", "x 2 end", "end"]
RECORDING = ["recording 1", "workers 1", "config -", "open 1 0", "end"]
USAGE = ("usage: murmur-why heard LINE|- [SESSION] | who SESSION TARGET [REVISION] | may SESSION CHANNEL [REVISION]"
         " | other FILE")
# the words, the changed lines of the journal or the recording, the last line that is written, and the status
ENDS = [
    ("", JOURNAL, {}, USAGE, 1), ("heard", JOURNAL, {}, USAGE, 1), ("heard 7 2 3", JOURNAL, {}, USAGE, 1),
    ("heard 07", JOURNAL, {}, USAGE, 1), ("heard x", JOURNAL, {}, USAGE, 1), ("who 1", JOURNAL, {}, USAGE, 1),
    ("who 1 32", JOURNAL, {}, USAGE, 1), ("who 1 0 1 1", JOURNAL, {}, USAGE, 1), ("may 1", JOURNAL, {}, USAGE, 1),
    ("may 1 4294967296", JOURNAL, {}, USAGE, 1), ("other", JOURNAL, {}, USAGE, 1), ("replay", JOURNAL, {}, USAGE, 1),
    ("heard 6", JOURNAL, {}, "murmur-why: 1 NoPacket line 6", 1),
    ("heard 7", JOURNAL, {}, "2 bob talk", 0), ("heard 7 2", JOURNAL, {}, "2 bob talk", 0),
    ("heard - 3", JOURNAL, {}, "3 is not there", 0),
    ("who 2 0", JOURNAL, {}, "2 bob is the speaker", 0),
    ("who 2 0 1", JOURNAL, {}, "1 ann the speaker is not there", 0),
    ("who 1 31", JOURNAL, {}, "2 bob the speaker speaks to itself", 0),
    ("who 1 7", JOURNAL, {}, "2 bob the voice target is not set", 0),
    ("who 1 0 3", JOURNAL, {}, "murmur-why: 1 NoRevision 3 of 2", 1),
    ("may 1 0", JOURNAL, {}, "1048576 ResetUserContent given by no entry", 0),
    ("may 1 9", JOURNAL, {}, "one of the two is not there", 0),
    ("heard 7", JOURNAL, {9: "x 2"}, "murmur-why: 2 NotALine line 9", 2),
    ("heard 7", JOURNAL, {7: "v 1 2 800103aabbcc 0"}, "murmur-why: 5 NotLegal line 7 given 0 defined 1 2/0", 5),
    ("heard 7", JOURNAL, {3: "config 7b"}, "murmur-why: 6 BadConfig 60 document", 6),
    ("other /nowhere", JOURNAL, {}, "murmur-why: 3 ReadFault", 3),
    ("who 1 0", RECORDING, {}, "revision 0 speaker 1 target 0", 0),
    ("who 1 0", RECORDING, {5: "open 2 0"}, "murmur-why: 2 NotALine line 6", 2),
    ("who 1 0", RECORDING, {4: "open 2 0"}, "murmur-why: 5 NotLegal line 4 given 2 against 1", 5),
    ("who 1 0", RECORDING, {3: "config 7b"}, "murmur-why: 6 BadConfig 60 document", 6),
    ("who 1 0", RECORDING, {2: "workers 9"}, "murmur-why: 2 NotALine line 2", 2),
]


def compare_end(words, lines, changes, last, status):
    """One run that ends with a status and a last line."""
    text = "".join(changes.get(at, line) + "\n" for at, line in enumerate(lines, 1))
    ran = why.ask(words.split(), text)
    if (ran.status, (ran.lines + ran.errors)[-1:]) != (status, [last]):
        raise Wrong(f"`{words}` ends with {ran.status} and {ran.lines + ran.errors}, not {status} and {last}")
    return 1


# ---- the run

def tried(compare_one, one):
    """How many lines of an input are as wanted, or what is wrong with it."""
    try:
        return compare_one(*one)
    except (Wrong, program.Stopped, LookupError, ValueError) as error:
        return f"{type(error).__name__} {error}"


def each(name, compare_one, ones):
    """Compares each, prints how much was compared, and gives how many were right and how many were not."""
    with ThreadPoolExecutor(os.cpu_count()) as pool:
        results = list(pool.map(lambda one: tried(compare_one, one), ones))
    wrong = [result for result in results if isinstance(result, str)]
    for error in wrong:
        print(f"WRONG {name}: {error}")
    right = len(results) - len(wrong)
    print(f"{name}: {right} inputs, {sum(result for result in results if not isinstance(result, str))} lines")
    return right, len(wrong)


def main(count):
    """Compares all, with this many exercises and a quarter as many configurations, and gives the status."""
    kept, (recordings, journals) = kept_of_tables(), examples()
    counts = [
        each("examples", compare_recording, recordings.items()),
        each("journals of examples", compare_journal, [(one,) for one in journals]),
        each("tables", compare_recording, kept.recordings.items()),
        each("journals of tables", compare_journal, [(one,) for one in sorted(kept.journals)]),
        each("exercises", compare_recording, exercises(count)),
        each("configurations", compare_other, [(seed,) for seed in range(count // 4)]),
        each("ends", compare_end, ENDS),
    ]
    right, wrong = (sum(column) for column in zip(*counts))
    print(f"{right + wrong} inputs compared, {wrong} wrong")
    return 0 if right and not wrong else 1
