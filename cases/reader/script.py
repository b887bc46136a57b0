"""Recordings as tables spell them: a beginning, and lines or steps behind it, where names stand for frames."""
import re

from . import mumble, program, wire
from .scene import Scene
from .table import NoCase
from .words import bytes_of, calls_of, number


def login_frame(name):
    """The digits of a login under a name alone."""
    return mumble.frame_of(mumble.AUTHENTICATE, {"username": name})


NAMES = {"ANN": login_frame("ann"), "BOB": login_frame("bob"), "CAT": login_frame("cat"),
         "VOICE": "000100000006800103aabbcc"}


def user_steps(connection, name):
    """A user comes, and is told so at the revision of its login."""
    return [f"open {connection} 0", f"frame {connection} {login_frame(name)}", f"edit {connection}", "publish",
            f"tell {connection} {connection}"]


BEGINNINGS = {"nothing": [], "opened": ["open 1 0"], "one user": user_steps(1, "ann"),
              "two users": user_steps(1, "ann") + user_steps(2, "bob")}


def beginning(name):
    """The steps of a beginning."""
    if name not in BEGINNINGS:
        raise NoCase(f"no beginning: {name}")
    return BEGINNINGS[name]


def meaning(piece):
    """The line that a piece of a script spells."""
    return "" if piece == "blank" else " ".join(NAMES.get(word, word) for word in piece.split(" "))


# ---- whole runs

LIMITED = re.compile(r"(\d+) users under limits (\d+ \d+)")


def logins(count):
    """The steps of so many logins of different names, each decided."""
    return [step for connection in range(1, count + 1)
            for step in (f"open {connection} 0", f"frame {connection} {login_frame(f'user{connection}')}",
                         f"edit {connection}")]


def spelled(piece):
    """The line that a piece spells, without its end: `spaces N`, `document D`, or as it is."""
    if piece.startswith("document "):
        document = piece.removeprefix("document ")
        if document.startswith("spaces "):
            document = " " * number(document.removeprefix("spaces "))
        return "config " + document.encode().hex()
    if piece.startswith("spaces "):
        return " " * number(piece.removeprefix("spaces "))
    return meaning(piece)


def line_of(piece):
    """The line that a piece spells, with its end unless it is `unended`."""
    if piece.startswith("unended "):
        return spelled(piece.removeprefix("unended "))
    return spelled(piece) + "\n"


def account_of(ran, skipped):
    """What a run told behind its beginning, what was said of it, and its status."""
    return "; ".join(ran.lines[skipped:] + ran.errors + [f"status {ran.status}"])


def run_of_words(words):
    """A run of the program with other words; EMPTY is the empty one."""
    return program.run(["" if word == "EMPTY" else word for word in words.split()], program.recording_of(None, []))


def replayed(question):
    """The answer of the table `replay`."""
    if question.startswith("words"):
        return account_of(run_of_words(question.removeprefix("words")), 0)
    name, _, script = question.partition("; ")
    limited = LIMITED.fullmatch(name)
    steps = [] if name == "bare" else logins(int(limited[1])) if limited else beginning(name)
    head = "" if name == "bare" else program.recording_of(None, steps, end=False, limits=limited and limited[2])
    text = head + "".join(line_of(piece.strip()) for piece in script.split(";"))
    return account_of(program.run(["replay"], text), len(steps))


# ---- steps, some of which are not allowed

def opening(calls):
    """The document of what calls set up."""
    scene = Scene()
    for call in calls_of(calls) if calls else []:
        scene.set_up(call)
    if scene.steps:
        raise NoCase(f"no configuration has it: {calls}")
    return scene.configuration.document()


def refusal_of(told):
    """The place of the step that was not allowed, from 0, and `A against B`; None where all were."""
    found = re.search(r"IllegalStep line (\d+) given (\d+) against (\d+)", told.why)
    return (int(found[1]) - 4, f"{found[2]} against {found[3]}") if found else None


def stepped(question):
    """The answer of the table `steps`: what is told of each, or the two numbers of one that is not allowed.

    A step that is not allowed ends a recording. So it is then left out, and the rest is run without it.
    """
    calls, found, rest = question.rpartition(" | ")
    name, _, script = rest.partition("; ")
    document, steps, refusals = opening(calls if found else ""), list(beginning(name)), {}
    lasts = places_of(script, steps)
    while True:
        allowed = [step for place, step in enumerate(steps) if place not in refusals]
        told = program.tell(document, allowed)
        refusal = refusal_of(told)
        if refusal is None:
            break
        kept = [place for place in range(len(steps)) if place not in refusals]
        refusals[kept[refusal[0]]] = refusal[1]
    return "; ".join(said_of(steps, told.steps, refusals, lasts))


def places_of(script, steps):
    """Adds the steps of a script, and gives the place of the last step of each piece."""
    lasts = []
    for piece in script.split(";"):
        steps += [meaning(call) for call in calls_of(piece.strip())]
        lasts.append(len(steps) - 1)
    return lasts


def said_of(steps, told, refusals, lasts):
    """What is said of the last step of each piece."""
    lines = iter(told)
    said = [refusals.get(place) or ", ".join(next(lines, ["nothing"])) for place in range(len(steps))]
    return [said[place] for place in lasts]


# ---- frames of one connection

def frame_of(word):
    """The digits of a frame that is spelled `TYPE/PAYLOAD`."""
    kind, _, payload = word.partition("/")
    return wire.frame(number(kind), bytes_of(payload)).hex()


def told_of_frames(name, words):
    """What is told of frames of connection 1 behind a beginning, without the number of the connection."""
    steps = beginning(name)
    told = program.replay(None, steps + [f"frame 1 {frame_of(word)}" for word in words])[len(steps):]
    return ", ".join(lines[0].replace(" 1", "", 1) for lines in told)


def framed(question):
    """The answer of the table `frames`: behind a beginning, or of each frame alone before and after a login."""
    name, _, frames = question.partition("; ")
    words = frames.split(" ")
    if name != "each":
        return told_of_frames(name, words)
    return " | ".join(f"{told_of_frames('opened', [word])}; {told_of_frames('one user', [word])}" for word in words)


DECIDED = ["edit 1", "tell 1 -"]


def connected(question):
    """The answer of the table `connections`: what each frame of one connection asks for, and what is decided."""
    steps, told_of = ["open 1 0"], []
    if "rejected" in question.split("; "):
        steps = steps + ["open 2 0", f"frame 2 {login_frame('ann')}", "edit 2", "tell 2 -"]
    for piece in question.split("; "):
        if piece in ("joined", "rejected", "decided"):
            told_of.append((len(steps), piece))
            steps += DECIDED
        else:
            told_of.append((len(steps), "frame"))
            steps.append("frame 1 " + frame_of(piece.replace(" ", "/", 1)))
    told = program.replay(None, steps)
    return "; ".join(word for place, piece in told_of for word in said_of_piece(piece, told[place][0]))


def said_of_piece(piece, line):
    """What is said of a frame or a decision; nothing of a login that is decided as it is said."""
    words = line.split(" ")
    if piece in ("joined", "rejected"):
        if words[0] != {"joined": "accepted", "rejected": "rejected"}[piece]:
            raise NoCase(f"not {piece}: {line}")
        return []
    if piece == "decided" and words[0] == "accepted":
        return ["accepted"]
    return [line.replace(" 1", "", 1)]


# ---- single lines

def line_bytes(spelled_line):
    """The bytes of a line in quotes, with `\\HH` for a byte."""
    inside = spelled_line.strip()[1:-1]
    pieces = re.split(r"\\([0-9a-f]{2})", inside)
    return b"".join(bytes.fromhex(piece) if place % 2 else piece.encode() for place, piece in enumerate(pieces))


LINES = {"head": [], "workers": ["recording 1"], "limits": ["recording 2", "workers 1"],
         "config": ["recording 1", "workers 1"],
         "step": ["recording 1", "workers 1", "config -"]}

# what a run says that took the line: one that is missing behind it, a step that is not allowed, a faulty document
LATER = re.compile(r"murmur: (2 BadRecording line \d+|7 IllegalStep line 4 given \d+ against \d+|6 BadConfig .*)")


def line_told(question):
    """The answer of the table `lines`: whether a line may stand where it does."""
    verb, _, rest = question.partition(" ")
    line = b" " * number(rest) if verb == "spaces" else line_bytes(rest)
    before = LINES["step" if verb == "spaces" else verb]
    tail = b"config -\nopen 1 4294967295\n" if verb == "workers" else b""
    ran = program.run(["replay"], "".join(one + "\n" for one in before).encode() + line + b"\n" + tail)
    why = ran.errors[0] if ran.errors else ""
    if why == f"murmur: 2 BadRecording line {len(before) + 1}":
        return "no line"
    if ran.status != 0 and not LATER.fullmatch(why):
        raise NoCase(f"status {ran.status}: {why}")
    return why.split(" ")[-1] if verb == "workers" else "a line"
