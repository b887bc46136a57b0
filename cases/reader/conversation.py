"""Conversations of a stock client, replayed frame by frame."""
from collections import Counter
from pathlib import Path

from . import mumble, program, wire
from .script import login_frame, refusal_of
from .table import NoCase

FOLDER = Path(__file__).resolve().parents[1] / "conversations"
COMMANDS = (mumble.AUTHENTICATE, mumble.CHANNEL_REMOVE, mumble.CHANNEL_STATE, mumble.USER_REMOVE, mumble.USER_STATE,
            mumble.TEXT_MESSAGE, mumble.ACL, mumble.VOICE_TARGET, mumble.PERMISSION_QUERY)
BEFORE = 127
CLIENT, LISTENER = BEFORE + 1, BEFORE + 2
WORDS = {"asked": "asked", "kept": "kept", "echo": "echoed", "heard": "heard", "ignored": "ignored"}


def frames_of(name):
    """The client's frames of a conversation: pairs of a type and a payload."""
    frames = []
    for line in (FOLDER / f"{name}.frames").read_text(encoding="utf-8").splitlines():
        words = line.split(" ")
        if words[0] == "client":
            frames.append((int(words[1], 16), b"" if words[2] == "-" else bytes.fromhex(words[2])))
    return frames


def came_and_left():
    """The steps of the users that came and left before."""
    steps = []
    for connection in range(1, CLIENT):
        steps += [f"open {connection} 0", f"frame {connection} {login_frame(f'u{connection}')}",
                  f"edit {connection}", f"tell {connection} -", f"close {connection} end", f"edit {connection}"]
    return steps


def listener_comes():
    """The steps of the user that listens, at a worker of its own."""
    return [f"open {LISTENER} 1", f"frame {LISTENER} {login_frame('the listener')}", f"edit {LISTENER}",
            f"tell {LISTENER} -"]


def steps_of(frames, revisions):
    """The steps of the client's frames, and the place of each frame; the first two are its Version and its login.

    `revisions` has the published revision behind each command, as far as it is known: where a packet looks.
    """
    steps, places, revision = came_and_left() + [f"open {CLIENT} 0"], [], 0
    for place, (kind, payload) in enumerate(frames):
        places.append(len(steps))
        steps.append(f"frame {CLIENT} {wire.frame(kind, payload).hex()}")
        if kind in COMMANDS:
            steps += [f"edit {CLIENT}", f"tell {CLIENT} -"] + (listener_comes() if place == 1 else []) + ["publish"]
            revision = revisions.get(place, revision)
        elif kind == mumble.VOICE:
            steps += [f"look 0 {revision}", "offer 0", f"drain {LISTENER}"]
    return steps, places


def revisions_of(frames):
    """The published revision behind each command of the client."""
    silent = [frame for frame in frames if frame[0] != mumble.VOICE]
    steps, places = steps_of(silent, {})
    told = program.tell(None, steps, workers=2).steps
    behind = {}
    commands = [place for place, frame in enumerate(silent) if frame[0] in COMMANDS]
    for place in commands:
        at = next(one for one in range(places[place], len(steps)) if steps[one] == "publish")
        behind[place] = int(told[at][0].split(" ")[1])
    numbers = [place for place, frame in enumerate(frames) if frame[0] in COMMANDS]
    return dict(zip(numbers, behind.values()))


def told_of(frames):
    """What is told of each step of the client's frames, the steps, and the place of each frame.

    A packet that nobody hears has no copy to be offered: that step is not allowed, and is left out.
    """
    steps, places = steps_of(frames, revisions_of(frames))
    left_out = set()
    while True:
        kept = [place for place in range(len(steps)) if place not in left_out]
        told = program.tell(None, [steps[place] for place in kept], workers=2)
        refusal = refusal_of(told)
        if refusal is None:
            return dict(zip(kept, told.steps)), places
        if steps[kept[refusal[0]]] != "offer 0":
            raise NoCase(told.why)
        left_out |= {kept[refusal[0]], kept[refusal[0]] + 1}


def taken(told, places):
    """How often each word is told of the client's frames."""
    counts = Counter(WORDS[told[place][0].split(" ")[0]] for place in places)
    return f"{len(places)} frames: " + ", ".join(f"{counts[word]} {word}" for word in WORDS.values())


def copy_of(packet):
    """A packet of talk as another user gets it: its kind, the session, and all else as it came."""
    return bytes([packet[0] & 0xE0]) + mumble.put_voice_number(CLIENT) + packet[1:]


def heard(frames, told, places):
    """How many packets talk, and how many of them the listener gets as they are to be."""
    talk = [place for place, (kind, payload) in enumerate(frames) if kind == mumble.VOICE and payload[0] & 31 == 0]
    copies = 0
    for place in talk:
        line = told.get(places[place] + 3, ["empty"])[0]
        if line.startswith("wire "):
            kind, copy = mumble.split_frame(line.split(" ")[2])
            copies += kind == mumble.VOICE and copy == copy_of(frames[place][1])
    return f"{len(talk)} packets, {copies} copies"


def answer(question):
    """The answer of the table `client`."""
    name, _, what = question.partition(" is ")
    frames = frames_of(name)
    told, places = told_of(frames)
    return taken(told, places) if what == "taken" else heard(frames, told, places)
