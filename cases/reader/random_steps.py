"""Recordings of random steps, each of which is allowed where it comes.

Users come, write, talk, move, mute, are kicked and go; some of what they ask for is denied. Each round is tried on
the program, and a round whose steps are not allowed there is left out.
"""
import random

from . import mumble, program, wire

NAMES = ["ann", "bob", "cat", "dan", "eve", "x<y&z", "a\u2028b", "bad\u0007name", " space"]
TEXTS = ["hello", "a\u0001b\u0000c", "<b>&amp;\"'", "é" * 40, "x" * 200, "tab\there\nthere"]
CAUSES = ["end", "end", "fault", "toolong", "rejected", "kicked", "lagged"]
WORKERS = 2


def login(draw, connection):
    """A user comes, or tries to."""
    version = mumble.frame_of(mumble.VERSION, {"version": draw.choice([0x10203, 0x10400])})
    frame = mumble.frame_of(mumble.AUTHENTICATE, {"username": draw.choice(NAMES)})
    greeting = [f"frame {connection} {version}"] if draw.random() < 0.5 else []
    return [f"open {connection} {draw.randrange(WORKERS)}", *greeting, *program.command_steps(connection, frame)]


def message(draw):
    """A message of a user."""
    one, other, text = draw.randrange(4), draw.randrange(1, 5), draw.choice(TEXTS)
    return draw.choice([
        (mumble.TEXT_MESSAGE, {"message": text, "channel_id": [one], "session": [other]}),
        (mumble.CHANNEL_STATE, {"parent": one, "name": text[:20], "temporary": draw.random() < 0.5}),
        (mumble.CHANNEL_STATE, {"channel_id": one, "links_add": [other]}),
        (mumble.CHANNEL_REMOVE, {"channel_id": one}),
        (mumble.USER_STATE, {"channel_id": one}),
        (mumble.USER_STATE, {"self_mute": draw.random() < 0.5, "self_deaf": draw.random() < 0.5, "comment": text}),
        (mumble.USER_STATE, {"session": other, "mute": draw.random() < 0.5}),
        (mumble.USER_STATE, {"listening_channel_add": [one]}),
        (mumble.USER_REMOVE, {"session": other, "reason": text}),
        (mumble.VOICE_TARGET, {"id": 1, "targets": [{"channel_id": one, "children": True, "session": [other]}]}),
        (mumble.PERMISSION_QUERY, {"channel_id": one}),
        (mumble.ACL, {"channel_id": one, "query": True}),
        (mumble.ACL, {"channel_id": one, "acls": [{"group": "all", "deny": 8}]}),
        (mumble.PING, {"timestamp": other}),
    ])


def published(lines):
    """The revision that was published last."""
    return ([line.split(" ")[1] for line in lines if line.startswith("published ")] or ["0"])[-1]


def newest(lines):
    """The revision that a further publish shows."""
    return str(sum(line.startswith("accepted ") for line in lines))


def command(draw, connection, lines):
    """A user asks for something. Its verdict may wait, or reach it with a note of what is published."""
    kind, fields = message(draw)
    steps = [f"frame {connection} {mumble.frame_of(kind, fields)}"]
    if kind == mumble.PING:
        return steps
    verdict = draw.choice([f"tell {connection} -", f"tell {connection} -", f"tell {connection} {published(lines)}"])
    return steps + [f"edit {connection}", verdict][:draw.choice([0, 1, 2, 2, 2, 2])]


def speech(draw, connection, worker, lines):
    """A user speaks, its worker looks at what was published before or at what is now, and some copies are offered and
    drained; what it says may be no packet."""
    packet = bytes([0x80 | draw.choice([0, 0, 0, 1, 2, 31]), draw.randrange(128)]) + bytes.fromhex("03aabbcc")
    packet = draw.choice([packet, packet, packet, packet, b"\x20"])
    frame = wire.frame(mumble.VOICE, packet).hex()
    others = [f"offer {worker}", f"offer {worker}", f"drain {draw.randrange(1, connection + 1)}"]
    return [f"frame {connection} {frame}", f"look {worker} {draw.choice([published(lines), newest(lines)])}"] + others[:draw.randrange(4)]


def round_of(draw, workers, closed, lines):
    """The steps of one round, where these are the workers of the connections, and these connections are closed."""
    numbers = range(1, len(workers) + 1)
    there = [number for number in numbers if number not in closed] or list(numbers)
    connection = draw.choice(there if draw.random() < 0.9 else list(numbers) or [1]) if workers else 1
    kind = draw.randrange(20)
    if kind < 2 or not workers:
        return login(draw, len(workers) + 1)
    if kind < 6:
        return command(draw, connection, lines)
    if kind < 10:
        return ["publish"] + speech(draw, connection, workers[connection - 1], lines)
    if kind < 13:
        return [f"offer {draw.randrange(WORKERS)}"]
    if kind == 13:
        return [f"close {connection} {draw.choice(CAUSES)}", f"edit {connection}"][:draw.choice([1, 2, 2])]
    if kind < 16:
        return [draw.choice([f"edit {connection}", f"tell {connection} -", f"tell {connection} {published(lines)}"])]
    return draw.choice([["post"] * draw.randrange(1, 8), [f"collect {connection}"] * 4, [f"drain {connection}"]])


def generate(seed, rounds):
    """The steps of a recording, and the lines that were printed of them."""
    draw, steps, lines = random.Random(seed), [], []
    for _ in range(rounds):
        workers = [step.split(" ")[2] for step in steps if step.startswith("open ")]
        closed = {int(step.split(" ")[1]) for step in steps if step.startswith("close ")}
        tried = steps + round_of(draw, workers, closed, lines)
        ran = program.run(["replay"], program.recording_of(None, tried + ["end"], workers=WORKERS, end=False))
        if ran.status == 0:
            steps, lines = tried, ran.lines
    return steps, lines
