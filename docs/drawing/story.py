"""The story of a recording: a row for each frame, and for what else a user notices."""
import json

from reader import mumble
from reader.transcript import told_by_step

from .names import Names
from .rows import SERVER, Row, shortened
from .silence import packets_by_line, why_nobody

REASONS = {1: "type not read", 2: "malformed", 3: "not logged in", 4: "names what is not there",
           5: "for another user", 6: "empty text", 7: "too long", 8: "session gone"}
MOST_TEXT = 30

# the fields that a row names, of each type of message; all of them where a type is not here
NAMED = {mumble.VERSION: ("release",), mumble.AUTHENTICATE: ("username", "tokens"), mumble.PING: (),
         mumble.CODEC_VERSION: (),
         mumble.REJECT: ("type",), mumble.SERVER_SYNC: ("session", "permissions"), mumble.ACL: ("channel_id", "query"),
         mumble.VOICE_TARGET: ("id",), mumble.PERMISSION_DENIED: ("permission", "channel_id", "type")}
UNNAMED = ("plugin_identity", "texture", "hash", "comment_hash", "texture_hash", "temporary_access_tokens",
           "description_hash", "user_id")


class Story:
    """The rows of a recording, and what is known of its connections so far."""

    def __init__(self, packets):
        self.rows = []
        self.known = Names()
        self.packets = packets
        self.worker_of = {}
        self.session_of = {}
        self.names = []
        self.asked = {}
        self.held = {}

    def add(self, *words, **more):
        """A further row."""
        self.rows.append(Row(*words, **more))
        return self.rows[-1]

    def frame(self, line, connection, digits, told):
        """A frame of a connection, and what was told of it."""
        kind, payload = mumble.split_frame(digits)
        if told[0] == "heard":
            text, number = packet_parts(payload)
            row = self.add(line, connection, [SERVER], text, look="voice", number=number)
            self.held[self.worker_of[connection]] = row
            return
        row = self.add(line, connection, [SERVER], self.frame_text(kind, payload, told))
        row.outcome = taken_text(told)
        if told[0] == "asked":
            self.asked[connection] = (row, kind, mumble.decode(kind, payload))

    def frame_text(self, kind, payload, told):
        """A frame of a connection; of one that is ignored its type alone, since its payload may be anything."""
        if kind == mumble.VOICE:
            return "a voice packet"
        return self.message_text(kind, b"" if told[0] == "ignored" else payload)

    def message_text(self, kind, payload):
        """A message with the fields of it that are named."""
        if kind not in mumble.FIELDS:
            return mumble.NAMES.get(kind, f"type {kind}")
        told = [f"{name} {self.shown(kind, name, one)}" for name, value in mumble.decode(kind, payload).items()
                if is_named(kind, name) for one in (value if isinstance(value, list) else [value])]
        return f"{mumble.NAMES[kind]} {', '.join(told)}".strip()

    def shown(self, kind, name, value):
        """The value of a field: a text in quotes, and the name of what a number names."""
        if isinstance(value, str):
            return '"' + shortened(value, MOST_TEXT) + '"'
        if isinstance(value, bytes):
            return value[:8].hex()
        if isinstance(value, bool):
            return str(int(value))
        if name in ("session", "actor"):
            return self.known.session_text(value)
        if name in ("channel_id", "parent", "tree_id") or "link" in name or "channel" in name:
            return self.known.channel(value)
        return number_text(kind, name, value)

    def edit(self, line, connection, told):
        """What was decided of the command of a connection, or of its leave."""
        row, kind, message = self.asked.pop(connection, (None, None, {}))
        if row is None:
            row = self.add(line, connection, [SERVER], "its leave")
        row.outcome = self.verdict_text(told)
        if told[0] in ("lacks", "refused", "rejected"):
            row.look = "denied"
        if told[0] == "rejected":
            self.names[connection - 1] = f"({message.get('username', '')})"
        if told[0] == "accepted":
            self.accepted(connection, kind, message)

    def accepted(self, connection, kind, message):
        """A command was accepted, which may be a login."""
        if kind == mumble.AUTHENTICATE and connection not in self.session_of:
            self.names[connection - 1] = message.get("username", "")
            self.session_of[connection] = self.known.joins(self.names[connection - 1])

    def look(self, line, worker, told):
        """Who hears the packet that a worker holds."""
        row = self.held.pop(worker)
        heard_by = [self.known.user(int(word.split("/")[0])) for word in told[4:]]
        row.outcome = "heard by " + (", ".join(heard_by) or "nobody")
        why = "" if heard_by else why_nobody(self.packets.get(line), self.known.names)
        row.outcome += f": {why}" if why else ""

    def wire(self, line, connection, digits):
        """A frame that a connection is sent. A frame that others are sent beside it stands in one row."""
        kind, payload = mumble.split_frame(digits)
        if kind != mumble.VOICE:
            self.known.told(kind, mumble.decode(kind, payload))
        text = self.copy_text(payload) if kind == mumble.VOICE else self.message_text(kind, payload)
        last = self.rows[-1]
        if last.source == SERVER and last.text == text and connection not in last.targets:
            last.targets.append(connection)
        else:
            is_denied = kind in (mumble.REJECT, mumble.PERMISSION_DENIED)
            look = "voice" if kind == mumble.VOICE else "denied" if is_denied else "said"
            self.add(line, SERVER, [connection], text, look=look)

    def copy_text(self, copy):
        """A copy of a voice packet: whose it is, and in which context."""
        session, _ = mumble.voice_number(copy[1:])
        return f"the voice of {self.known.user(session)}, by {mumble.CONTEXTS[copy[0] & 3]}"

    def verdict_text(self, told):
        """A verdict of the transcript in words."""
        if told[0] == "accepted":
            return f"accepted, revision {told[2]}"
        if told[0] == "lacks":
            permission = mumble.PERMISSION_OF_BIT.get(int(told[2]), told[2])
            return f"lacks {permission} in {self.known.channel(int(told[3]))}"
        if told[0] == "refused":
            return f"refused: {mumble.DENIALS.get(int(told[2]), told[2])}"
        if told[0] == "rejected":
            return f"rejected: {mumble.REJECTIONS.get(int(told[2]), told[2])}"
        return "answered" if told[0] == "answer" else ignored(told[2])


def is_named(kind, name):
    """Whether a row names a field."""
    return name in NAMED[kind] if kind in NAMED else name not in UNNAMED


def number_text(kind, name, value):
    """The name of what a number of a denial, a rejection or a set of permissions means, or the number."""
    if name == "type":
        return (mumble.DENIALS if kind == mumble.PERMISSION_DENIED else mumble.REJECTIONS).get(value, str(value))
    if name == "permission":
        return mumble.PERMISSION_OF_BIT.get(value, str(value))
    return mumble.permissions_text(value) if name == "permissions" else str(value)


def packet_parts(packet):
    """A voice packet: its text with a place for its number, and the number."""
    target = packet[0] & 31
    number, _ = mumble.voice_number(packet[1:])
    to = {0: "talks", 31: "talks to itself"}.get(target, f"speaks to voice target {target}")
    return f"{to}: {{}}", number


def taken_text(told):
    """What a frame asks for, in words."""
    if told[0] == "ignored":
        return ignored(told[2])
    return {"kept": "kept", "echo": "echoed", "asked": "not decided", "bad": f"cannot be read ({told[-1]})"}[told[0]]


def ignored(why):
    """Why a frame or a command is ignored."""
    return f"ignored: {REASONS.get(int(why), why)}"


def is_ping(step):
    """Whether a step brings a Ping."""
    return step[0] == "frame" and mumble.split_frame(step[2])[0] == mumble.PING


def tell_fault(story, line, step, told):
    """Adds what a user notices of boxes that are full, or of what was for another."""
    if told[0] == "full":
        full = f"the outbox of {story.known.user(int(told[2]))} is full: a copy is counted and gone"
        story.add(line, SERVER, [], full, look="denied")
    elif told[0] == "lagged":
        full = f"the posts of {story.known.user(int(told[1]))} are full: it is to leave"
        story.add(line, SERVER, [], full, look="denied")
    elif told[0] == "stale":
        story.add(line, int(step[1]), [], "a parcel for another session is dropped")


def tell(story, line, step, lines):
    """Adds what a step said to the story."""
    told = lines[0]
    if step[0] == "open":
        story.names.append(None)
        story.worker_of[int(step[1])] = step[2]
        story.add(line, int(step[1]), [], f"connection {step[1]} opens at worker {step[2]}")
    elif step[0] == "frame":
        story.frame(line, int(step[1]), step[2], told)
    elif step[0] == "edit":
        story.edit(line, int(step[1]), told)
    elif step[0] == "look":
        story.look(line, step[1], told)
    elif step[0] == "close":
        story.add(line, int(step[1]), [], f"closes: {told[2]}")
    elif step[0] == "end":
        story.add(line, SERVER, [], " ".join(told))
    else:
        tell_fault(story, line, step, told)
    for words in lines:
        if words[0] == "wire":
            story.wire(line, int(words[1]), words[2])


class NoStory(Exception):
    """What is no recording, or a transcript that is not the recording's."""


def head_of(recording):
    """How many lines the head of a recording has, and its configuration, or None where it is empty."""
    count = {"recording 1": 3, "recording 2": 4}.get(recording[0] if recording else "")
    if count is None or len(recording) < count:
        raise NoStory("this is no recording")
    digits = recording[count - 1].removeprefix("config ")
    try:
        return count, None if digits == "-" else json.loads(bytes.fromhex(digits))
    except ValueError as error:
        raise NoStory(f"line {count} of the recording names no configuration") from error


def names_itself(step, told):
    """Whether a line of the transcript names the connection or the worker of its step."""
    return step[0] in ("publish", "post", "end") or told[1:2] == step[1:2]


def story_of(recording, transcript, pings):
    """The story of a recording, with its Pings or without."""
    count, document = head_of(recording)
    story, steps = Story(packets_by_line(recording)), recording[count:]
    story.known.begins(document or {})
    for place, lines in enumerate(told_by_step(steps, transcript)):
        line, step, told = place + count + 1, steps[place].split(" "), [one.split(" ") for one in lines]
        try:
            if not names_itself(step, told[0]):
                raise ValueError
            if pings or not is_ping(step):
                tell(story, line, step, told)
        except (LookupError, ValueError) as error:
            raise NoStory(f"line {line} of the recording is `{shortened(steps[place], 60)}`, for which the "
                          f"transcript has `{shortened(lines[0], 60)}`") from error
    return story
