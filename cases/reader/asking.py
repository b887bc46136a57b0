"""What comes of a command: its verdict, the frame for its sender, and what all are told.

Each call that asks is tried by itself on what stands before it, in recordings of its own.
"""
from . import mumble, program
from .messages import message_of, version_of
from .table import NoCase
from .telling import message_text, notices_text, renamed
from .words import head_of

MOST_POSTS = 200_000


def settled_lines(scene, told, steps):
    """Makes sure that all that sets up a line was accepted."""
    for place, call in scene.accepted_at.items():
        lines = told.steps[place] if place < len(told.steps) else [told.why]
        if not lines[0].startswith("accepted "):
            raise NoCase(f"it cannot be set up: {call}: {lines[0]}")
    if len(told.steps) < len(steps):
        raise NoCase(f"it cannot be set up: {told.why}")


class Attempt:
    """A command that a user, or a connection without a session, sends behind what sets up a line."""

    def __init__(self, scene, connection, frames):
        self.scene = scene
        self.connection = connection
        self.steps = [f"frame {connection} {digits}" for digits in frames]
        self.steps += [f"edit {connection}", f"tell {connection} -"]
        self.told = None

    def before(self):
        """The steps before the command."""
        return self.scene.steps

    def run(self):
        """What the steps of the command told, as far as they were allowed."""
        if self.told is None:
            told = program.tell(self.scene.configuration.document(), self.before() + self.steps)
            settled_lines(self.scene, told, self.before())
            self.told = told.steps[len(self.before()):]
        return self.told

    def verdict(self):
        """The words of what was decided, behind the connection: `accepted 3`, `lacks 64 0`, `ignored 4`."""
        for lines in self.run():
            words = lines[0].split(" ")
            if words[0] in ("accepted", "lacks", "refused", "rejected", "answer", "ignored"):
                return [words[0], *words[2:]]
        raise NoCase(f"nothing was decided: {self.run()}")

    def is_accepted(self):
        """Whether the command is accepted."""
        return self.verdict()[0] == "accepted"

    def wire(self):
        """The frame that its sender gets with the verdict, or None."""
        for lines in self.run():
            for line in lines:
                if line.startswith("wire "):
                    return line.split(" ")[2]
        return None


class Leaving(Attempt):
    """A connection that ends."""

    def __init__(self, scene, connection):
        super().__init__(scene, connection, [])
        self.steps = [f"close {connection} end", f"edit {connection}"]


def attempt(scene, who, words):
    """The attempt of a user to do what words say, or of `nobody`."""
    if who == "nobody":
        return attempt_of_nobody(scene, words)
    user = scene.user(who)
    if not user.is_open:
        raise NoCase(f"whoever left sends nothing: {words}")
    if words == "leave":
        return Leaving(scene, user.connection)
    return Attempt(scene, user.connection, frames_of(scene, words))


def attempt_of_nobody(scene, words):
    """The attempt of a new connection."""
    connection = scene.connections + 1
    if words == "leave":
        made = Leaving(scene, connection)
    else:
        made = Attempt(scene, connection, frames_of(scene, words))
    made.steps.insert(0, f"open {connection} 0")
    return made


def frames_of(scene, words):
    """The frames of a message: one, or a login behind the Version that is said with it."""
    kind, message = message_of(words)
    frames = [mumble.frame_of(kind, scene.outgoing(kind, message))]
    version = version_of(head_of(words)[1]) if kind == mumble.AUTHENTICATE else None
    if version is not None:
        frames.insert(0, mumble.frame_of(mumble.VERSION, {"version": version}))
    return frames


def verdict_text(words):
    """A verdict that accepts nothing, with the name of a permission."""
    if words[0] == "lacks":
        return f"lacks {mumble.PERMISSION_OF_BIT[int(words[1])]} {words[2]}"
    return "answered" if words[0] == "answer" else " ".join(words)


# ---- what all are told

def posts(document, steps):
    """The sessions for which notices are posted once these steps were taken, in their order."""
    count = 64
    while count <= MOST_POSTS:
        told = program.tell(document, steps + ["post"] * count).steps[len(steps):]
        if len(told) < count:
            return [int(lines[0].split(" ")[1]) for lines in told]
        count *= 8
    raise NoCase("more notices than are counted")


def notices(made):
    """What all are told of an accepted command: pairs of a session in the recording and a frame."""
    document, steps = made.scene.configuration.document(), made.before()
    before = posts(document, steps)
    steps = steps + ["post"] * len(before) + made.steps
    behind = posts(document, steps)
    steps += ["post"] * len(behind)
    collects = [collect for session in dict.fromkeys(behind) for collect in collects_of(made, session, before + behind)]
    told = program.tell(document, steps + collects).steps[len(steps):]
    frames = {session: [] for session in behind}
    sessions = {connection_of(made, session): session for session in behind}
    for lines in told:
        word, connection, *digits = lines[0].split(" ")
        if word == "wire":
            frames[sessions[int(connection)]].append(digits[0])
    last = {session: iter(frames[session][-behind.count(session):]) for session in frames}
    return [(session, next(last[session])) for session in behind]


def connection_of(made, session):
    """The connection that has a session; the one of the attempt where it joins by it."""
    for user in made.scene.users.values():
        if user.session == session:
            return user.connection
    return made.connection


def collects_of(made, session, posted):
    """The steps by which a session takes all that was posted to its slot, also for those in it before."""
    slots = {**made.scene.slot_of, made.scene.sessions + 1: made.scene.free_slot()}
    count = sum(slots[one] == slots[session] for one in posted)
    return [f"collect {connection_of(made, session)}"] * count


def told_text(made):
    """What all but the administrator are told of an accepted command, in the words of tables."""
    texts, hidden = [], made.scene.administrator and made.scene.administrator[1]
    for session, digits in notices(made):
        if session == hidden:
            continue
        kind, payload = mumble.split_frame(digits)
        message = renamed(kind, mumble.decode(kind, payload), made.scene.number_of)
        texts.append((made.scene.number_of(session), message_text(kind, message)))
    return notices_text(texts)
