"""Answers of the lines that are calls on a server: what is decided, what is told, who hears."""
from . import mumble, program, wire
from .asking import Attempt, attempt, notices, told_text, verdict_text
from .messages import message_of
from .policies import policy_text, shown
from .scene import Scene
from .table import NoCase
from .words import calls_of, head_of, number, part, text_of, word_of

VOICE = "0103aabbcc"
LOOPBACK = 31


def answer(question):
    """What the calls of a line say, one after the other."""
    scene, said, calls = Scene(), [], calls_of(question)
    for call in calls:
        promise(scene, call)
    for call in calls:
        words = one_call(scene, call)
        if words is not None:
            said.append(words)
    return "; ".join(said)


def promise(scene, call):
    """Who is to set a list gets the right for it at its login: once it is there, another token would change more."""
    head = call.partition(":")[0]
    if head.startswith("tells acl ") and part(head, "by"):
        channel = head_of(head.removeprefix("tells acl "))[0]
        scene.promise(number(part(head, "by")), number(channel))


def one_call(scene, call):
    """What one call says, or None where it sets something up."""
    who, rest = word_of(call)
    word, words = word_of(rest)
    if word in ASKING:
        scene.dismiss()
        return ASKING[word](scene, who, words)
    if who == "tells":
        return tells(scene, rest)
    if who in SPEAKING:
        scene.dismiss()
        return heard_by(scene, who, rest)
    scene.set_up(call)
    return None


# ---- commands

def asks(scene, who, words):
    """`1 asks MESSAGE`: what is decided, and what all are told of it where it is accepted."""
    made = attempt(scene, who, words)
    if not made.is_accepted():
        return verdict_text(made.verdict())
    if words.startswith("login") and who == "nobody":
        return f"accepted {login_text(made, words)}"
    if words.startswith("acl"):
        return f"accepted {list_text(made, words)}"
    told = told_text(made)
    return "accepted" if told == "nothing" else f"accepted, {told}"


def login_text(made, words):
    """What a newcomer learns of itself: its name, its session, its slot, and its account if it has one.

    It is told of all users in the order of their slots, and of itself among them; it has the least free slot.
    """
    session = made.scene.sessions + 1
    frames = [mumble.split_frame(digits) for one, digits in notices(made) if one == session]
    users = [mumble.decode(kind, payload) for kind, payload in frames if kind == mumble.USER_STATE]
    slot = next(place for place, told in enumerate(users) if told["session"] == session)
    account = users[slot].get("user_id")
    text = f"join {shown(users[slot]['name'])}, session {made.scene.number_of(session)}, slot {slot}"
    return text if account is None else f"{text}, account {account}"


def list_text(made, words):
    """The groups and entries that a channel has behind the command that set them, as the sender is then told."""
    channel = word_of(words)[1].partition(":")[0]
    kind, message = message_of(f"list {channel}")
    query = program.command_steps(made.connection, mumble.frame_of(kind, message))
    told = program.tell(made.scene.configuration.document(), made.before() + made.steps + query).steps
    digits = told[-1][-1].split(" ")[2]
    policy = policy_text(mumble.decode(*mumble.split_frame(digits)))
    return f"acl {channel}, {policy}" if policy else f"acl {channel}"


def hears(scene, who, words):
    """`1 hears MESSAGE`: the frame for its sender, by its type and its payload, or `nothing`."""
    digits = attempt(scene, who, words).wire()
    if digits is None:
        return "nothing"
    kind, payload = mumble.split_frame(digits)
    return f"{kind} {payload.hex()}"


def does(scene, who, words):
    """`1 does MESSAGE`: the command is carried out; `not accepted` where it is not."""
    made = attempt(scene, who, words)
    accepted = made.is_accepted()
    if not accepted:
        keep(scene, made)
        return "not accepted"
    scene.is_settled = True
    if who == "nobody":
        name, parts = head_of(word_of(words)[1])
        scene.welcomed(made, text_of(name), part(parts, "tokens"))
    keep(scene, made)
    scene.revision += 1
    note_end(scene, who, words)
    return None


def keep(scene, made):
    """The steps of a command become part of what stands before the next."""
    told = made.run()
    scene.steps += made.steps[:len(told)]
    scene.connections = max(scene.connections, made.connection)


def note_end(scene, who, words):
    """Who left, or was kicked, is here no more."""
    word, rest = word_of(words)
    if word == "leave":
        user = scene.user(who)
        user.is_open = False
        scene.end(user)
    elif word == "kick":
        scene.end(scene.user(head_of(rest)[0]))


ASKING = {"asks": asks, "hears": hears, "does": does}


# ---- what is told

def tells(scene, call):
    """`tells CALL`: what all are told of it. Who is named does it, by a right that is lent for it."""
    made = teller(scene, call)
    if not made.is_accepted():
        raise NoCase(f"no user can do it: {call}: {verdict_text(made.verdict())}")
    return told_text(made)


def teller(scene, call):
    """The attempt by which a call is done."""
    word, rest = word_of(call)
    if word == "join":
        scene.dismiss()
        name, parts = head_of(rest)
        return attempt(scene, "nobody", login_words(scene, name, parts))
    if word in ("user", "leave", "tokens", "target", "say"):
        scene.dismiss()
        return users_teller(scene, word, rest, call)
    return channels_teller(scene, word, rest, call)


def login_words(scene, name, parts):
    """A login with the password of the account, or of the server."""
    account = part(parts, "account")
    password = scene.configuration.server_password
    if account is not None:
        password = scene.configuration.passwords[number(account)]
    tokens = part(parts, "tokens")
    words = f"login {name}" + (f", password {password}" if password is not None else "")
    return words + (f", tokens {tokens}" if tokens is not None else "")


def users_teller(scene, word, rest, call):
    """The attempt of a user to change something of a user, to leave, or to say something."""
    if word == "leave":
        return attempt(scene, rest, "leave")
    who, more = word_of(rest)
    if word == "tokens":
        return attempt(scene, who, f"login -, tokens {more}")
    if word == "target":
        return attempt(scene, who, f"target {more}")
    if word == "say":
        who, parts = head_of(rest)
        return attempt(scene, who, f"text {part(parts, 'message')}, {parts}")
    return user_teller(scene, rest, call)


def user_teller(scene, rest, call):
    """The one message by which something of a user changes."""
    messages = scene.user_messages(rest)
    by = part(head_of(rest)[1], "by")
    if len(messages) > 1 or by and messages[0][0] is not scene.user(by):
        raise NoCase(f"no single message does it: {call}")
    user, message = messages[0]
    if user.account != 0:
        scene.configuration.lend()
        message["temporary_access_tokens"] = ["backstage"]
    return Attempt(scene, user.connection, [mumble.frame_of(mumble.USER_STATE, message)])


def channels_teller(scene, word, rest, call):
    """The attempt to change channels or lists, or to put somebody out: of who is named, or of the administrator."""
    head = rest.partition(":")[0] if word == "acl" else rest
    by = part(head, "by")
    if word not in ("make", "edit", "remove", "acl", "kick"):
        raise NoCase(f"no command does it: {call}")
    if by is None:
        if word == "acl" or part(rest, "temporary") is not None:
            raise NoCase(f"nobody else does it: {call}")
        return administrators_teller(scene, word, rest, call)
    scene.dismiss()
    user = scene.user(by)
    if word != "acl":
        scene.lend(user, call)
    kind, message = scene.asked_by_name(word, rest)
    return Attempt(scene, user.connection, [mumble.frame_of(kind, message)])


def administrators_teller(scene, word, rest, call):
    """The attempt of the administrator, which has come for it."""
    scene.call_administrator(call)
    kind, message = scene.asked_by_name(word, rest)
    return Attempt(scene, scene.administrator[0], [mumble.frame_of(kind, message)])


# ---- who hears

SPEAKING = {"talk": lambda words: 0, "loopback": lambda words: LOOPBACK,
            "whisper": lambda words: number(word_of(words)[1])}


def heard_by(scene, word, words):
    """`talk 1`, `whisper 1 7`, `loopback 1`: who hears the packet and in which context, in the order of slots."""
    user = scene.user(word_of(words)[0])
    packet = bytes([0x80 | SPEAKING[word](words)]) + bytes.fromhex(VOICE)
    steps = scene.moved_to_worker(user, 1)
    at = len(steps) if user.left_at is None else user.left_at
    spoken = steps[:at] + [f"frame {user.connection} {wire.frame(mumble.VOICE, packet).hex()}"] + steps[at:]
    spoken += ["publish", f"look 1 {scene.revision}"]
    told = program.tell(scene.configuration.document(), spoken, workers=2)
    if len(told.steps) < len(spoken):
        raise NoCase(f"it cannot be said: {told.why}")
    return route_text(scene, told.steps[-1][0])


def route_text(scene, line):
    """The sessions of a route with their contexts, or `nobody`."""
    words = []
    for word in line.split(" ")[4:]:
        session, context = word.split("/")
        words.append(f"{scene.number_of(int(session))}/{context}")
    return " ".join(words) or "nobody"
