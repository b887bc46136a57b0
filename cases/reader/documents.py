"""Documents of configurations: the fault for which one is refused, or what is seen of one by who logs in."""
import json

from . import mumble, program
from .configuration import sha256
from .policies import policy_text
from .table import NoCase
from .telling import message_text, texts_text
from .words import bytes_of, number, repeated

GUEST, ADMINISTRATOR, SECRET = "somebody", "the administrator", "a password of the cases"
# The digest of no password that anybody knows.
NO_DIGEST = b"0" * 64
MOST_BYTES = 65_536


# ---- as tables write them

def with_number(item, one):
    """An item with a number for each `#`, and the one before for `#-1`."""
    return item.replace("#-1", str(one - 1)).replace("#", str(one))


def form_of(form):
    """What stands for `64*ab`, `hex ff` or `1..3 {"id":#}`."""
    if form.startswith("hex "):
        return bytes_of(form.removeprefix("hex "))
    first, dots, rest = form.partition("..")
    if dots:
        last, _, item = rest.partition(" ")
        return ",".join(with_number(item, one) for one in range(number(first), number(last) + 1)).encode()
    times, unit = repeated(form)
    return (unit * times).encode()


def document_of(text):
    """The bytes of a document that a line writes."""
    first, *pieces = text.split("<")
    out = first.encode()
    for piece in pieces:
        form, found, rest = piece.partition(">")
        if not found:
            raise NoCase(f"no form: {piece}")
        out += form_of(form) + rest.encode()
    return out


# ---- faults

def fault_of(document):
    """`62 accounts[0].nick`: the first fault of a document, or None. As for a server, an empty one is `{}`. One that is
    too long would make the line of a recording too long: the beginning shows as much."""
    ran = program.run(["replay"], program.recording_of(document[:MOST_BYTES + 1] or b"{}", []))
    if ran.status == 0:
        return None
    words = ran.errors[0].split(" ", 4) if ran.errors else []
    if ran.status != 6 or words[1:3] != ["6", "BadConfig"]:
        raise NoCase(f"status {ran.status}: {ran.errors}")
    return f"{words[3]} {words[4]}"


def fault(question):
    """The answer of the table `faults`."""
    return fault_of(document_of(question)) or "it is read"


# ---- what is seen

def login(connection, name, password, document_steps, tokens=()):
    """Adds the steps of a login."""
    message = {"username": name, "password": password, "tokens": tokens}
    document_steps.append(f"open {connection} 0")
    document_steps += program.command_steps(connection, mumble.frame_of(mumble.AUTHENTICATE, message))


def told_first(document, name, password):
    """The messages that a user is told first, pairs of a type and its fields; or the type of its rejection."""
    steps = []
    login(1, name, password, steps)
    told = program.tell(document, steps).steps
    if told[2][0].startswith("rejected"):
        return told[2][0].split(" ")[2]
    posts = ["post"] * posted(document, steps)
    told = program.tell(document, steps + posts + ["collect 1"] * len(posts)).steps[-len(posts):]
    frames = [mumble.split_frame(lines[0].split(" ")[2]) for lines in told]
    return [(kind, mumble.decode(kind, payload)) for kind, payload in frames]


def posted(document, steps):
    """How many notices are pending behind steps."""
    count = 4096
    return len(program.tell(document, steps + ["post"] * count).steps) - len(steps)


def with_administrator(document):
    """The document with an account of SuperUser in front, which counts where the document gives no accounts."""
    account = {"id": 0, "name": ADMINISTRATOR, "password_sha256": sha256(SECRET)}
    head, _, rest = document.partition(b"{")
    comma = b"" if rest.lstrip().startswith(b"}") else b","
    return head + b'{"accounts":' + json.dumps([account]).encode() + comma + rest


def list_of(document, name, password, channel):
    """The groups and entries of a channel, as an administrator is answered; None where it is not."""
    steps = []
    login(1, name, password, steps)
    query = mumble.frame_of(mumble.ACL, {"channel_id": channel, "query": True})
    told = program.tell(document, steps + program.command_steps(1, query)).steps
    if len(told[-1]) < 2:
        return None
    kind, payload = mumble.split_frame(told[-1][1].split(" ")[2])
    return policy_text(mumble.decode(kind, payload)) if kind == mumble.ACL else None


def lists_text(document, name, password, channels):
    """`acl 1, not-inheriting`: each channel that has groups or entries, or does not inherit."""
    texts = [(channel, list_of(document, name, password, channel)) for channel in channels]
    return [f"acl {channel}, {text}" for channel, text in texts if text]


def is_account(document, name):
    """Whether a name is an account's: then another password than its own is rejected for that."""
    return told_first(document, name, "no password of anybody") == "3"


def settings_text(told):
    """`bandwidth 72000, welcome hi`"""
    words = f"bandwidth {told['max_bandwidth']}"
    return words + ", " + texts_text("welcome", told["welcome_text"]) if "welcome_text" in told else words


def channels_of(told):
    """The numbers of the channels that a user is told of."""
    return [fields["channel_id"] for kind, fields in told if kind == mumble.CHANNEL_STATE and "name" in fields]


def seen(question):
    """The answer of the table `documents`: channels, links, settings, lists, a password, and the names of accounts."""
    document = with_administrator(document_of(question))
    told = told_first(document, ADMINISTRATOR, SECRET)
    if isinstance(told, str):
        return f"rejected {told}"
    words = [message_text(kind, fields) for kind, fields in told if kind == mumble.CHANNEL_STATE]
    words += [settings_text(fields) for kind, fields in told if kind == mumble.SERVER_SYNC]
    words += lists_text(document, ADMINISTRATOR, SECRET, channels_of(told))
    if told_first(document, GUEST, "no password of anybody") == "4":
        words.append("password")
    named = [entry["name"] for entry in json.loads(document)["accounts"] if entry["name"] != ADMINISTRATOR]
    words += [f"account {name}" for name in named if is_account(document, name)]
    return " | ".join(words)


def counted(question):
    """The answer of the table `sizes`: how many channels and links a user is told of, or the first fault."""
    document = document_of(question)
    fault_told = fault_of(document)
    if fault_told:
        return fault_told
    told = told_first(document, GUEST, None)
    ends = sum(len(fields.get("links", [])) for kind, fields in told if kind == mumble.CHANNEL_STATE)
    return f"{len(channels_of(told))} channels, {ends // 2} links"


# ---- the examples

def refused(path):
    """How many of the documents in a file, a line each behind the first, are refused."""
    documents = (program.TOP / "examples" / path).read_bytes().splitlines()[1:]
    return f"{sum(fault_of(document) is not None for document in documents)} of {len(documents)}"


def example(question):
    """The answer of the table `examples`: `FILE as NAME [with PASSWORD] sees WHAT`, or `FILE are refused`."""
    if question.endswith(" are refused"):
        return refused(question.removesuffix(" are refused"))
    path, _, rest = question.partition(" as ")
    who, _, what = rest.partition(" sees ")
    name, given, password = who.partition(" with ")
    document = (program.TOP / "examples" / path).read_bytes()
    if not given:
        document, password = document.replace(NO_DIGEST, sha256(SECRET).encode()), SECRET
    told = told_first(document, name, password)
    if isinstance(told, str):
        return f"rejected {told}"
    word, _, channel = what.partition(" ")
    if word == "list":
        return list_of(document, name, password, number(channel)) or "nothing"
    return " | ".join(example_words(told, word, channel)) or "nothing"


def example_words(told, word, channel):
    """What a user is told first of a channel, of its links, of itself or of the server."""
    for kind, fields in told:
        if kind == mumble.CHANNEL_STATE and str(fields["channel_id"]) == channel:
            if word == ("channel" if "name" in fields else "links"):
                yield message_text(kind, fields)
        elif kind == mumble.USER_STATE and word == "itself":
            yield message_text(kind, fields)
        elif kind == mumble.SERVER_SYNC and word == "server":
            yield settings_text(fields)
