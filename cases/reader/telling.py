"""Frames of the server in the words of tables: a message field by field; a field that is not set goes unsaid."""
from . import mumble
from .mumble import permissions_text
from .table import NoCase

SHORT = 40


def texts_text(key, text):
    """A text, `no KEY` where it is empty, or how long it is where it is long."""
    length = len(text.encode())
    if length == 0:
        return f"no {key}"
    return f"{key} of {length} bytes" if length > SHORT else f"{key} {text}"


def part_text(key, value):
    """One field behind its key; a flag by its sign."""
    if isinstance(value, bool):
        return ("+" if value else "-") + key
    if isinstance(value, list):
        return f"{key} " + " ".join(map(str, value))
    return texts_text(key, value) if isinstance(value, str) else f"{key} {value}"


def parts_text(head, message, keys):
    """The head and each field that is set, with the key of the table for each."""
    return ", ".join([head] + [part_text(key, message[name]) for name, key in keys.items() if name in message])


USER_KEYS = {"actor": "by", "name": "name", "user_id": "account", "channel_id": "in", "mute": "mute", "deaf": "deaf",
             "suppress": "suppress", "self_mute": "self-mute", "self_deaf": "self-deaf", "comment": "comment",
             "priority_speaker": "priority", "recording": "recording", "listening_channel_add": "listens",
             "listening_channel_remove": "unlistens"}
CHANNEL_KEYS = {"parent": "under", "name": "name", "links": "all-links", "description": "text", "links_add": "links",
                "links_remove": "unlinks", "temporary": "temporary", "position": "position", "max_users": "users"}


def version_text(told):
    """A Version."""
    return parts_text(f"version {told['version']}", told,
                      {"release": "release", "os": "os", "os_version": "os-version"})


def codecs_text(told):
    """A CodecVersion."""
    return parts_text(f"codecs {told['alpha']} {told['beta']}", told, {"prefer_alpha": "first", "opus": "opus"})


def channel_text(told):
    """A ChannelState."""
    return parts_text(f"channel {told['channel_id']}", told, CHANNEL_KEYS)


def gone_text(told):
    """A ChannelRemove."""
    return f"gone {told['channel_id']}"


def user_text(told):
    """A UserState. Nobody is told what a plugin says."""
    if "plugin_context" in told or "plugin_identity" in told:
        raise NoCase("a plugin is told of")
    return parts_text(f"user {told['session']}", told, USER_KEYS)


def left_text(told):
    """A UserRemove."""
    return parts_text(f"left {told['session']}", told, {"actor": "by", "reason": "reason", "ban": "ban"})


def sync_text(told):
    """A ServerSync."""
    head = parts_text(f"sync {told['session']}", told, {"max_bandwidth": "bandwidth", "welcome_text": "welcome"})
    return f"{head}, may {permissions_text(told['permissions'])}"


def said_text(told):
    """A TextMessage."""
    return parts_text(f"said by {told['actor']}", told, {"session": "sessions", "channel_id": "channels",
                                                         "tree_id": "trees", "message": "message"})


def may_text(told):
    """A PermissionQuery."""
    head = f"permissions {told['channel_id']}, may {permissions_text(told['permissions'])}"
    return parts_text(head, told, {"flush": "flush"})


TEXTS = {mumble.VERSION: version_text, mumble.CODEC_VERSION: codecs_text, mumble.CHANNEL_STATE: channel_text,
         mumble.CHANNEL_REMOVE: gone_text, mumble.USER_STATE: user_text, mumble.USER_REMOVE: left_text,
         mumble.SERVER_SYNC: sync_text, mumble.TEXT_MESSAGE: said_text, mumble.PERMISSION_QUERY: may_text}

# the fields that name sessions
SESSIONS = {mumble.SERVER_SYNC: ("session",), mumble.USER_STATE: ("session", "actor"),
            mumble.USER_REMOVE: ("session", "actor"), mumble.TEXT_MESSAGE: ("session", "actor"),
            mumble.PERMISSION_DENIED: ("session",)}


def renamed(kind, message, number_of):
    """The same message with other numbers of sessions."""
    changed = dict(message)
    for name in SESSIONS.get(kind, ()):
        value = message.get(name)
        if isinstance(value, list):
            changed[name] = [number_of(one) for one in value]
        elif value is not None:
            changed[name] = number_of(value)
    return changed


def message_text(kind, message):
    """A message of the server in the words of tables."""
    if kind not in TEXTS:
        raise NoCase(f"no message that a notice has: {kind}")
    return TEXTS[kind](message)


def readers_text(readers):
    """Who gets a frame; more than eight numbers in a row as `1..128`."""
    if len(readers) > 8 and readers == list(range(readers[0], readers[-1] + 1)):
        return f"{readers[0]}..{readers[-1]}"
    return " ".join(map(str, readers))


def notices_text(notices):
    """Notices in their order, pairs of a session and a text: each text once behind all who get it. Who gets it goes
    unsaid where it is as before."""
    runs = []
    for session, text in notices:
        if runs and runs[-1][1] == text and session not in runs[-1][0]:
            runs[-1][0].append(session)
        else:
            runs.append(([session], text))
    words, before = [], None
    for readers, text in runs:
        words.append(text if readers == before else f"{readers_text(readers)}: {text}")
        before = readers
    return " | ".join(words) or "nothing"
