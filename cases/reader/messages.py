"""Messages of a client, as tables spell them: a word, whom or what it is about, and parts behind `, `."""
from . import mumble
from .policies import acl_message
from .table import NoCase
from .words import (given_number, head_of, number, numbers, part, pieces_of_texts, repeated, said, text_of,
                    word_of, yes_or_no)


def position_of(parts):
    """The position that is given, if one is."""
    return given_number(part(parts, "position"))


def channel_state(channel, name, parts):
    """A ChannelState of a channel, or of a new one where that is None."""
    return mumble.CHANNEL_STATE, {
        "channel_id": channel, "name": text_of(name), "parent": given_number(part(parts, "under")),
        "position": position_of(parts), "max_users": given_number(part(parts, "users")),
        "description": text_of(part(parts, "text")), "temporary": yes_or_no(part(parts, "temporary")),
        "links": numbers(part(parts, "all")), "links_add": numbers(part(parts, "links")),
        "links_remove": numbers(part(parts, "unlinks")),
    }


def make(rest):
    """`A, under 3, temporary`: a new channel; no name at all where it is `-`."""
    name, parts = head_of(rest)
    return channel_state(None, None if name == "-" else name, parts)


def edit(rest):
    """`1, name B, under 2`: a channel changes."""
    channel, parts = head_of(rest)
    return channel_state(number(channel), part(parts, "name"), parts)


def remove(rest):
    """`1`: a channel goes."""
    return mumble.CHANNEL_REMOVE, {"channel_id": given_number(said(rest))}


def query_list(rest):
    """`1`: the groups and entries of a channel are asked for."""
    return mumble.ACL, {"channel_id": given_number(said(rest)), "query": True}


def acl(rest):
    """`1: PARTS`: the groups and entries of a channel are set."""
    channel, _, parts = rest.partition(":")
    return mumble.ACL, {"channel_id": given_number(said(channel)), **acl_message(parts)}


def login(rest):
    """`ann, password abc, tokens one two`; no name at all where it is `-`."""
    name, parts = head_of(rest)
    return mumble.AUTHENTICATE, {"username": text_of(said(name)), "password": text_of(part(parts, "password")),
                          "tokens": pieces_of_texts(part(parts, "tokens"))}


def version_of(parts):
    """The number of the version `1.2.0` that is given, as Mumble numbers versions, or None."""
    word = part(parts, "version")
    if word is None:
        return None
    major, minor, patch = (number(piece) for piece in word.split("."))
    return major << 16 | minor << 8 | patch


FLAGS = {"mute": "mute", "deaf": "deaf", "suppress": "suppress", "self_mute": "self_mute",
         "self_deaf": "self_deaf", "priority": "priority_speaker", "recording": "recording"}


def flags_of(words):
    """`+mute -deaf`: the fields of the flags."""
    fields = {}
    for word in (words or "").split():
        if word[0] not in "+-" or word[1:] not in FLAGS:
            raise NoCase(f"no flag: {word}")
        fields[FLAGS[word[1:]]] = word[0] == "+"
    return fields


def bytes_part(parts, key):
    """The bytes of the text behind a key, or None."""
    text = text_of(part(parts, key))
    return None if text is None else text.encode()


def user(rest):
    """`2, channel 3, flags +mute -deaf, comment hello`; no session where it is `-`."""
    who, parts = head_of(rest)
    return mumble.USER_STATE, {
        "session": given_number(said(who)), "actor": given_number(part(parts, "actor")),
        "name": text_of(part(parts, "name")), "user_id": given_number(part(parts, "id")),
        "channel_id": given_number(part(parts, "channel")), **flags_of(part(parts, "flags")),
        "plugin_context": bytes_part(parts, "context"), "plugin_identity": text_of(part(parts, "identity")),
        "comment": text_of(part(parts, "comment")), "temporary_access_tokens": pieces_of_texts(part(parts, "once")),
        "listening_channel_add": numbers(part(parts, "listen")),
        "listening_channel_remove": numbers(part(parts, "unlisten")),
    }


def kick(rest):
    """`2, reason words, ban`; `ban no` says that it is none."""
    who, parts = head_of(rest)
    return mumble.USER_REMOVE, {"session": given_number(said(who)), "actor": given_number(part(parts, "actor")),
                                "reason": text_of(part(parts, "reason")), "ban": yes_or_no(part(parts, "ban"))}


def text(rest):
    """`words, sessions 2 3, channels 4, trees 5`; no text at all where it is `-`."""
    words, parts = head_of(rest)
    return mumble.TEXT_MESSAGE, {
        "actor": given_number(part(parts, "actor")), "session": numbers(part(parts, "sessions")),
        "channel_id": numbers(part(parts, "channels")), "tree_id": numbers(part(parts, "trees")),
        "message": None if words == "-" else text_of(words)}


def item_of(text):
    """An item of a voice target: `channel 3 links children group staff session 4`."""
    item, words = {"session": []}, text.split()
    while words:
        times, key = repeated(words.pop(0))
        if key in ("links", "children"):
            item[key] = True
        elif key == "channel":
            item["channel_id"] = number(words.pop(0))
        elif key == "group":
            item["group"] = text_of(words.pop(0))
        elif key == "session":
            item["session"] += [number(words.pop(0))] * times
        else:
            raise NoCase(f"no part of an item: {key}")
    return item


def items_of(text):
    """The items of a voice target, separated by `/`; `16* ITEM` is that many."""
    items = []
    for piece in text.split("/") if text else []:
        piece, times = piece.strip(), 1
        if "* " in piece or piece.endswith("*"):
            times, piece = repeated(piece)
        items += [item_of(piece) for _ in range(times)]
    return items


def target(rest):
    """`7 channel 3 links / session 4`; no number where it is `-`."""
    place, items = word_of(rest)
    return mumble.VOICE_TARGET, {"id": given_number(said(place)), "targets": items_of(items)}


def query(rest):
    """`3`: the permissions in a channel are asked for."""
    return mumble.PERMISSION_QUERY, {"channel_id": given_number(said(rest))}


MESSAGES = {"make": make, "edit": edit, "remove": remove, "list": query_list, "acl": acl, "login": login,
            "user": user, "kick": kick, "text": text, "target": target, "query": query}


def message_of(words):
    """The message that words spell: its type and its fields by their names."""
    word, rest = word_of(words)
    if word not in MESSAGES:
        raise NoCase(f"no message: {words}")
    return MESSAGES[word](rest)
