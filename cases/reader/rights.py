"""Who may do what in each channel of a configuration, as the program answers those who log in and ask.

Whoever asks logs in on a copy of the document in which passwords are known, and sends a PermissionQuery for each
channel. Nothing is worked out here: each set of permissions is an answer of the program.
"""
import json
import os
from concurrent.futures import ThreadPoolExecutor
from dataclasses import dataclass
from functools import lru_cache

from . import documents, mumble, program, recipes
from .configuration import SUPERUSER, sha256

GUESTS, ANY_ACCOUNT, ROOT = "guests", "any account", "the root"
BUILT_IN = ("all", "auth", "in", "out", "none", "strong", "sub")
# How many ask in one run, and how many questions they have there at most: this much takes no long run.
AT_ONCE, QUESTIONS = 16, 4000


class Repeating(dict):
    """An object of a document, with the keys that it gives more than once."""

    def __init__(self, pairs):
        super().__init__(pairs)
        keys = [key for key, _ in pairs]
        self.repeated = sorted({key for key in keys if keys.count(key) > 1})


def read_document(text):
    """The document of a text or of bytes. Of a key that comes twice the last one counts, and an empty text is `{}`, as
    in the program."""
    return json.loads(text or b"{}", object_pairs_hook=Repeating)


# ---- what a document names

def channels_of(document):
    """The channels by their numbers, the root among them."""
    return {0: {}, **{channel["id"]: channel for channel in document.get("channels", [])}}


def path_text(document, number):
    """`Departments / Sales`: the names from the top down to a channel."""
    channels, names = channels_of(document), []
    while number != 0:
        names.insert(0, channels[number]["name"])
        number = channels[number]["parent"]
    return " / ".join(names) or ROOT


def groups_of(document):
    """The names of the groups that channels define."""
    return list(dict.fromkeys(group["name"] for channel in document.get("channels", [])
                              for group in channel.get("groups", [])))


def entries_of(document):
    """The entries of all lists: triples of the number of a channel, the place of an entry as a key, the entry."""
    for at, channel in enumerate(document.get("channels", [])):
        for place, entry in enumerate(channel.get("acls", [])):
            yield channel["id"], f"channels[{at}].acls[{place}]", entry


def asked_name(group):
    """What the group of an entry names after the prefixes `!` and `~`."""
    return group.lstrip("!~")


def names_of_entries(document):
    """What the groups of entries name after their prefixes, each once. Where an account is given, it counts alone."""
    named = [asked_name(entry["group"]) for _, _, entry in entries_of(document) if "account" not in entry]
    return list(dict.fromkeys(named))


def named_accounts(document):
    """The places at which lists and entries name accounts: pairs of a key and a number."""
    for _, place, entry in entries_of(document):
        if "account" in entry:
            yield f"{place}.account", entry["account"]
    for at, channel in enumerate(document.get("channels", [])):
        for which, group in enumerate(channel.get("groups", [])):
            for key in ("add", "remove"):
                for place, account in enumerate(group.get(key, [])):
                    yield f"channels[{at}].groups[{which}].{key}[{place}]", account


# ---- who asks

@dataclass(frozen=True)
class Asker:
    """Somebody who logs in and asks: `key` says who it is, and `label` says it with the name of an account."""
    key: str
    label: str
    name: str
    account: int | None = None
    tokens: tuple = ()
    group: str | None = None
    is_stranger: bool = False


def free_numbers(document):
    """Numbers of accounts that a document does not name, in their order."""
    taken = {0, *(account["id"] for account in document.get("accounts", [])),
             *(account for _, account in named_accounts(document))}
    return (number for number in range(1, 1 << 32) if number not in taken)


def askers_of(document):
    """Guests, somebody with an account that no list names, each account, each group and each token."""
    accounts = document.get("accounts", [])
    unused, free = "somebody", free_numbers(document)
    while any(account["name"].startswith(unused) for account in accounts):
        unused += "_"
    askers = [Asker(GUESTS, GUESTS, unused),
              Asker(ANY_ACCOUNT, ANY_ACCOUNT, unused, next(free), is_stranger=True)]
    askers += [Asker(f"account {account['id']}", f"{account['name']} ({account['id']})", account["name"],
                     account["id"]) for account in accounts]
    askers += [Asker(f"group {group}", f"group {group}", f"{unused}{place}", next(free), group=group, is_stranger=True)
               for place, group in enumerate(groups_of(document))]
    return askers + [Asker(f"token {name}", f"token {name}", unused, tokens=(name[1:],))
                     for name in names_of_entries(document) if name.startswith("#")]


# ---- the copies

KEPT_OF_CHANNEL = ("id", "parent", "name", "inherit_acls", "groups", "acls")


def copy_for(document, askers):
    """The bytes of a copy on which these log in. It has their accounts, with a password that is known, and SuperUser.

    What says nothing of rights is left out. Where strangers ask, each is added to every definition of its group, and
    those who are in groups by the document are left out of them.
    """
    accounts = {asker.account: asker.name for asker in askers if asker.account is not None}
    accounts.setdefault(0, superuser_of(document))
    channels = [{key: channel[key] for key in KEPT_OF_CHANNEL if key in channel}
                for channel in document.get("channels", [])]
    if any(asker.is_stranger for asker in askers):
        channels = [with_strangers(channel, askers) for channel in channels]
    copy = {"accounts": [{"id": number, "name": name, "password_sha256": sha256(documents.SECRET)}
                         for number, name in accounts.items()],
            "channels": channels}
    return json.dumps(copy, ensure_ascii=False, separators=(",", ":")).encode()


def superuser_of(document):
    """The name of the account 0, or one that no account has."""
    names = {account["id"]: account["name"] for account in document.get("accounts", [])}
    name = names.get(0, SUPERUSER)
    while 0 not in names and name in names.values():
        name += "_"
    return name


def with_strangers(channel, askers):
    """A channel whose groups have the strangers that ask for them, and nobody else."""
    if "groups" not in channel:
        return channel
    return {**channel, "groups": [group_of_strangers(group, askers) for group in channel["groups"]]}


def group_of_strangers(group, askers):
    """A definition of a group without its accounts, and with the strangers that ask for it."""
    members = [asker.account for asker in askers if asker.group == group["name"]]
    kept = {key: value for key, value in group.items() if key not in ("add", "remove")}
    return {**kept, "add": members} if members else kept


# ---- the questions

def asks_who_is_inside(document):
    """Whether an entry depends on who is in a channel: then a user may do something else once it is there."""
    return any(name in ("in", "out", "sub") or name.startswith("sub,") for name in names_of_entries(document))


def query_steps(connection, channel):
    """A user asks for its permissions in a channel."""
    return program.command_steps(connection, mumble.frame_of(mumble.PERMISSION_QUERY, {"channel_id": channel}))


def move_steps(connection, channel, session=None):
    """A user goes to a channel, or moves another one there."""
    message = {"session": session, "channel_id": channel}
    return program.command_steps(connection, mumble.frame_of(mumble.USER_STATE, message))


def asked(document, askers, inside):
    """The answers to some who ask: sets of permissions by channel and key, as they arrive, and once inside.

    SuperUser has connection 1 and session 1, and brings each who asks back to the root.
    """
    channels, steps, places = list(channels_of(document)), [], {}
    documents.login(1, superuser_of(document), documents.SECRET, steps)
    for connection, asker in enumerate((one for one in askers if one.account != 0), 2):
        password = None if asker.account is None else documents.SECRET
        documents.login(connection, asker.name, password, steps, asker.tokens)
        ask_all(steps, places, connection, asker, channels, inside)
        steps += [f"close {connection} end", f"edit {connection}"]
    for asker in askers:
        if asker.account == 0:
            ask_all(steps, places, 1, asker, channels, False)
    copy = copy_for(document, askers)
    if len(copy) > documents.MOST_BYTES:
        raise program.Stopped("the document is so long that nobody can be added to its groups to ask")
    told = program.replay(copy, steps)
    refuse_failures(steps, told)
    answers = {place: permissions_told(told, at) for place, at in places.items()}
    entered = {place for place, at in places.items() if place[2] and told[at - 4][0].startswith("accepted")}
    return {place: bits for place, bits in answers.items() if not place[2] or place in entered}


def ask_all(steps, places, connection, asker, channels, inside):
    """Adds the questions of one who asks: for each channel from the root, then from inside each but the root."""
    for channel in channels:
        steps += query_steps(connection, channel)
        places[channel, asker.key, False] = len(steps) - 1
    for channel in channels[1:] if inside else []:
        steps += move_steps(connection, channel)
        steps += query_steps(connection, channel)
        places[channel, asker.key, True] = len(steps) - 1
        steps += move_steps(1, 0, session=connection)


def refuse_failures(steps, told):
    """Makes sure that all logged in, so that a session has the number of its connection, and that SuperUser, of
    connection 1, did all that it was to do."""
    for step, lines in zip(steps, told):
        failed = lines[0].startswith("rejected ") or step == "edit 1" and lines[0].split(" ")[0] in ("lacks", "refused")
        if step.startswith("edit ") and failed:
            raise program.Stopped(f"{step}: {lines[0]}")


def permissions_told(told, at):
    """The permissions of the answer that a step prints."""
    kind, payload = mumble.split_frame(told[at][1].split(" ")[2])
    return mumble.decode(kind, payload)["permissions"]


@dataclass(frozen=True)
class Rights:
    """Who asked, and the answers: permissions by channel and key, as they arrive in the root and once inside."""
    askers: list
    at_arrival: dict
    inside: dict


def fitting(document, askers):
    """Those who ask in parts, each of which has a copy that is not too long."""
    if len(askers) > 1 and len(copy_for(document, askers)) > documents.MOST_BYTES:
        middle = len(askers) // 2
        return fitting(document, askers[:middle]) + fitting(document, askers[middle:])
    return [askers]


def rights_of(document):
    """Who may do what in each channel."""
    inside, askers, answers = asks_who_is_inside(document), askers_of(document), {}
    kinds = [[asker for asker in askers if asker.is_stranger == stranger] for stranger in (False, True)]
    size = min(AT_ONCE, max(1, QUESTIONS // len(channels_of(document))))
    parts = [part for kind in kinds for at in range(0, len(kind), size)
             for part in fitting(document, kind[at:at + size])]
    with ThreadPoolExecutor(os.cpu_count()) as pool:
        for part in pool.map(lambda some: asked(document, some, inside), parts):
            answers.update(part)
    return Rights(askers, {place[:2]: bits for place, bits in answers.items() if not place[2]},
                  {place[:2]: bits for place, bits in answers.items() if place[2]})


def asker_labels(askers):
    """Those who ask. Where anybody with an account is among them, accounts of their own go unsaid: all have the same
    that are not said elsewhere."""
    labels = {asker.key: asker.label for asker in askers}
    if ANY_ACCOUNT in labels:
        labels = {key: label for key, label in labels.items() if not key.startswith("account ")}
        labels[ANY_ACCOUNT] = "all other accounts"
    return tuple(labels.values())


def gathered(pairs):
    """Pairs of a thing and a value as values, in the order in which they come first, each with all its things."""
    groups = {}
    for one, value in pairs:
        groups.setdefault(value, []).append(one)
    return groups.items()


# ---- as tables ask

@lru_cache(maxsize=8)
def known(text):
    """A document that a table names, and its rights."""
    document = read_document(named(text))
    return document, rights_of(document)


def named(text):
    """The bytes of a file of `examples`, of a recipe of docs/COMMANDS.md, or of the document that the text itself is."""
    if text.startswith("{"):
        return documents.document_of(text)
    word, _, name = text.partition(" ")
    return recipes.document_of(name) if word == "recipe" else (program.TOP / "examples" / text).read_bytes()


def answer(question):
    """The answer of the table `rights`: `DOCUMENT lets WHO in CHANNEL`, or `.. inside CHANNEL`."""
    text, _, rest = question.partition(" lets ")
    who, word, channel = rest.rsplit(" ", 2)
    _, rights = known(text)
    answers = rights.inside if word == "inside" else rights.at_arrival
    bits = answers.get((int(channel), who))
    return "no answer" if bits is None else mumble.permissions_text(bits)
