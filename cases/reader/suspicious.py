"""What is suspicious in a configuration: it is accepted, and probably not what was meant."""
import unicodedata

from . import mumble, rights

SHOWN = 12
# letters and digits that look alike in many fonts, as one of them
ALIKE = str.maketrans("01lI|5", "ooiiis")


def findings(document, answers):
    """What is suspicious in a document and in the answers to those who asked, a line each."""
    return [*repeated_keys(document, ""), *strange_groups(document), *strange_accounts(document),
            *similar_names(document), *unmanaged(document, answers), *cut_off(document, answers),
            *idle_entries(document, answers), *overheard(document, answers)]


# ---- the document alone

def repeated_keys(value, key):
    """The keys that an object gives more than once, of all objects."""
    if isinstance(value, rights.Repeating):
        for name in value.repeated:
            yield f"{joined(key, name)}: is given more than once, and only the last one counts"
        for name, inner in value.items():
            yield from repeated_keys(inner, joined(key, name))
    elif isinstance(value, list):
        for place, inner in enumerate(value):
            yield from repeated_keys(inner, f"{key}[{place}]")


def joined(key, name):
    """The key of a key of an object."""
    return f"{key}.{name}" if key else name


def strange_groups(document):
    """Entries for groups that the document does not define, those with the `@` of other servers among them."""
    lines, defined = [], rights.groups_of(document)
    for _, place, entry in rights.entries_of(document):
        name = "all" if "account" in entry else rights.asked_name(entry["group"])
        if name.startswith("@"):
            lines.append(f'{place}.group: "{entry["group"]}" is written "{entry["group"].replace("@", "", 1)}" here')
        elif not name.startswith(("#", "$", "sub,")) and name not in rights.BUILT_IN and name not in defined:
            lines.append(f'{place}.group: no channel defines the group "{name}"')
    return lines


def strange_accounts(document):
    """Places that name an account which the document does not have."""
    accounts = {account["id"] for account in document.get("accounts", [])}
    return [f"{place}: no account has the number {number}" for place, number in rights.named_accounts(document)
            if number not in accounts]


def looks_like(name):
    """A name without what the eye passes over: case, accents of other forms, spaces, and letters that look alike."""
    folded = "".join(unicodedata.normalize("NFKC", name).split())
    return folded.translate(ALIKE).casefold()


def similar_names(document):
    """Accounts, and channels beside each other, whose names differ and look alike."""
    named = [("accounts", None, one["name"]) for one in document.get("accounts", [])]
    named += [("channels", one["parent"], one["name"]) for one in document.get("channels", []) if one["id"] != 0]
    lines, seen, places = [], {}, {"accounts": 0, "channels": 0}
    offset = {"accounts": [at for at, _ in enumerate(document.get("accounts", []))],
              "channels": [at for at, one in enumerate(document.get("channels", [])) if one["id"] != 0]}
    for kind, parent, name in named:
        place = f"{kind}[{offset[kind][places[kind]]}].name"
        places[kind] += 1
        before = seen.setdefault((kind, parent, looks_like(name)), (place, name))
        if before[1] != name:
            lines.append(f'{place}: "{name}" looks like "{before[1]}" of {before[0]}')
    return lines


# ---- the document and the answers

def subject_of(entry):
    """The key of who asks for an entry, or None where an entry is for those that a prefix, a place or the like says."""
    if "account" in entry:
        return f"account {entry['account']}"
    name = entry["group"].removeprefix("~")
    if name.startswith("!"):
        return None
    if name.startswith("#"):
        return f"token {name}"
    return {"all": rights.GUESTS, "auth": rights.ANY_ACCOUNT}.get(name, f"group {name}")


def is_below(channels, number, top):
    """Whether a channel is below another."""
    while number != 0:
        number = channels[number]["parent"]
        if number == top:
            return True
    return False


def reach_of(document, channel, entry):
    """The channels to which an entry applies, as far as nothing stops it there."""
    channels = rights.channels_of(document)
    here = [channel] if entry.get("here", True) else []
    below = [number for number in channels if is_below(channels, number, channel)] if entry.get("subs", True) else []
    return here + below


def idle_entries(document, answers):
    """Entries that reach no channel, and permissions that an entry grants and nobody has by it, wherever it applies."""
    lines, asked = [], {asker.key for asker in answers.askers}
    for channel, place, entry in rights.entries_of(document):
        reach, subject, granted = reach_of(document, channel, entry), subject_of(entry), entry.get("grant", 0)
        if not reach:
            lines.append(f"{place}: applies to no channel")
        elif subject in asked:
            had = 0
            for number in reach:
                had |= answers.at_arrival[number, subject] | answers.inside.get((number, subject), 0)
            idle = mumble.permission_names(granted & ~had)
            if idle:
                lines.append(f"{place}.grant: gives {subject} no {' and no '.join(idle)} anywhere")
    return lines


def unmanaged(document, answers):
    """Where there are accounts: that nobody who asked may change the root, and so nobody can administer the server."""
    write = mumble.PERMISSIONS["Write"]
    if document.get("accounts") and not any(answers.at_arrival[0, asker.key] & write for asker in answers.askers):
        yield "accounts: none is SuperUser (id 0) or has Write in the root, so that nobody can administer the server"


def cut_off(document, answers):
    """That those without an entry of their own may not even pass the root."""
    if all(not answers.at_arrival[0, key] & mumble.PERMISSIONS["Traverse"] for key in (rights.GUESTS, rights.ANY_ACCOUNT)):
        yield "channel 0, the root: guests and any account lack Traverse there, and with it every right in every channel"


def overheard(document, answers):
    """Channels to which somebody may listen who may not enter them."""
    lines, enter = [], mumble.PERMISSIONS["Enter"] | mumble.PERMISSIONS["Move"]
    for channel in rights.channels_of(document):
        who = [asker for asker in answers.askers
               if answers.at_arrival[channel, asker.key] & (enter | mumble.PERMISSIONS["Listen"])
               == mumble.PERMISSIONS["Listen"]]
        if who:
            path = rights.path_text(document, channel)
            lines.append(f"channel {channel}, {path}: may be listened to, and not entered, by "
                         + some_text(who))
    return lines


def some_text(askers):
    """The first of those who ask, and how many more there are."""
    labels = [asker.label for asker in askers]
    more = len(labels) - SHOWN
    return ", ".join(labels[:SHOWN]) + (f" and {more} more" if more > 0 else "")


def answer(question):
    """The answer of the table `suspicious`: what is, or `nothing`."""
    return " | ".join(findings(*rights.known(question))) or "nothing"
