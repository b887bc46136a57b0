"""Groups and access control lists, as tables spell them: parts that are separated by `,`."""
from .mumble import ALL, permission_bit, permission_names
from .table import NoCase
from .words import number, repeated, text_of

PLACES = {"here": (True, False), "below": (False, True), "nowhere": (False, False)}
SHORT = 40


def group_of(text):
    """`NAME adds 5 6 removes 7 not-inheriting not-inheritable`"""
    name, _, rest = text.partition(" ")
    group = {"name": text_of(name), "inherit": True, "inheritable": True, "add": [], "remove": []}
    key = "add"
    for word in rest.split():
        if word in ("adds", "removes"):
            key = word.removesuffix("s")
        elif word == "not-inheriting":
            group["inherit"] = False
        elif word == "not-inheritable":
            group["inheritable"] = False
        else:
            times, account = repeated(word)
            group[key] += [number(account)] * times
    return group


def entry_of(text):
    """`WHOM here +Enter -Speak`, where WHOM is `account 7` or a group."""
    words = text.split(" ")
    entry = {"apply_here": True, "apply_subs": True, "grant": 0, "deny": 0}
    if words[0] == "account":
        entry["user_id"] = number(words[1])
        words = words[2:]
    else:
        entry["group"] = text_of(words.pop(0))
    for word in words:
        if word[:1] in ("+", "-"):
            entry["grant" if word[0] == "+" else "deny"] |= permission_bit(word[1:])
        elif word in PLACES:
            entry["apply_here"], entry["apply_subs"] = PLACES[word]
        elif word:
            raise NoCase(f"no word of an entry: {word}")
    return entry


def parts_of(text):
    """The parts of a policy; `64 of PART` is that many."""
    for part in text.split(","):
        part = part.strip()
        if not part:
            continue
        times, of, one = part.partition(" of ")
        yield from [one] * number(times) if of else [part]


def unless(value, plain, whole):
    """A value that goes unsaid where it is the plain one, unless all is said."""
    return None if value == plain and not whole else value


def strip_words(part):
    """What a part says beside a group or an entry (is it inherited, is all said, another group), and the rest."""
    inherited = None
    if part.startswith("above "):
        inherited, part = True, part.removeprefix("above ")
    elif part.startswith("own "):
        inherited, part = False, part.removeprefix("own ")
    whole = part.startswith("whole ")
    part, _, alias = part.removeprefix("whole ").partition(" as ")
    return part, inherited, whole, alias or None


def group_block(text, inherited, whole):
    """A group as a message says it."""
    group = group_of(text)
    return {**group, "inherited": inherited, "inherit": unless(group["inherit"], True, whole),
            "inheritable": unless(group["inheritable"], True, whole)}


def entry_block(text, inherited, whole, alias):
    """An entry as a message says it."""
    entry = entry_of(text)
    return {**entry, "inherited": inherited, "apply_here": unless(entry["apply_here"], True, whole),
            "apply_subs": unless(entry["apply_subs"], True, whole), "grant": unless(entry["grant"], 0, whole),
            "deny": unless(entry["deny"], 0, whole), "group": text_of(alias) or entry.get("group")}


def acl_message(text):
    """The fields of an ACL message that sets a policy: `not-inheriting` and `inheriting` speak of the channel, `unread`
    says that this is no query; a part behind `above` is inherited, one behind `own` is not."""
    message = {"groups": [], "acls": []}
    for part in parts_of(text):
        if part in ("not-inheriting", "inheriting"):
            message["inherit_acls"] = part == "inheriting"
        elif part == "unread":
            message["query"] = False
        else:
            add_part(message, part)
    return message


def add_part(message, part):
    """Adds a group or an entry to an ACL message."""
    part, inherited, whole, alias = strip_words(part)
    if part.startswith("group "):
        message["groups"].append(group_block(part.removeprefix("group "), inherited, whole))
    else:
        message["acls"].append(entry_block(part, inherited, whole, alias))


# ---- as a configuration has it, and as an answer tells it

def document_of(text):
    """The keys of a channel in a configuration that set a policy."""
    keys = {"groups": [], "acls": []}
    for part in parts_of(text):
        if part == "not-inheriting":
            keys["inherit_acls"] = False
        elif part.startswith("group "):
            keys["groups"].append(group_of(part.removeprefix("group ")))
        else:
            keys["acls"].append(document_entry(entry_of(part)))
    return keys


def document_entry(entry):
    """An entry as a configuration has it."""
    whom = {"account": entry["user_id"]} if "user_id" in entry else {"group": entry["group"]}
    return {**whom, "here": entry["apply_here"], "subs": entry["apply_subs"], "grant": entry["grant"] & ALL,
            "deny": entry["deny"] & ALL}


def shown(text):
    """A text, or how long it is where it is long."""
    length = len(text.encode())
    return f"of {length} bytes" if length > SHORT else text


def accounts_text(key, accounts):
    """` adds 5 6`, or only how many there are of many."""
    if len(accounts) > 8:
        return f" {key} {len(accounts)} accounts"
    return f" {key} " + " ".join(map(str, accounts)) if accounts else ""


def group_text(group):
    """A group as tables spell it."""
    return ("group " + shown(group["name"]) + accounts_text("adds", group.get("add", []))
            + accounts_text("removes", group.get("remove", []))
            + ("" if group.get("inherit", True) else " not-inheriting")
            + ("" if group.get("inheritable", True) else " not-inheritable"))


def entry_text(entry):
    """An entry as tables spell it."""
    whom = f"account {entry['user_id']}" if "user_id" in entry else shown(entry.get("group", ""))
    place = {(True, True): "", (True, False): " here", (False, True): " below", (False, False): " nowhere"}
    text = whom + place[entry.get("apply_here", True), entry.get("apply_subs", True)]
    for mark, key in (("+", "grant"), ("-", "deny")):
        text += "".join(f" {mark}{name}" for name in permission_names(entry.get(key, 0)))
    return text


def policy_text(answer):
    """The policy that an ACL message tells: `not-inheriting`, groups and entries; how many there are of many."""
    groups, entries = answer.get("groups", []), answer.get("acls", [])
    words = [] if answer.get("inherit_acls", True) else ["not-inheriting"]
    if len(groups) > 4 or len(entries) > 4:
        return ", ".join(words + [f"{len(groups)} groups", f"{len(entries)} entries"])
    return ", ".join(words + [group_text(group) for group in groups] + [entry_text(entry) for entry in entries])
