"""Why a value of a configuration is refused: which of the causes of a fault's number it is, and what was probably meant.

The program decides what is refused. What a kind, a range or a limit is stands in examples/murmur.schema.json, once.
"""
import difflib
import json
import re

from . import mumble, program

STEP = re.compile(r"([a-z0-9_]+)|\[(\d+)\]")
ZERO = {"integer": "a number", "string": "a text", "boolean": "true or false", "array": "a list", "object": "an object"}
MOST_BYTES, MOST_LINKS, MOST_LEVELS, MOST_CHANNELS = 65_536, 64, 32, 1_024
# keys whose values are numbers of accounts or of channels
NAMED = {"account": "accounts", "add": "accounts", "remove": "accounts", "parent": "channels"}


# ---- the document and its schema

class Place:
    """A key of a document: its value, what holds it, and the keys that lead there."""

    def __init__(self, document, key):
        self.document, self.key = document, key
        self.steps = [int(index) if index else name for name, index in STEP.findall(key)]
        self.holder, self.value, self.is_there = None, document, True
        for step in self.steps:
            self.holder, self.value = self.value, None
            self.is_there = self.is_there and has(self.holder, step)
            if self.is_there:
                self.value = self.holder[step]

    def outer(self, times=1):
        """The key that holds this one, or holds what holds it."""
        return Place(self.document, key_of(self.steps[:-times]))

    @property
    def name(self):
        """The last name among the keys that lead there."""
        return next((step for step in reversed(self.steps) if isinstance(step, str)), "document")


def has(holder, step):
    """Whether a value has a key, or an element at a place."""
    if isinstance(step, str):
        return isinstance(holder, dict) and step in holder
    return isinstance(holder, list) and step < len(holder)


def key_of(steps):
    """`channels[1].name` of its steps."""
    return "".join(f"[{step}]" if isinstance(step, int) else f".{step}" for step in steps).lstrip(".")


def schema():
    """The schema of configurations."""
    return json.loads((program.TOP / "examples/murmur.schema.json").read_text(encoding="utf-8"))


def rule_of(place):
    """What the schema says of a key; nothing where it knows none."""
    whole = schema()
    rule = whole
    for step in place.steps:
        rule = rule.get("items", {}) if isinstance(step, int) else rule.get("properties", {}).get(step, {})
        if "$ref" in rule:
            rule = {**whole["$defs"][rule["$ref"].rpartition("/")[2]], **{key: rule[key] for key in rule if key != "$ref"}}
    return rule


# ---- words

def counted(number):
    """`1,024`"""
    return f"{number:,}"


def kind_of(value):
    """What a value is, in words."""
    if value is None:
        return "null"
    if isinstance(value, bool):
        return "true" if value else "false"
    if isinstance(value, float):
        return f"the number {value}"
    kinds = ((int, "number"), (str, "text"), (list, "list"), (dict, "object"))
    word = next(word for kind, word in kinds if isinstance(value, kind))
    return f"{'an' if word == 'object' else 'a'} {word}"


def listed(words):
    """`a, b and c`"""
    words = list(words)
    return " and ".join([", ".join(words[:-1]), words[-1]] if len(words) > 1 else words)


def bytes_in(text):
    """How many bytes a text has as UTF-8."""
    return len(text.encode("utf-8", "surrogatepass"))


# ---- the causes, one function for each number of a fault

def unknown_key(place):
    """62: no object of this kind has the key."""
    if place.steps[-1] in ("name", "parent") and place.holder.get("id") == 0:
        return "the entry with the number 0 is the root, which has no name and no parent here"
    known = list(rule_of(place.outer()).get("properties", {}))
    folded = {name.replace("_", ""): name for name in known}
    near = difflib.get_close_matches(str(place.steps[-1]).lower().replace("_", "").replace("-", ""), folded, 1, 0.7)
    meant = f"did you mean \"{folded[near[0]]}\"" if near else f"there are {listed(known)}"
    return f"there is no such key; {meant}" + ("?" if near else "")


def wrong_kind(place):
    """63: the key is missing, or its value is of another kind."""
    if not place.is_there:
        if place.name in ("account", "group") and isinstance(place.outer().value, dict):
            return "an entry names an account or a group, and this one names neither"
        return "this key is missing"
    rule = rule_of(place)
    wanted = ZERO.get(rule.get("type"), "another kind of value")
    if wanted == ZERO["array"] and rule.get("maxItems") == 2:
        return f"this must be a pair of channel numbers, and is {kind_of_pair(place.value)}"
    if isinstance(place.value, int) and not isinstance(place.value, bool) and wanted == ZERO["integer"]:
        return "this number is no integer of 64 bits"
    return f"this must be {wanted}, and is {kind_of(place.value)}" + meant_number(place)


def kind_of_pair(value):
    """What a value that should be a pair is."""
    return f"a list of {len(value)}" if isinstance(value, list) else kind_of(value)


def meant_number(place):
    """The number that a text, a fraction or a list of names probably means."""
    value = place.value
    if isinstance(value, float):
        return f"; write {int(value)}" if value == int(value) else "; numbers have no fraction"
    if isinstance(value, str) and (place.name in NAMED or place.key.startswith("links")):
        return number_of_name(place)
    if place.name in ("grant", "deny"):
        names = value if isinstance(value, list) else re.split(r"[\s,|+]+", value) if isinstance(value, str) else []
        return sum_of(names)
    if isinstance(value, str) and re.fullmatch(r"-?\d+", value):
        return f"; write {int(value)} without quotation marks"
    if isinstance(value, str) and value.lower() in ("true", "false", "yes", "no"):
        return f"; write {'true' if value.lower() in ('true', 'yes') else 'false'} without quotation marks"
    return ""


def number_of_name(place):
    """The number of the account or of the channel that a name probably means."""
    kind = NAMED.get(place.name, "channels")
    found = [one["id"] for one in place.document.get(kind, [])
             if isinstance(one, dict) and one.get("name") == place.value and "id" in one]
    words = f"; {kind} are named by their numbers"
    return f"{words}, and {json.dumps(place.value, ensure_ascii=False)} is {found[0]}" if found else words


def sum_of(names):
    """The sum of permissions that are given by their names."""
    by_name = {name.lower(): (name, bit) for name, bit in mumble.PERMISSIONS.items()}
    found = [by_name.get(str(name).lower()) for name in names]
    unknown = next((str(name) for name, one in zip(names, found) if one is None), None)
    near = difflib.get_close_matches((unknown or "").lower(), by_name, 1, 0.7)
    if near:
        return f"; no permission is named {unknown}: did you mean {by_name[near[0]][0]}, which is {by_name[near[0]][1]}?"
    if not found or unknown is not None:
        return "; it is the sum of the numbers of permissions"
    return f"; the sum of {listed(name for name, _ in found)} is {sum(bit for _, bit in dict(found).items())}"


def out_of_range(place):
    """64: a number is out of its range, or numbers of channels do not rise."""
    value, rule = place.value, rule_of(place)
    least, most = rule.get("minimum"), rule.get("maximum")
    if least is not None and not least <= value <= most:
        words = f"this must be {counted(least)} to {counted(most)}, and is {counted(value)}"
        return words + (meant_sum(value) if place.name in ("grant", "deny") else "")
    at = place.steps[1]
    before = place.document["channels"][at - 1]["id"]
    return f"numbers of channels rise, and {value} comes behind the {before} of channels[{at - 1}]"


def meant_sum(value):
    """The permissions of a sum in which there are bits that no permission has."""
    if value < 0:
        return "; what is taken away is the sum of `deny`"
    kept = value & mumble.ALL
    names = listed(mumble.permission_names(kept)) or "nothing"
    return f"; without the bits that are no permission it is {kept}, {names}"


def wrong_name(place):
    """65: which rule of names is broken."""
    name = place.value
    if not name:
        return "this name is empty"
    if bytes_in(name) > 128:
        return f"this name has {bytes_in(name)} bytes, and may have 128"
    control = next((at for at, letter in enumerate(name) if ord(letter) < 32 or ord(letter) == 127), None)
    if control is not None:
        return f"character {control + 1} of this name is the control character U+{ord(name[control]):04X}"
    return f"this name {'begins' if name[0] == ' ' else 'ends'} with a space"


def wrong_digest(place):
    """66: what of the digest is wrong."""
    digest = place.value
    other = next((letter for letter in digest if letter not in "0123456789abcdefABCDEF"), None)
    if other is not None and len(digest) != 64:
        return "this is no SHA-256 in 64 hexadecimal digits, and looks like a password: relay/password writes its digest"
    if other is not None:
        return f"{json.dumps(other, ensure_ascii=False)} is no hexadecimal digit"
    return f"this has {len(digest)} hexadecimal digits, and must have 64"


def taken(place):
    """67: where the number or the name stands already."""
    at, key = place.steps[-2], place.steps[-1]
    for before, one in enumerate(place.outer(2).value[:at]):
        siblings = place.steps[0] != "channels" or len(place.steps) > 3 or one.get("parent") == place.holder.get("parent")
        if one.get(key) == place.value and siblings and not (key == "name" and one.get("id") == 0 and len(place.steps) == 3):
            other = key_of([*place.steps[:-2], before, key])
            return f"{json.dumps(place.value, ensure_ascii=False)} is already that of {other}"
    return "this is taken already"


def no_channel(place):
    """68: the channel is not there, or comes later."""
    channels = place.document.get("channels", [])
    later = next((at for at, one in enumerate(channels) if one.get("id") == place.value), None)
    if later is None:
        return f"no channel has the number {place.value}"
    if later == place.steps[1]:
        return "a channel is not under itself"
    return f"channel {place.value} comes later, at channels[{later}], and a parent comes before those in it"


def too_much(place):
    """69: what there is too much of, and how much there may be."""
    value, rule = place.value, rule_of(place)
    if place.key == "channels" and isinstance(value, list):
        root = 0 if any(one.get("id") == 0 for one in value if isinstance(one, dict)) else 1
        return f"these are {counted(len(value) + root)} channels with the root, and may be {counted(MOST_CHANNELS)}"
    if isinstance(value, list) and "maxItems" in rule and len(value) > rule["maxItems"]:
        return f"these are {counted(len(value))}, and may be {counted(rule['maxItems'])}"
    if isinstance(value, str) and "maxLength" in rule:
        return f"this text has {counted(bytes_in(value))} bytes, and may have {counted(rule['maxLength'])}"
    if place.name == "parent":
        return f"this channel is {MOST_LEVELS + 1} levels below the root, and may be {MOST_LEVELS}"
    return f"a channel of this link has {MOST_LINKS} links already"


CAUSES = {"62": unknown_key, "63": wrong_kind, "64": out_of_range, "65": wrong_name, "66": wrong_digest, "67": taken,
          "68": no_channel, "69": too_much}


def cause_of(number, key, text):
    """What is wrong at a key, in words, or nothing where that cannot be told from the document."""
    if number == "69" and key == "document":
        return f"this has {counted(len(text))} bytes, and may have {counted(MOST_BYTES)}"
    try:
        document = json.loads(text or b"{}")
        if number == "61":
            return f"a configuration is an object, and this is {kind_of(document)}"
        return CAUSES[number](Place(document, key)) if number in CAUSES else ""
    except (ValueError, RecursionError, LookupError, TypeError, AttributeError):
        return ""
