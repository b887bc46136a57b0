"""The rows of the tables: those who may do the same in a channel are one row."""
import json
from dataclasses import dataclass

from reader import mumble
from reader.rights import asker_labels, channels_of, gathered, path_text

SHORT = {
    "Write": "Wr", "Traverse": "Tr", "Enter": "En", "Speak": "Sp", "MuteDeafen": "Mu", "Move": "Mo",
    "MakeChannel": "Mk", "LinkChannel": "Ln", "Whisper": "Wh", "TextMessage": "Tx", "MakeTempChannel": "Tm",
    "Listen": "Li", "Kick": "Ki", "Ban": "Ba", "Register": "Re", "SelfRegister": "Se", "ResetUserContent": "Rc",
}


@dataclass(frozen=True)
class Row:
    """Permissions, those who have them, and whether that is so only once they are inside."""
    bits: int
    labels: tuple
    inside: bool

    @property
    def who(self):
        """Those who have them, as a text."""
        return ", ".join(self.labels)


@dataclass(frozen=True)
class Channel:
    """A channel with its number, its path and its rows."""
    number: int
    path: str
    rows: list


def rows_of(answers, number):
    """The rows of a channel: as those who ask arrive, and then what is different once they are inside."""
    arrival = [(asker, answers.at_arrival[number, asker.key]) for asker in answers.askers]
    rows = [Row(bits, asker_labels(who), False) for bits, who in gathered(arrival)]
    entered = [(asker, answers.inside[number, asker.key]) for asker, bits in arrival
               if answers.inside.get((number, asker.key), bits) != bits]
    return rows + [Row(bits, tuple(asker.label for asker in who), True) for bits, who in gathered(entered)]


def table_of(document, answers):
    """The channels of a document with their rows."""
    return [Channel(number, path_text(document, number), rows_of(answers, number)) for number in channels_of(document)]


def columns_of(channel):
    """The permissions that the rows of a channel have a column for: those of the root alone only where one has them."""
    shown = ~mumble.ROOT_ONLY
    for row in channel.rows:
        shown |= row.bits & mumble.ROOT_ONLY and mumble.ROOT_ONLY
    return [name for name in mumble.PERMISSIONS if mumble.PERMISSIONS[name] & shown]


# ---- as text

def legend():
    """What the columns are short for."""
    names = [f"{short} {name}" for name, short in SHORT.items()]
    return [", ".join(names[:9]) + ",", ", ".join(names[9:])]


def marks(bits, names):
    """`Wr -- En`: the permissions of a row, in columns."""
    return " ".join(SHORT[name] if bits & mumble.PERMISSIONS[name] else "--" for name in names)


def channel_lines(channel):
    """A channel as text."""
    names = columns_of(channel)
    yield f"{channel.number} {channel.path}"
    for row in channel.rows:
        yield f"  {marks(row.bits, names)}  {'inside: ' if row.inside else ''}{row.who}"


def text_of(channels, suspicious):
    """The table as text, and what is suspicious after it."""
    lines = legend()
    for channel in channels:
        lines += ["", *channel_lines(channel)]
    lines += ["", "Suspicious:" if suspicious else "Nothing is suspicious."]
    return "\n".join(lines + [f"  {line}" for line in suspicious])


# ---- as JSON

def row_object(row):
    """A row with the names of its permissions."""
    return {"who": row.labels, "inside": row.inside, "permissions": mumble.permission_names(row.bits)}


def json_of(channels, suspicious):
    """The table as one JSON object, and what is suspicious with it."""
    rows = [{"id": channel.number, "path": channel.path, "rows": [row_object(row) for row in channel.rows]}
            for channel in channels]
    return json.dumps({"channels": rows, "suspicious": suspicious}, ensure_ascii=False, indent=1)
