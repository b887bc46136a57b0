"""Words of a question: its parts, numbers, texts, and lists of them."""
from .table import NoCase


def word_of(text):
    """The first word, and the rest."""
    word, _, rest = text.partition(" ")
    return word, rest


def head_of(text):
    """What stands before the first `, `, and the parts behind it."""
    head, _, parts = text.partition(", ")
    return head, parts


def part(parts, key):
    """What stands behind a key among parts that are separated by `, `, or None."""
    for one in parts.split(", "):
        word, rest = word_of(one)
        if word == key:
            return rest
    return None


def has(parts, key):
    """Whether a key is among the parts."""
    return part(parts, key) is not None


def number(word):
    """The number that a word spells."""
    try:
        return int(word)
    except (TypeError, ValueError):
        raise NoCase(f"no number: {word}") from None


def given_number(word):
    """The number that a word spells, or None where there is none."""
    return None if word is None else number(word)


def numbers(words):
    """`4 5 100..131`: numbers, and ranges with both their ends."""
    found = []
    for word in (words or "").split():
        first, dots, last = word.partition("..")
        found += range(number(first), number(last) + 1) if dots else [number(first)]
    return found


def repeated(text):
    """How often, and what: `16*..`, or once."""
    times, star, rest = text.partition("*")
    return (int(times), rest) if star and times.isdecimal() else (1, text)


def text_of(words):
    """`hello`, or `128*g` for that many of it; None where there is none."""
    if words is None:
        return None
    times, unit = repeated(words)
    return unit * times


def texts(words):
    """`key word`, or `64 of key` for that many of one."""
    count, of, word = (words or "").partition(" of ")
    if of:
        return [text_of(word)] * number(count)
    return [text_of(word) for word in (words or "").split()]


def pieces_of_texts(words):
    """The same, in pieces that are separated by `/`."""
    return [text for piece in (words or "").split("/") for text in texts(piece.strip())]


def said(word):
    """A word, or None where it is `-` or empty."""
    return None if word in ("", "-") else word


def yes_or_no(word):
    """A part that says yes, unless it says `no`; None where it goes unsaid."""
    return None if word is None else word != "no"


def bytes_of(spelled):
    """Two hexadecimal digits a byte, `N*HH` for N times some bytes, pieces joined by `+`, `-` for no bytes."""
    if spelled == "-":
        return b""
    out = bytearray()
    for piece in spelled.split("+"):
        times, digits = repeated(piece)
        out += bytes.fromhex(digits) * times
    return bytes(out)


def calls_of(line):
    """The calls of a line, which `; ` separates; `N times CALL and CALL` is that many, with their number for `%`."""
    calls = []
    for text in line.split("; "):
        times, found, each = text.partition(" times ")
        if not found:
            calls.append(text)
            continue
        for time in range(1, number(times) + 1):
            calls += [call.replace("%", str(time)) for call in each.split(" and ")]
    return calls
