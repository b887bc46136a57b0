"""What is wrong with a configuration, in words, or what is suspicious in it."""
import json

from . import causes, documents, rights, suspicious

MEANINGS = {
    "60": "this is no JSON, is nested deeper than 127, or is not UTF-8",
    "61": "this is no object",
    "62": "there is no such key",
    "63": "this is another kind of value, a number that is no integer of 64 bits, or a key that is missing",
    "64": "the number is out of its range, or not above that of the channel before",
    "65": "this is no name: 1 to 128 bytes, no control characters, no space at either end",
    "66": "this is not 64 hexadecimal digits",
    "67": "another account has the number or the name, another channel of the same parent the name, or another group",
    "68": "there is no such channel before it",
    "69": "this is too long, too many or too deep",
}
MARK = b"\xef\xbb\xbf"


class NoNumber(Exception):
    """What Python takes for a number, and JSON does not."""


def no_number(word):
    raise NoNumber(f"{word} is no number")


def finite(word):
    """A number with a fraction or an exponent."""
    if abs(float(word)) == float("inf"):
        raise NoNumber(f"the number {word} is too great")
    return float(word)


def place_in(text):
    """Where a text is no JSON, or what in it is none, as far as Python knows; else nothing."""
    if text.startswith(MARK):
        return "it begins with a byte order mark: save it without one"
    try:
        document = json.loads(text.decode(), parse_float=finite, parse_constant=no_number)
        json.dumps(document, ensure_ascii=False).encode()
    except json.JSONDecodeError as error:
        return f"line {error.lineno}, column {error.colno}: {error.msg}"
    except UnicodeDecodeError as error:
        return f"byte {error.start + 1} is not UTF-8"
    except UnicodeEncodeError as error:
        return f"\\u{ord(error.object[error.start]):04x} is half of a character"
    except NoNumber as error:
        return str(error)
    except RecursionError:
        pass
    return ""


def explained(fault, text):
    """`channels[1].name: what that means (67)`"""
    number, _, key = fault.partition(" ")
    words = f"{key}: {causes.cause_of(number, key, text) or MEANINGS.get(number, 'a fault')} ({number})"
    place = place_in(text) if number == "60" else ""
    return f"{words}. {place}" if place else words


def check(text):
    """Whether a document is accepted, and what is said of it: its first fault, or what is suspicious."""
    fault = documents.fault_of(text)
    if fault:
        return False, [explained(fault, text)]
    document = rights.read_document(text)
    return True, suspicious.findings(document, rights.rights_of(document))


def answer(question):
    """The answer of the table `checks`: what is said of a document that a line writes."""
    accepted, lines = check(documents.document_of(question))
    return " | ".join(["accepted" if accepted else "refused", *lines])
