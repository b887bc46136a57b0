"""Journals without what nobody else is to read: passwords, access tokens, texts, and what was said.

Every piece that is taken out is replaced by one of the same length, and equal ones by equal ones, so that the audit of
what is left ends as that of the journal does. Names of users and of channels, and who heard whom, stay.
"""
import json
import re

from . import mumble, wire
from .configuration import sha256

DIGITS = "0123456789abcdefghijklmnopqrstuvwxyz"
TEXTS = {
    mumble.TEXT_MESSAGE: ("message",), mumble.USER_REMOVE: ("reason",), mumble.CHANNEL_STATE: ("description",),
    mumble.USER_STATE: ("comment", "texture", "plugin_identity", "plugin_context", "hash", "comment_hash",
                        "texture_hash"),
}
TOKENS = {mumble.AUTHENTICATE: "tokens", mumble.USER_STATE: "temporary_access_tokens"}
TOKEN_OF_GROUP = re.compile(rb"([!~]*#)(.*)", re.DOTALL)
DIGEST_KEYS = ("password_sha256", "server_password_sha256")
NO_DIGEST = "0" * 64


class NotReadable(Exception):
    """A line holds what cannot be read, and so nothing can be taken out of it."""


class Replaced:
    """Pieces and what stands for each: of the same length, and different ones for different pieces."""

    def __init__(self):
        self.found, self.used = {}, {}

    def of(self, piece):
        """What stands for a piece."""
        if piece not in self.found:
            number = self.used.get(len(piece), 0)
            if piece and number >= len(DIGITS) ** len(piece):
                raise NotReadable(f"there are more than {number} different words of {len(piece)} bytes")
            self.used[len(piece)] = number + 1
            self.found[piece] = numeral(number, len(piece))
        return self.found[piece]


def numeral(number, length):
    """A number in as many letters and digits."""
    out = bytearray()
    for _ in range(length):
        number, digit = divmod(number, len(DIGITS))
        out.insert(0, ord(DIGITS[digit]))
    return bytes(out)


# ---- fields of a payload, where they are

def spans_of(payload):
    """The fields of a payload with the places of what they hold: number, wire type, first byte, last byte and one."""
    for number, wire_type, first, behind in wire.spans(payload):
        if behind > len(payload):
            raise NotReadable("a field runs past the end of its message")
        yield number, wire_type, first, behind


def with_blocks_changed(payload, table, change):
    """A payload in which `change` gave each block of a known field, of the same length."""
    out = bytearray(payload)
    for number, wire_type, first, last in spans_of(payload):
        known = table.get(number)
        if known is not None and wire_type == wire.BLOCK:
            block = change(known, payload[first:last])
            assert len(block) == last - first
            out[first:last] = block
    return bytes(out)


# ---- the pieces

class Redaction:
    """A journal as far as it was read, with the words that stand for passwords and for tokens."""

    def __init__(self):
        self.passwords, self.tokens, self.digests = Replaced(), Replaced(), None

    def token(self, word):
        """What stands for a token; upper and lower case make no difference."""
        return self.tokens.of(word.lower())

    def group(self, name):
        """A group's name, with another word where it names a token."""
        named = TOKEN_OF_GROUP.fullmatch(name)
        return named[1] + self.token(named[2]) if named else name

    def block(self, kind, known, block):
        """What stands for the block of a field of a message of this type."""
        if kind == mumble.AUTHENTICATE and known.name == "password":
            return self.passwords.of(block)
        if known.name == TOKENS.get(kind):
            return self.token(block)
        if known.name in TEXTS.get(kind, ()):
            return b"x" * len(block)
        if known.kind == "block":
            return with_blocks_changed(block, known.inside, lambda inner, part: self.group(part)
                                       if inner.name in ("group", "name") else part)
        return block

    def frame(self, digits):
        """A command's frame in hexadecimal digits."""
        frame = bytes.fromhex(digits)
        kind, payload = mumble.split_frame(digits)
        changed = with_blocks_changed(payload, mumble.FIELDS.get(kind, {}),
                                      lambda known, block: self.block(kind, known, block))
        return (frame[:6] + changed).hex()

    def config(self, digits):
        """The configuration in hexadecimal digits; what cannot be read as one is left as it is."""
        try:
            document = json.loads(bytes.fromhex(digits))
        except ValueError:
            return digits
        return json.dumps(self.document(document), ensure_ascii=False, separators=(",", ":")).encode().hex()

    def document(self, value, key=""):
        """A value of the configuration: other digests, other words for tokens, no texts."""
        if isinstance(value, dict):
            return {name: self.document(inner, name) for name, inner in value.items()}
        if isinstance(value, list):
            return [self.document(inner, key) for inner in value]
        if not isinstance(value, str):
            return value
        if key in DIGEST_KEYS:
            return self.digest(value)
        if key == "group":
            return self.group(value.encode()).decode()
        return "x" * len(value.encode()) if key in ("welcome", "description") else value

    def digest(self, given):
        """The digest of what stands for the password that it is of; where nobody gave that, of no password."""
        if self.digests is None:
            self.digests = {sha256(word.decode()): sha256(other.decode()) for word, other in self.passwords.found.items()}
        return self.digests.get(given.lower(), NO_DIGEST)


def without_audio(digits):
    """A voice packet whose audio and position are bytes 0; one that cannot be read is left as it is."""
    packet = bytearray(bytes.fromhex(digits))
    try:
        _, size = mumble.voice_number(packet[1:])
        at = 1 + size
        if packet[0] >> 5 == 4:
            length, size = mumble.voice_number(packet[at:])
            at, end = at + size, at + size + (length & 0x1FFF)
            packet[at:end] = bytes(end - at)
            at = end
        else:
            more = True
            while more:
                head = packet[at]
                packet[at + 1:at + 1 + (head & 0x7F)] = bytes(head & 0x7F)
                at, more = at + 1 + (head & 0x7F), head & 0x80
    except IndexError:
        return digits
    if at > len(packet) or len(packet) != len(digits) // 2:
        return digits
    packet[at:] = bytes(len(packet) - at)
    return packet.hex()


# ---- the lines

def changed_line(redaction, line):
    """A line without what is taken out."""
    match line.split(" "):
        case ["c", connection, version, frame, *verdict] if frame != "leave":
            return " ".join(["c", connection, version, redaction.frame(frame), *verdict])
        case ["v", connection, revision, packet, *copies]:
            return " ".join(["v", connection, revision, without_audio(packet), *copies])
        case ["config", digits] if digits != "-":
            return "config " + redaction.config(digits)
    return line


def redacted(lines):
    """The lines of a journal without what nobody else is to read. Logins come first: the configuration's digests are
    of passwords that they give."""
    redaction, out = Redaction(), []
    for number, line in enumerate(lines, 1):
        try:
            out.append(line if line.startswith("config ") else changed_line(redaction, line))
        except (NotReadable, ValueError, IndexError) as error:
            raise NotReadable(f"line {number}: {error}") from error
    return [changed_line(redaction, line) if line.startswith("config ") else line for line in out]
