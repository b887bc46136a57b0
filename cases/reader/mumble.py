"""Messages of the Mumble protocol by the names of their fields and numbers (Mumble.proto 1.4)."""
import unicodedata
from dataclasses import dataclass, field

from . import wire

VERSION, VOICE, AUTHENTICATE, PING, REJECT, SERVER_SYNC = 0, 1, 2, 3, 4, 5
CHANNEL_REMOVE, CHANNEL_STATE, USER_REMOVE, USER_STATE = 6, 7, 8, 9
TEXT_MESSAGE, PERMISSION_DENIED, ACL, CRYPT_SETUP = 11, 12, 13, 15
VOICE_TARGET, PERMISSION_QUERY, CODEC_VERSION = 19, 20, 21

# the permission bits of the Murmur manual, ACL
PERMISSIONS = {
    "Write": 0x1, "Traverse": 0x2, "Enter": 0x4, "Speak": 0x8, "MuteDeafen": 0x10, "Move": 0x20,
    "MakeChannel": 0x40, "LinkChannel": 0x80, "Whisper": 0x100, "TextMessage": 0x200, "MakeTempChannel": 0x400,
    "Listen": 0x800, "Kick": 0x10000, "Ban": 0x20000, "Register": 0x40000, "SelfRegister": 0x80000,
    "ResetUserContent": 0x100000,
}
PERMISSION_OF_BIT = {bit: name for name, bit in PERMISSIONS.items()}

DENIALS = {0: "Text", 1: "Permission", 2: "SuperUser", 3: "ChannelName", 4: "TextTooLong", 5: "H9K",
           6: "TemporaryChannel", 7: "MissingCertificate", 8: "UserName", 9: "ChannelFull", 10: "NestingLimit",
           11: "ChannelCountLimit", 12: "ChannelListenerLimit", 13: "UserListenerLimit"}
REJECTIONS = {0: "None", 1: "WrongVersion", 2: "InvalidUsername", 3: "WrongUserPW", 4: "WrongServerPW",
              5: "UsernameInUse", 6: "ServerFull", 7: "NoCertificate", 8: "AuthenticatorFail"}
CONTEXTS = ("talk", "a whisper to its channel", "a whisper to it", "listening")


@dataclass(frozen=True)
class Field:
    """A field of a message: its name, its kind, whether it may come several times, and the fields in a block."""
    name: str
    kind: str
    many: bool = False
    inside: dict = field(default_factory=dict)


def fields_of(**named):
    """The fields of a message by their numbers. Each is spelled `NUMBER KIND`, with a `*` where it repeats."""
    table = {}
    for name, spelled in named.items():
        number, kind = spelled.rstrip("*").split(" ")
        table[int(number)] = Field(name, kind, spelled.endswith("*"))
    return table


def with_blocks(table, **blocks):
    """The same fields, and blocks of messages: each is a number and the fields inside."""
    for name, (number, inside) in blocks.items():
        table[number] = Field(name, "block", True, inside)
    return table


ACL_GROUP = fields_of(name="1 text", inherited="2 flag", inherit="3 flag", inheritable="4 flag", add="5 number*",
                      remove="6 number*", inherited_members="7 number*")
ACL_ENTRY = fields_of(apply_here="1 flag", apply_subs="2 flag", inherited="3 flag", user_id="4 number",
                      group="5 text", grant="6 number", deny="7 number")
TARGET_ITEM = fields_of(session="1 number*", channel_id="2 number", group="3 text", links="4 flag",
                        children="5 flag")

FIELDS = {
    VERSION: fields_of(version="1 number", release="2 text", os="3 text", os_version="4 text"),
    AUTHENTICATE: fields_of(username="1 text", password="2 text", tokens="3 text*", celt_versions="4 signed*",
                     opus="5 flag"),
    PING: fields_of(timestamp="1 number", good="2 number", late="3 number", lost="4 number", resync="5 number",
                    udp_packets="6 number", tcp_packets="7 number"),
    REJECT: fields_of(type="1 number", reason="2 text"),
    SERVER_SYNC: fields_of(session="1 number", max_bandwidth="2 number", welcome_text="3 text", permissions="4 number"),
    CHANNEL_REMOVE: fields_of(channel_id="1 number"),
    CHANNEL_STATE: fields_of(channel_id="1 number", parent="2 number", name="3 text", links="4 number*",
                             description="5 text", links_add="6 number*", links_remove="7 number*",
                             temporary="8 flag", position="9 signed", description_hash="10 bytes",
                             max_users="11 number"),
    USER_REMOVE: fields_of(session="1 number", actor="2 number", reason="3 text", ban="4 flag"),
    USER_STATE: fields_of(session="1 number", actor="2 number", name="3 text", user_id="4 number",
                          channel_id="5 number", mute="6 flag", deaf="7 flag", suppress="8 flag",
                          self_mute="9 flag", self_deaf="10 flag", texture="11 bytes", plugin_context="12 bytes",
                          plugin_identity="13 text", comment="14 text", hash="15 text", comment_hash="16 bytes",
                          texture_hash="17 bytes", priority_speaker="18 flag", recording="19 flag",
                          temporary_access_tokens="20 text*", listening_channel_add="21 number*",
                          listening_channel_remove="22 number*"),
    TEXT_MESSAGE: fields_of(actor="1 number", session="2 number*", channel_id="3 number*", tree_id="4 number*",
                            message="5 text"),
    PERMISSION_DENIED: fields_of(permission="1 number", channel_id="2 number", session="3 number", reason="4 text",
                      type="5 number", name="6 text"),
    ACL: with_blocks(fields_of(channel_id="1 number", inherit_acls="2 flag", query="5 flag"),
                     groups=(3, ACL_GROUP), acls=(4, ACL_ENTRY)),
    VOICE_TARGET: with_blocks(fields_of(id="1 number"), targets=(2, TARGET_ITEM)),
    PERMISSION_QUERY: fields_of(channel_id="1 number", permissions="2 number", flush="3 flag"),
    CODEC_VERSION: fields_of(alpha="1 signed", beta="2 signed", prefer_alpha="3 flag", opus="4 flag"),
}
NAMES = {
    0: "Version", 1: "UDPTunnel", 2: "Authenticate", 3: "Ping", 4: "Reject", 5: "ServerSync", 6: "ChannelRemove",
    7: "ChannelState", 8: "UserRemove", 9: "UserState", 10: "BanList", 11: "TextMessage", 12: "PermissionDenied",
    13: "ACL", 14: "QueryUsers", 15: "CryptSetup", 16: "ContextActionModify", 17: "ContextAction", 18: "UserList",
    19: "VoiceTarget", 20: "PermissionQuery", 21: "CodecVersion", 22: "UserStats", 23: "RequestBlob",
    24: "ServerConfig", 25: "SuggestConfig", 26: "PluginDataTransmission",
}


# ---- frames and voice

def split_frame(digits):
    """The type of a frame in hexadecimal digits, and its payload."""
    frame = bytes.fromhex(digits)
    kind, _ = wire.HEADER.unpack_from(frame)
    return kind, frame[wire.HEADER.size:]


def voice_number(packet):
    """The voice varint with which bytes begin, and its length. Inverted numbers are not told apart."""
    first = packet[0]
    for size, least, most in ((1, 0x00, 0x7F), (2, 0x80, 0xBF), (3, 0xC0, 0xDF), (4, 0xE0, 0xEF)):
        if first <= most:
            return int.from_bytes(bytes([first - least]) + packet[1:size], "big"), size
    size = 4 if first < 0xF4 else 8
    return int.from_bytes(packet[1:1 + size], "big"), 1 + size


def put_voice_number(number):
    """A number as the shortest voice varint."""
    for size, first, bits in ((1, 0x00, 7), (2, 0x80, 14), (3, 0xC0, 21), (4, 0xE0, 28)):
        if number < 1 << bits:
            spelled = number.to_bytes(size, "big")
            return bytes([spelled[0] | first]) + spelled[1:]
    return b"\xf0" + number.to_bytes(4, "big")


# ---- messages

NUMBERS = ("number", "signed", "flag")


def value_of(known, value):
    """The value of a field as Python has it."""
    if known.kind == "flag":
        return value != 0
    if known.kind == "signed":
        return value - (1 << 64) if value >= 1 << 63 else value
    if known.kind == "text":
        return value.decode("utf-8", "replace")
    if known.kind == "block":
        return decode_by(known.inside, value)
    return value


def decode_by(table, payload):
    """The fields of a payload by their names, in the order in which they come first."""
    message = {}
    for number, wire_type, value in wire.read_fields(payload):
        known = table.get(number)
        if known is None:
            continue
        if known.many and known.kind in NUMBERS and wire_type == wire.BLOCK:
            message.setdefault(known.name, []).extend(value_of(known, one) for one in unpacked(value))
        elif wire_type != (wire.NUMBER if known.kind in NUMBERS else wire.BLOCK):
            continue
        elif known.many:
            message.setdefault(known.name, []).append(value_of(known, value))
        else:
            message[known.name] = value_of(known, value)
    return message


def unpacked(block):
    """The numbers of a packed list."""
    at = 0
    while at < len(block):
        value, at = wire.read_varint(block, at)
        yield value


def decode(kind, payload):
    """A message: its fields by their names."""
    return decode_by(FIELDS.get(kind, {}), payload)


def put_field(number, known, value):
    """One field: its key and its value."""
    if known.kind in NUMBERS:
        return wire.field(number, int(value))
    return wire.field(number, encode_by(known.inside, value) if known.kind == "block" else value)


def encode_by(table, message):
    """The payload of a message, its fields in the order of their numbers. What is None goes unsaid."""
    out = bytearray()
    for number, known in sorted(table.items()):
        value = message.get(known.name)
        if value is None:
            continue
        for one in value if known.many else [value]:
            out += put_field(number, known, one)
    return bytes(out)


def encode(kind, message):
    """The payload of a message of a type."""
    return encode_by(FIELDS[kind], message)


def frame_of(kind, message):
    """The digits of a whole frame with a message."""
    return wire.frame(kind, encode(kind, message)).hex()


# ---- permissions

START = 0xB0E
ROOT_ONLY = 0x1F0000
ALL = 0x1F0FFF
UNKNOWN = 0x1000


def permission_bit(name):
    """The bit of a permission, of all permissions together, or one that is no permission."""
    if name == "UNKNOWN":
        return UNKNOWN
    return ALL if name == "ALL" else PERMISSIONS[name]


def permission_names(bits):
    """The names of the permissions of a set."""
    return [name for name, bit in PERMISSIONS.items() if bits & bit]


def permissions_text(bits):
    """A set of permissions: START, ALL or ALL_BUT_ROOT, with what it has more (+) or less (-)."""
    if bits == 0:
        return "nothing"
    name, base = "START", START
    if bits & 1:
        name, base = ("ALL", ALL) if bits & ROOT_ONLY == ROOT_ONLY else ("ALL_BUT_ROOT", ALL & ~ROOT_ONLY)
    words = [name]
    for one, bit in PERMISSIONS.items():
        if (bits ^ base) & bit:
            words.append(("+" if bits & bit else "-") + one)
    return " ".join(words)


# the categories of Unicode for what is not seen: controls, formats, surrogates, none, and ends of lines and paragraphs
FORM = ("Cc", "Cf", "Cs", "Cn", "Zl", "Zp")


def printable(text):
    """A text on one line as it is: what controls its form, or is no character, becomes a question mark."""
    return "".join("?" if unicodedata.category(one) in FORM else one for one in text)
