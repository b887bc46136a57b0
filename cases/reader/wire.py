"""Messages of the Mumble protocol on the wire: varints, fields and frames. `mumble` has the names of their numbers."""
import struct

# Two bytes of type and four of length come before a payload.
HEADER = struct.Struct(">HI")
# The wire types of numbers, of eight bytes, of blocks with a length; every other one is read as four bytes.
NUMBER, EIGHT_BYTES, BLOCK = 0, 1, 2


# ---- written

def varint(number):
    """A number as the varint of a message, negative ones in ten bytes."""
    number &= (1 << 64) - 1
    out = bytearray()
    while number >= 0x80:
        out.append(number & 0x7F | 0x80)
        number >>= 7
    out.append(number)
    return bytes(out)


def field(number, value):
    """One field of a message: a number, a text or bytes."""
    if isinstance(value, int):
        return varint(number << 3) + varint(value)
    data = value.encode() if isinstance(value, str) else value
    return varint(number << 3 | BLOCK) + varint(len(data)) + data


def message(*fields):
    """The payload of a message, from pairs of the number of a field and its value."""
    return b"".join(field(number, value) for number, value in fields)


def frame(kind, payload=b""):
    """A whole frame."""
    return HEADER.pack(kind, len(payload)) + payload


# ---- read

def read_varint(data, at):
    """The varint of a message at a place, and the place behind it."""
    value = shift = 0
    while True:
        byte = data[at]
        value |= (byte & 0x7F) << shift
        shift, at = shift + 7, at + 1
        if byte < 0x80:
            return value, at


def spans(payload):
    """Where the fields of a payload are: of each its number, its wire type, its first byte and the one behind its last."""
    at = 0
    while at < len(payload):
        key, first = read_varint(payload, at)
        if key & 7 == NUMBER:
            _, at = read_varint(payload, first)
        elif key & 7 == BLOCK:
            size, first = read_varint(payload, first)
            at = first + size
        else:
            at = first + (8 if key & 7 == EIGHT_BYTES else 4)
        yield key >> 3, key & 7, first, at


def read_fields(payload):
    """The fields of a payload: triples of a number, a wire type and a value, which is a number or bytes."""
    for number, wire_type, first, behind in spans(payload):
        yield number, wire_type, read_varint(payload, first)[0] if wire_type == NUMBER else payload[first:behind]


def read_frames(data):
    """The whole frames with which bytes begin, pairs of a type and a payload, and what is behind them."""
    frames, at = [], 0
    while len(data) - at >= HEADER.size:
        kind, length = HEADER.unpack_from(data, at)
        begin = at + HEADER.size
        if len(data) - begin < length:
            break
        frames.append((kind, data[begin:begin + length]))
        at = begin + length
    return frames, data[at:]
