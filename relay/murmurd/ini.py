"""The file of settings of a mumble-server, as Qt reads it."""
import re

# A line ends at a line feed or a semicolon outside quotation marks; what a backslash precedes ends nothing.
LINE = re.compile(r'(?:\\(?:\r\n|\n\r|.|$)|"(?:\\.|[^"\\])*(?:"|$)|[^\\"\r\n;])*', re.S)
TOKEN = re.compile(r'\\x([0-9A-Fa-f]+)|\\([0-7]+)|\\(\r\n|\n\r|.|$)|(["])|(,)|([^\\",]+)', re.S)
ESCAPES = {"a": "\a", "b": "\b", "f": "\f", "n": "\n", "r": "\r", "t": "\t", "v": "\v",
           '"': '"', "?": "?", "'": "'", "\\": "\\"}


def lines_of(content):
    """The lines with something in them, without comments."""
    at = 0
    while at < len(content):
        line = LINE.match(content, at).group()
        at += len(line)
        if line.strip():
            yield line.strip()
        if content[at:at + 1] == ";":
            at = min((place for place in (content.find(end, at) for end in "\r\n") if place >= 0), default=len(content))
        else:
            at += 1


def values_of(spelled):
    """The texts of a value: commas outside quotation marks part them, and blanks around it are none of it."""
    values, quoted, was_quoted, skipping = [""], False, False, True
    for code, octal, escape, mark, comma, plain in TOKEN.findall(spelled):
        if mark:
            quoted, was_quoted = not quoted, True
        elif comma and not quoted:
            values[-1] = values[-1] if was_quoted else values[-1].rstrip(" \t")
            values.append("")
            was_quoted = False
        elif code or octal:
            values[-1] += chr((int(code, 16) if code else int(octal, 8)) & 0xFFFF)
        else:
            values[-1] += ESCAPES.get(escape, "") + comma + (plain.lstrip(" \t") if skipping else plain)
        skipping = not quoted and bool(mark or comma or skipping and plain and not plain.strip(" \t"))
    values[-1] = values[-1] if was_quoted else values[-1].rstrip(" \t")
    return [whole(value) for value in values]


def whole(value):
    """A text whose escapes may have written a character in two halves, as UTF-16 has it."""
    return value.encode("utf-16", "surrogatepass").decode("utf-16", "replace")


def read(content):
    """The settings by their names, with the name of a section and a `/` before those in one. The last one counts."""
    section, settings = "", {}
    for line in lines_of(content.removeprefix("\ufeff")):
        if line.startswith("["):
            name = line[1:].removesuffix("]").strip()
            section = "" if name.lower() == "general" else f"{name}/"
        elif not line.startswith("#"):
            key, equals, spelled = line.partition("=")
            if equals:
                settings[section + key.rstrip(" \t")] = values_of(spelled)
    return settings
