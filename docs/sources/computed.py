"""What pages say of numbers that follow from others: for each the page and the words."""
import json
import re
import sys

from .files import TOP, constant, permission, text_of
from .said import Page, stored

sys.path[:0] = [str(TOP / "cases")]
from reader.compare import tables_of  # noqa: E402
from reader.table import lines_of  # noqa: E402

WORDS = {4: "four", 5: "five", 6: "six", 8: "eight", 14: "fourteen", 15: "fifteen", 16: "sixteen"}
PERMISSION = re.compile(r"^\| (\d+) \| (\d+) \| (\w+) \|", re.MULTILINE)
ADMINISTRATION, COMMANDS, FORMATS, LIMITS, QUICKSTART = (
    "docs/ADMINISTRATION.md", "docs/COMMANDS.md", "docs/FORMATS.md", "docs/LIMITS.md", "relay/QUICKSTART.md")
RELAY = "relay/haproxy.cfg"


def found(pattern, name):
    """The number that a file has at a pattern."""
    return int(re.search(pattern, text_of(name))[1].replace(",", ""))


def counts():
    """Of cases, and of edits of the state."""
    cases = sum(1 for table in tables_of([]) for _ in lines_of(table))
    yield "README.md", f"Some {cases // 100 * 100:,} [cases]"
    edits = re.search(r"^pub enum Edit \{$(.*?)^\}$", text_of("crates/mum_state/src/edit.rt"), re.MULTILINE | re.DOTALL)
    kinds = len(re.findall("^    [A-Z]", edits.group(1), re.MULTILINE))
    yield "docs/ARCHITECTURE.md", f"{WORDS[kinds].capitalize()} edits change it"
    power = found(r"EDIT_LIMIT: u64 = 1 << (\d+);", "crates/mum_state/src/count.rt")
    yield COMMANDS, f"sessions made 2^{power} edits"


def permissions():
    """Of each permission its bit and its number; and of their sums."""
    for _, _, name in PERMISSION.findall(text_of(COMMANDS)):
        yield COMMANDS, f"| {permission(name).bit_length() - 1} | {permission(name)} | {name} |"
    yield COMMANDS, f"Listen ({constant('base', 'START'):,})"
    yield COMMANDS, f"starts again from {constant('base', 'START'):,}"
    yield FORMATS, f"0 by default, at most {constant('base', 'ALL'):,}"
    yield "CONTRIBUTING.md", f"The greatest sum, {constant('base', 'ALL'):,}"
    version = constant("rules_user", "OLDEST_VERSION")
    yield COMMANDS, f"a version below {version >> 16}.{version >> 8 & 255}.{version & 255}"
    sent = constant("notify", "PROTOCOL")
    for page, words in (("docs/DECISIONS.md", "Clients are sent Version"), (FORMATS, "first of all:"),
                        ("examples/README.md", "Version says")):
        yield page, f"{words} {sent >> 16}.{sent >> 8 & 255}.{sent & 255}"
    staff = found(r'"group": "staff", "grant": (\d+)', "relay/murmur.json")
    yield ADMINISTRATION, f"as {staff + permission('Ban')} in place of {staff} for `staff`"


def relay_counts():
    """Of what the relay counts of each address."""
    opened, at_once, logins, asked = (
        found(rf"{word} g[te] (\d+)", RELAY)
        for word in (r"conn_rate\(mumble\)", "sc0_conn_cur", "sc0_gpc1_rate", "sc0_http_req_rate"))
    yield ADMINISTRATION, f"an address with {at_once} connections, or with {logins} logins in two minutes"
    yield ADMINISTRATION, f"{opened} connections in ten seconds"
    yield ADMINISTRATION, f"one of the {logins} that the relay lets through in two minutes"
    denied = found(r"deny_status (\d+)", RELAY)
    yield ADMINISTRATION, f"One address may send {asked} requests in ten seconds (else {denied})"
    yield ADMINISTRATION, f"so raise the {asked}"
    yield ADMINISTRATION, f"of IPv6 its network of {found(r'connection track-sc0 src,ipmask.32,([0-9]+)', RELAY)} bits"
    yield QUICKSTART, f"{at_once} users behind one address | raise {opened}, {at_once} and {logins}"
    needed = -(-constant("server", "CONNECTIONS_LIMIT") // (logins * 24 * 30))
    yield "SECURITY.md", f"One address uses up {logins} in two minutes, so {needed} that never pause"
    yield "SECURITY.md", f"without that timer one does in {WORDS[round(needed / 7)]} weeks"


def relay_waits():
    """Of how long the relay waits, for how long a login, and where it listens."""
    silence, queued, decided = (found(rf"timeout {word} (\d+)s", RELAY) for word in ("client", "queue", "server"))
    yield LIMITS, f"that sends nothing is closed after {silence} seconds"
    for words in ("by the relay after {} seconds of silence", "from which nothing came for {} seconds",
                  "by itself it comes back after {} seconds", "lost less than {} seconds ago"):
        yield ADMINISTRATION, words.format(silence)
    yield ADMINISTRATION, f"until one is closed, behind the relay for {queued} seconds"
    yield LIMITS, f"is closed after {decided} (`timeout server`)"
    longest = found(r"LOGIN_BYTES = (\d+)", "relay/login.lua")
    waits = found(r"PATIENCE = (\d+)", "relay/login.lua")
    yield ADMINISTRATION, f"no whole login within {waits} seconds, or one of more than {longest:,} bytes"
    yield LIMITS, f"no login of more than {longest:,} bytes"
    yield ADMINISTRATION, f"127.0.0.1:{found(r'bind 127.0.0.1:([0-9]+)', RELAY)} as it is installed"
    port = found(r"bind 0.0.0.0:(\d+)", RELAY)
    for words in ("TCP port {} open", "name, port {} and", "says that port {} is in use"):
        yield QUICKSTART, words.format(port)


def installed():
    """Of the unit, its timer and the script for passwords."""
    least = found(r"-lt (\d+)", "relay/password")
    yield "SECURITY.md", f"`relay/password` accepts none below {least} bytes"
    yield QUICKSTART, f"the password of SuperUser, at least {least} bytes"
    memory_limit = re.search("MemoryMax=.*", text_of("relay/murmur.service"))[0]
    yield LIMITS, f"`{memory_limit}` of `relay/murmur.service`"
    at = re.search(r"OnCalendar=\*-\*-\* (.*)", text_of("relay/murmur-restart.timer"))[1]
    yield ADMINISTRATION, f"restarts the server each night at {at}"
    yield QUICKSTART, f"does so each night at {at}"
    yield ADMINISTRATION, f"which last {round(constant('server', 'VIEWS_LIMIT') * 5 / 86400)} days"


def boxes():
    """Of the boxes of notices."""
    slots, notices = constant("base", "SLOTS"), constant("base", "POST_CAPACITY")
    header = constant("frame", "HEADER_LENGTH")
    longest = constant("rules_tree", "COMMAND_LIMIT") + 2 * header
    yield LIMITS, f"of at most {constant('rules_tree', 'COMMAND_LIMIT'):,} bytes and {2 * header} |"
    full, box = round(notices * longest / 1e6), round(notices * 20 * 1024 / 1e6)
    yield LIMITS, f"{notices * longest:,} bytes, {full} MB"
    yield LIMITS, f"are bounded by {round(slots * notices * longest / 1e9)} GB"
    yield LIMITS, f"up to {full} MB of longer ones"
    yield LIMITS, f"a full post box | {full} MB"
    yield LIMITS, f"bytes, so up to {box} MB**"
    yield LIMITS, f"a full post box | {box} MB"
    taken = round(slots * notices * 80 / 1e6)
    yield LIMITS, f"some {taken} MB are taken at the start"
    yield "docs/DECISIONS.md", f"{slots} boxes of {notices:,} places of 80 bytes, {taken} MB"


def caches():
    """Of the memory that the caches of a worker take."""
    place = found(r"([\d,]+) KiB are resident for each place", "crates/mum_cache/src/perms.rt")
    target = found(r"([\d,]+) KiB are resident for each target", "crates/mum_cache/src/routes.rt")
    reserved = constant("base", "PLACES") * place + (constant("users", "LAST_TARGET") + 2) * target
    yield LIMITS, f"The caches of a worker reserve {round(reserved * 1024 / 1e6, -1):.0f} MB"
    yield LIMITS, f"as they are used: {place} KiB for each place"
    yield LIMITS, f"and {target} KiB for each voice target"


def memory():
    """Of many connections, by what one takes."""
    measured = Page(stored())

    def of(name):
        return float(measured.value(name).replace(",", "")) * 1024 / 1e9

    connections, slots = constant("base", "CONNECTION_LIMIT"), constant("base", "SLOTS")
    short = constant("pace", "SHORT_LIMIT") + constant("worker", "READ_LENGTH")
    frame, allowance = constant("frame", "PAYLOAD_LIMIT"), constant("pace", "LONG_FRAMES_LIMIT")
    under_way = allowance + (connections - allowance // frame) * short
    yield LIMITS, f"each, {WORDS[allowance // frame]} of"
    yield LIMITS, f"and one read | {under_way / 1e9:.2f} GB"
    yield LIMITS, f"in each | {connections * of('kept: a login with 30,000 empty tokens, at the peak'):.1f} GB"
    yield LIMITS, f"waits to be decided | {slots * of('kept: a voice target of 30,000*'):.1f} GB"
    usual = sum(of(f"kept: {what}") for what in ("a session,*", "a comment*", "64 *", "a plugin*", "32 *", "30 *"))
    yield LIMITS, f"of the greatest size | {slots * usual:.1f} GB"
    answers = of("kept: pings*") * 1e9 / (constant("port", "UNWRITTEN_LIMIT") / 8) - 8
    yield LIMITS, f"each answer has some {round(answers, -1):.0f} bytes beside its own"
    first, _, last = measured.numbers("an hour of enemies #all")[0][3:]
    yield LIMITS, f"is within {-(-(int(last) - int(first)) // 10) * 10} MB of what it was at the start"


def lists_of_bans():
    """Of lists of bans, by what validating a byte of them takes."""
    bans, text = constant("bans", "BAN_LIMIT"), constant("bans", "BAN_TEXT_LIMIT")
    length = bans * (3 + 18 + 3 + 3 * (3 + text) + 2)
    yield LIMITS, f"has {length:,} bytes"
    yield LIMITS, f"(`BAN_TEXT_LIMIT`), {length / 1e6:.1f} MB in all"
    frame = constant("frame", "PAYLOAD_LIMIT")
    empty, dearest = (float(number) * frame / 1e9 for number in Page(stored()).numbers("bans: a list validated")[0])
    yield LIMITS, f"{empty:.2f} thousand million instructions, the dearest that was tried {dearest:.2f}"


def formats():
    """Of depth, of the channels of an exercise, and of what a journal takes."""
    levels = constant("tree", "PATH_LIMIT") - 1
    yield COMMANDS, f"more than {levels} levels below the root"
    yield FORMATS, f"more than {levels} levels below the root"
    yield FORMATS, f", {levels} below the root, "
    named = constant("exercise", "CHANNELS") - 1
    yield FORMATS, f"channels 1 to {named} named c1 to c{named}"
    packet, people, packets_a_second = 100, 10, 50
    line = len(f"v 17 1234 {'5a' * packet} {people}{' 123/0/s' * people}\n")
    yield FORMATS, f"A packet of {packet} bytes to {people} people takes some {round(line, -2)} bytes"
    yield FORMATS, f"bytes, {round(line * packets_a_second * 3600 / 1e6, -1):.0f} MB in an hour"


def views():
    """Of the text of the greatest view, and of how views come in."""
    number, name = 4_294_967_295, '"' * constant("base", "NAME_LIMIT")
    channel = {"id": number, "links": [number] * constant("tree", "CHANNEL_LINK_LIMIT"), "name": name, "parent": number,
               "temporary": False}
    listens = [number] * constant("users", "LISTENED_CHANNELS")
    user = {"account": number, "channel": number, "deaf": False, "listens": listens, "mute": False, "name": name,
            "session": number}
    lengths = (len(json.dumps(one, separators=(",", ":"))) + 1 for one in (channel, user))
    length = sum(map(int.__mul__, (constant("base", "PLACES"), constant("base", "SLOTS")), lengths))
    yield LIMITS, f"| a text | {length / 1e6:.1f} MB"
    rate = re.search(r"each_second = (\d+); at_once = (\d+)", text_of("crates/mum_link/src/doorstep.rt"))
    yield LIMITS, f"views that come in | {rate[1]} a second, {rate[2]} at once"


def paces():
    """Of the usual pace."""
    usual = re.search(r"each_second = (\d+); at_once = (\d+)", text_of("crates/mum_pace/specs/Texts.antt"))
    each_second, at_once = (int(number) for number in usual.groups())
    piece, long_piece, short = (constant("pace", name) for name in ("PIECE", "LONG_PIECE", "SHORT_LIMIT"))
    first = -(-short // piece)
    header, text = constant("frame", "HEADER_LENGTH"), constant("base", "TEXT_LIMIT")
    longest = constant("frame", "PAYLOAD_LIMIT") + header
    seconds = (first - (short - longest) // long_piece - at_once) // each_second
    second = each_second * piece
    yield LIMITS, f"at most {at_once * piece:,} bytes of messages at once"
    yield LIMITS, f"and then {second:,} a second"
    yield LIMITS, f"is read at {second:,} bytes a second"
    yield LIMITS, f"fill at most {constant('base', 'SLOTS') * second / 1e6:.0f} MB a second"
    yield LIMITS, f"of one long message {(short + (at_once - first) * long_piece) / 1e6:.2f} MB at once"
    yield LIMITS, f"all of the longest within {seconds} seconds"
    yield LIMITS, f"comes within {seconds} seconds"
    yield "docs/DECISIONS.md", f"takes {seconds} seconds to send"
    yield ADMINISTRATION, f"counts as {-(-(text + header + 3) // piece)}. The default"


def computed():
    """All of them."""
    for of in (counts, permissions, relay_counts, relay_waits, installed, boxes, caches, memory, lists_of_bans, formats,
               views, paces):
        yield from of()
