"""Why nobody hears a packet, as `murmur-why` says it."""
from reader import why

SPEAKER, UNSET = "the speaker", "the voice target is not set"


def packets_by_line(recording):
    """What is said of each packet of a recording, by its line. There is none where the program refuses the recording."""
    ran = why.ask(["heard", "-"], "".join(line + "\n" for line in recording))
    return {packet.line: packet for packet in why.packets_of(ran.lines)} if ran.status == 0 else {}


def sentence(packet, names, reason):
    """A reason with the names of the speaker and of those of whom it is given."""
    if reason == UNSET:
        return f"voice target {packet.target} is not set"
    told = reason.replace(SPEAKER, packet.name, 1)
    return told if reason.startswith(SPEAKER) else f"{', '.join(names)} {told}"


def of_whom(group, count, reason):
    """Of whom a reason about the speaker is given, where it is one of several."""
    return f"{', '.join(group)}: " if count > 1 and reason.startswith(SPEAKER) else ""


def why_nobody(packet, names):
    """Why nobody hears a packet, in words, where sessions have these names; nothing where it is not known."""
    if packet is None:
        return ""
    said = {session: why.reason_of(rest, names.get(session, "")) for session, rest in packet.said.items()}
    own = said.pop(packet.speaker, f"{SPEAKER} is not there")
    if own != "is the speaker":
        return sentence(packet, [], own)
    if not said:
        return "nobody else is here"
    groups = {}
    for session, reason in said.items():
        groups.setdefault(reason, []).append(names.get(session, f"session {session}"))
    return "; ".join(of_whom(group, len(groups), reason) + sentence(packet, group, reason)
                     for reason, group in groups.items())
