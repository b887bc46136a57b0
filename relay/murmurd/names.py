"""Names as a configuration may have them."""
from .report import shown

NAME_LIMIT = 128


def is_control(one):
    """Whether a character is one of the controls that no name has."""
    return ord(one) < 32 or ord(one) == 127


def is_name(name):
    """Whether a name is one of a user, a channel or a group."""
    return 0 < len(name.encode()) <= NAME_LIMIT and name == name.strip(" ") and not any(map(is_control, name))


def free_name(name, taken, otherwise):
    """The nearest name that is valid and that nobody has."""
    visible = "".join(" " if is_control(one) else one for one in name).strip(" ") or otherwise
    tail, count = "", 1
    while True:
        cut = visible.encode()[:NAME_LIMIT - len(tail)].decode(errors="ignore").strip(" ") + tail
        if cut not in taken:
            return cut
        count += 1
        tail = f" {count}"


def names_of(named, what, report):
    """The names of siblings by their numbers, each valid and each another. What is neither is changed."""
    taken, names = {name for _, name in named if is_name(name)}, {}
    left = set(taken)
    for number, name in named:
        if name in left:
            left.remove(name)
            names[number] = name
            continue
        names[number] = free_name(name, taken, f"{what} {number}")
        taken.add(names[number])
        reason = "another has this name" if is_name(name) else "a name has 1 to 128 bytes, no control characters and " \
            "no space at either end"
        report.changed(f"the name of {what} {number}, {shown(name)!r}", f"now {names[number]!r}: {reason}")
    return names
