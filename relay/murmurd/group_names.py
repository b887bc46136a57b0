"""The groups of entries: what mumble-server writes otherwise, and what means something else."""
import re

from reader import mumble

from .report import shown

# What is noted along a path, whether or not an entry applies there.
MARKS = mumble.PERMISSIONS["Traverse"] | mumble.PERMISSIONS["Write"]
# The group `sub` as a configuration has it, and the greatest number that it has there.
SUBTREE, GREATEST_STEP = re.compile(r"sub(,(-?[0-9]{1,4})?){0,3}"), 9999


def is_subtree(name):
    """Whether a group is whoever is in channels below one."""
    return name == "sub" or name.startswith("sub,")


def group_name(group, name, what, report):
    """The group of an entry, with the arguments of `sub` as a configuration has them: mumble-server reads at most three
    numbers of any length, with blanks and a plus, and what is no number as 0."""
    if not is_subtree(name) or SUBTREE.fullmatch(name):
        return group
    changed = group[:len(group) - len(name)] + ",".join(["sub", *map(step_of, name.split(",")[1:4])])
    report.changed(what, f"its group {shown(group)!r} is now {changed!r}, which means the same")
    return changed


def step_of(argument):
    """An argument of `sub` as mumble-server reads it; the empty one stays as it is."""
    if not argument:
        return ""
    step = int(argument) if re.fullmatch(r"\s*[-+]?[0-9]{1,10}\s*", argument, re.ASCII) else 0
    return str(max(-GREATEST_STEP, min(step, GREATEST_STEP)) if abs(step) < 1 << 31 else 0)


def report_difference(group, entry, what, report):
    """Says where a group means something else here."""
    name = group.lstrip("!~")
    if is_subtree(name) and "~" not in group and (entry.subs or (entry.grant | entry.deny) & MARKS):
        report.differs(what, f"{shown(group)!r} is here what {shown('~' + group)!r} is for mumble-server: whoever is "
                             "below the channel of the list, whatever channel below it is asked about")
    elif name == "strong":
        report.differs(what, "no certificate is read, so nobody is in the group strong")
    elif name.startswith("$"):
        report.differs(what, f"no certificate is read, so nobody is in {shown(name)}: name the account in its place")
