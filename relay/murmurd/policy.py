"""Groups and lists as a configuration has them. What bears on rights is taken whole, or nothing is written."""
from reader import mumble

from .group_names import group_name, report_difference
from .names import NAME_LIMIT, is_name
from .refusal import Refused, Status
from .report import shown

GROUPS_LIMIT, MEMBERS_LIMIT, ENTRIES_LIMIT = 64, 256, 128
ENTER, LISTEN = mumble.PERMISSIONS["Enter"], mumble.PERMISSIONS["Listen"]
# The permissions of mumble-server 1.3, which knows neither Listen nor ResetUserContent.
KNOWN = mumble.ALL & ~LISTEN & ~mumble.PERMISSIONS["ResetUserContent"]


def refuse_above(count, limit, what):
    """Makes sure that there are not too many."""
    if count > limit:
        raise Refused(Status.TOO_MUCH, f"{what}: there are {count:,}, and may be {limit:,}")


def flags_of(**flags):
    """Those that are not as usual; usually all hold."""
    return {name: False for name, flag in flags.items() if not flag}


# ---- groups

def group_of(group, where):
    """A definition of a group."""
    if not is_name(group.name):
        raise Refused(Status.TOO_MUCH, f"{where}: a group cannot be called {shown(group.name)!r}")
    lists = {"add": group.add, "remove": group.remove}
    for key, members in lists.items():
        refuse_above(len(members), MEMBERS_LIMIT, f"{where}, group {group.name}, {key}")
    return {"name": group.name, **flags_of(inherit=group.inherit, inheritable=group.inheritable),
            **{key: members for key, members in lists.items() if members}}


def groups_of(channel, where):
    """The groups of a channel."""
    refuse_above(len(channel.groups), GROUPS_LIMIT, f"{where}, groups")
    return [group_of(group, where) for group in channel.groups]


# ---- lists

def with_listen(bits):
    """Permissions of mumble-server, with Listen where Enter is: whoever may enter may listen, and nobody else."""
    return bits & KNOWN | (LISTEN if bits & ENTER else 0)


def subjects_of(entry, what, report):
    """Whom an entry is for, as a configuration says it: an account, a group, or one of each."""
    name = entry.group.lstrip("!~")
    if entry.account is not None and name:
        report.changed(what, "now two entries, since it is for an account and for a group")
    if entry.account is not None:
        yield {"account": entry.account}
    if name:
        if len(entry.group.encode()) > NAME_LIMIT:
            raise Refused(Status.TOO_MUCH, f"{what}: its group has more than {NAME_LIMIT} bytes")
        yield {"group": group_name(entry.group, name, what, report)}
    elif entry.account is None:
        report.left_out(what, "it is for nobody")


def entries_of(channel, where, report):
    """The list of a channel."""
    entries = []
    for place, entry in enumerate(channel.entries, 1):
        what = f"entry {place} of {where}"
        if (entry.grant | entry.deny) & ~KNOWN:
            report.left_out(f"the bits {(entry.grant | entry.deny) & ~KNOWN:#x} of {what}", "they are no permission")
        bits = {"grant": with_listen(entry.grant), "deny": with_listen(entry.deny)}
        for subject in subjects_of(entry, what, report):
            entries.append({**subject, **flags_of(here=entry.here, subs=entry.subs),
                            **{key: value for key, value in bits.items() if value}})
            report_difference(subject.get("group", ""), entry, what, report)
    refuse_above(len(entries), ENTRIES_LIMIT, f"{where}, entries")
    return entries
