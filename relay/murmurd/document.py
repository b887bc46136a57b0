"""The configuration of a virtual server, or with it its channels as rows to be kept, and a report of what is otherwise
there."""
import json

from reader import kept
from reader.numbering import TooLong, numbering, text_of

from .names import names_of
from .policy import ENTER, entries_of, groups_of, refuse_above
from .refusal import Refused, Status
from .report import shown
from .rows import ROOT
from .settings import GREATEST, NO_LOG, TEXT_LIMIT, Settings, server_of

# The digest of no password that anybody knows.
NO_DIGEST = "0" * 64
ACCOUNTS_LIMIT, CHANNELS_LIMIT, DEPTH_LIMIT, LINKS_LIMIT = 1024, 1024, 32, 64
# How many channels may be kept, with the root.
KEPT_LIMIT = 2048
POSITIONS = range(-(1 << 31), 1 << 31)
# What describes a channel.
INFO = ("description", "position", "max_users")


# ---- accounts

def accounts_of(server, only_named, report):
    """The accounts, without passwords."""
    wanted, others = server.accounts, []
    if only_named:
        named = {0, *named_accounts(server)}
        wanted = [account for account in server.accounts if account.number in named]
        others = [account for account in server.accounts if account.number not in named]
    for account in others:
        report.left_out(f"account {account.number} {shown(account.name)}", "no group and no entry names it")
    refuse_above(len(wanted), ACCOUNTS_LIMIT, "accounts")
    names = names_of([(account.number, account.name) for account in wanted], "account", report)
    for account in wanted:
        if account.holds:
            report.left_out(f"of account {account.number} {names[account.number]}: {', '.join(account.holds)}",
                            "an account has a number, a name and a password of its own")
    return [{"id": account.number, "name": names[account.number], "password_sha256": NO_DIGEST} for account in wanted]


def named_accounts(server):
    """The accounts that groups and entries name."""
    for channel in server.channels.values():
        for group in channel.groups:
            yield from group.add + group.remove
        yield from (entry.account for entry in channel.entries if entry.account is not None)


# ---- channels

def depths_of(parents, order):
    """How far below the root each channel is; `order` has each parent in front of what is in it."""
    depths = {ROOT: 0}
    for number in order:
        depths[number] = depths[parents[number]] + 1
    return depths


def channel_names(channels, report):
    """The names of the channels below the root, which differ below each parent."""
    below, names = {}, {}
    for number, channel in channels.items():
        below.setdefault(channel.parent, []).append((number, channel.name))
    for parent, named in below.items():
        if parent is not None:
            names |= names_of(named, "channel", report)
    return names


def in_range(value, numbers, what, report):
    """A number that a channel may have, or None."""
    if value in numbers:
        return value
    report.left_out(f"{what} {value}", f"it may be from {numbers[0]:,} to {numbers[-1]:,}")
    return None


def details_of(channel, where, most_users, report):
    """What a channel has beside its name and its rights."""
    details = {"position": in_range(channel.position, POSITIONS, f"the position of {where}", report),
               "max_users": in_range(channel.max_users or most_users, range(GREATEST + 1),
                                     f"the limit of users of {where}", report)}
    if (length := len(channel.description.encode())) <= TEXT_LIMIT:
        details["description"] = channel.description
    else:
        report.left_out(f"the description of {where}", f"it has {length:,} bytes, and may have {TEXT_LIMIT:,}")
    return {key: value for key, value in details.items() if value}


def rights_of(channel, where, report):
    """What decides who may do what in a channel."""
    rights = {} if channel.inherit_acls or channel.number == ROOT else {"inherit_acls": False}
    groups, entries = groups_of(channel, where), entries_of(channel, where, report)
    return rights | ({"groups": groups} if groups else {}) | ({"acls": entries} if entries else {})


def order_of(server, limit):
    """The order of the channels below the root in a configuration, and the numbers that they have there. There may be
    `limit` channels with the root."""
    refuse_above(len(server.channels), limit, "channels with the root")
    parents = {number: channel.parent for number, channel in server.channels.items() if number != ROOT}
    order, new = numbering(parents)
    refuse_above(max(depths_of(parents, order).values()), DEPTH_LIMIT, "levels of channels below the root")
    return order, new


def contents_of(server, order, new, most_users, report):
    """The names of the channels below the root, and what a configuration says of each beside its number, its parent and
    its name."""
    names, contents = channel_names(server.channels, report), {}
    for number in [ROOT, *order]:
        channel = server.channels[number]
        where = f"channel {new[number]} {names[number]}" if number else "the root"
        contents[number] = details_of(channel, where, most_users, report) | rights_of(channel, where, report)
    return names, contents


def channels_of(server, most_users, report):
    """The channels in the order and with the numbers that they have in a configuration, and these numbers."""
    order, new = order_of(server, CHANNELS_LIMIT)
    names, contents = contents_of(server, order, new, most_users, report)
    entries = [{"id": ROOT} | contents[ROOT]] if contents[ROOT] else []
    for number in order:
        parent = new[server.channels[number].parent]
        entries.append({"id": new[number], "parent": parent, "name": names[number]} | contents[number])
    if any(number != other for number, other in new.items()):
        report.changed("the numbers of channels", "now in the order of the tree: a parent comes before what is in it")
    return entries, new


def rows_of(server, most_users, report):
    """The channels and links as rows that are kept, with the numbers that they have."""
    order, _ = order_of(server, KEPT_LIMIT)
    same = {number: number for number in server.channels}
    names, contents = contents_of(server, order, same, most_users, report)
    rows = kept.Rows(links=[tuple(link) for link in links_of(server, same, report)])
    for number, channel in sorted(server.channels.items()):
        info = {key: value for key, value in contents[number].items() if key in INFO}
        rows.channels[number] = kept.Channel(number, channel.parent or ROOT, names.get(number, "Root"), **info,
                                             policy=kept.policy_of(number, contents[number]))
    return rows


def links_of(server, new, report):
    """The links as pairs of numbers."""
    partners, links = {}, []
    for one, other in server.links:
        full = next((end for end in (one, other) if partners.get(end, 0) >= LINKS_LIMIT), None)
        if full is not None:
            report.left_out(f"the link of channels {new[one]} and {new[other]}",
                            f"channel {new[full]} has {LINKS_LIMIT} others")
            continue
        for end in (one, other):
            partners[end] = partners.get(end, 0) + 1
        links.append(sorted((new[one], new[other])))
    return sorted(links)


# ---- the whole

def migrated(server, of_file, only_named, keeps, report):
    """The text of a configuration of a virtual server and a file of settings; and the rows of its channels and links
    where these are kept (`keeps`), which the configuration then does not have, or else None."""
    settings, rows = Settings(server.settings, of_file, report), None
    document = server_of(settings, report)
    most_users = settings.number("usersperchannel", 0) or 0
    document["accounts"] = accounts_of(server, only_named, report)
    if keeps:
        rows = rows_of(server, most_users, report)
    else:
        document["channels"], new = channels_of(server, most_users, report)
        if links := links_of(server, new, report):
            document["links"] = links
    if most_users:
        report.changed("the setting usersperchannel", f"now the limit of each channel that has none: {most_users}")
    settings.report_others()
    report_listen(server, report)
    report_rest(server, report)
    try:
        return text_of(document), rows
    except TooLong as error:
        raise Refused(Status.TOO_MUCH, f"{error}; {sizes_of(document)}") from error


def sizes_of(document):
    """How long the parts of a configuration are, in bytes."""
    lengths = {key: len(json.dumps(value, ensure_ascii=False, separators=(",", ":")).encode())
               for key, value in document.items()}
    return ", ".join(f"{key} {length:,}" for key, length in lengths.items())


def report_listen(server, report):
    """Says that lists have one permission more."""
    if any((entry.grant | entry.deny) & ENTER for channel in server.channels.values() for entry in channel.entries):
        report.changed("Listen, which mumble-server 1.3 does not have",
                       "granted and denied with Enter: whoever may enter a channel may listen to it, and nobody else")


def ban_text(ban):
    """A ban in one line."""
    until = f"for {ban.seconds:,} seconds" if ban.seconds else "for ever"
    more = [shown(part) for part in (ban.name, ban.certificate, ban.reason) if part]
    return ", ".join([f"the ban of {ban.address}/{ban.bits} from {shown(ban.start)} {until}", *more])


def report_rest(server, report):
    """Says what has no place in a configuration at all."""
    if (root := server.channels[ROOT]).name != "Root":
        report.left_out(f"the name of the root, {shown(root.name)}", "the root is named Root")
    for ban in server.bans:
        report.left_out(ban_text(ban), "bans end with the server; a line in the relay's file kept-out keeps an address out")
    for line in server.unread:
        report.left_out(line, "mumble-server does not read it either")
    if server.log_lines:
        report.left_out(f"{server.log_lines:,} lines of the log", NO_LOG)
