"""What a murmurd's database holds of one virtual server."""
from dataclasses import dataclass, field

ROOT = 0


@dataclass
class Group:
    """A definition of a group in one channel."""
    name: str
    inherit: bool
    inheritable: bool
    add: list
    remove: list


@dataclass
class Entry:
    """An entry of a channel's list. With an account and a group it is for whoever either of them matches."""
    account: int | None
    group: str
    here: bool
    subs: bool
    grant: int
    deny: int


@dataclass
class Channel:
    """A channel with its groups and its list."""
    number: int
    parent: int
    name: str
    inherit_acls: bool
    description: str = ""
    position: int = 0
    max_users: int = 0
    groups: list = field(default_factory=list)
    entries: list = field(default_factory=list)


@dataclass
class Account:
    """A registered user, and what is known of it beside its number and name: `password`, `certificate` and so on."""
    number: int
    name: str
    holds: list


@dataclass
class Ban:
    """A ban: an address and how many of its bits count, and what an administrator wrote."""
    address: str
    bits: int
    name: str
    certificate: str
    reason: str
    start: str
    seconds: int


@dataclass
class VirtualServer:
    """All of one virtual server. `unread` are rows that no server reads: a line each."""
    settings: dict
    channels: dict
    links: list
    accounts: list
    bans: list
    log_lines: int
    unread: list
