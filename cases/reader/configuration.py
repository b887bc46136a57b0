"""The document of a configuration, as it grows by the calls of a line."""
import hashlib
import json

from . import policies
from .words import given_number, head_of, number, numbers, part, text_of, word_of

BACKSTAGE = "backstage"
PASSWORD = "password of "
SUPERUSER = "SuperUser"


def sha256(password):
    """The digest of a password, as a document has it."""
    return hashlib.sha256(password.encode()).hexdigest()


def token_of(channel):
    """The token that counts in the list of one channel."""
    return f"{BACKSTAGE}-{channel}"


class Configuration:
    """Settings, accounts, channels and links; the passwords of accounts beside them."""

    def __init__(self):
        self.settings = {}
        self.accounts = {}
        self.passwords = {}
        self.server_password = None
        self.channels = {0: {"id": 0}}
        self.links = []
        self.lent = set()
        self.lent_everywhere = False

    def set_server(self, parts):
        """`welcome hello, bandwidth 9000`"""
        if part(parts, "welcome") is not None:
            self.settings["welcome"] = text_of(part(parts, "welcome"))
        if part(parts, "bandwidth") is not None:
            self.settings["bandwidth"] = number(part(parts, "bandwidth"))

    def guard(self, password):
        """The server has this password; `nothing` is the empty one."""
        self.server_password = "" if password == "nothing" else password
        self.settings["server_password_sha256"] = sha256(self.server_password)

    def add_account(self, rest):
        """`7 ann, password abc`, or with `digest 3`: that byte 32 times, which is no password's."""
        head, parts = head_of(rest)
        account, name = word_of(head)
        account, digest = number(account), part(parts, "digest")
        password = part(parts, "password") or PASSWORD + name
        self.passwords[account] = "" if password == "nothing" else password
        self.accounts[account] = {"id": account, "name": text_of(name),
                                  "password_sha256": sha256(self.passwords[account])}
        if digest is not None:
            self.accounts[account]["password_sha256"] = bytes([number(digest)] * 32).hex()

    def superuser(self):
        """The name of the account 0, which there is from now on."""
        if 0 not in self.accounts:
            self.add_account(f"0 {SUPERUSER}")
        return self.accounts[0]["name"]

    def next_channel(self):
        """The number of the next channel."""
        return max(self.channels) + 1

    def make_channel(self, rest):
        """`A, under 3, position 3, users 10, text words`; under the root, the last one or the channel that is said."""
        name, parts = head_of(rest)
        under = part(parts, "under")
        channel = given_number(part(parts, "number")) or self.next_channel()
        parent = max(self.channels) if under == "last" else number(under or "0")
        self.channels[channel] = {"id": channel, "parent": parent, "name": text_of(name)}
        self.set_info(channel, parts)

    def set_info(self, channel, parts):
        """What describes a channel, as far as it is given."""
        for word, key in (("position", "position"), ("users", "max_users")):
            if part(parts, word) is not None:
                self.channels[channel][key] = number(part(parts, word))
        if part(parts, "text") is not None:
            self.channels[channel]["description"] = text_of(part(parts, "text"))

    def may_edit(self, rest):
        """Whether a document can have what this edit leads to: parents come first, and links do not go."""
        channel, parts = head_of(rest)
        parent = given_number(part(parts, "parent"))
        return part(parts, "unlinks") is None and (parent is None or parent < number(channel))

    def edit_channel(self, rest):
        """`1, name B, parent 2, position 3, users 10, text words, links 4 5`"""
        channel, parts = head_of(rest)
        channel = number(channel)
        if part(parts, "name") is not None:
            self.channels[channel]["name"] = text_of(part(parts, "name"))
        if part(parts, "parent") is not None:
            self.channels[channel]["parent"] = number(part(parts, "parent"))
        self.set_info(channel, parts)
        self.links += [[channel, partner] for partner in numbers(part(parts, "links"))]

    def set_acl(self, rest):
        """`1: PARTS`"""
        channel, _, parts = rest.partition(":")
        entry = self.channels[number(channel)]
        for key in ("inherit_acls", "groups", "acls"):
            entry.pop(key, None)
        entry.update(policies.document_of(parts))

    def lend(self):
        """Who shows the token `backstage` may do all but speak and whisper, everywhere."""
        self.lent_everywhere = True

    def lend_in(self, channel):
        """Who shows the token of a channel may do so in that channel alone."""
        self.lent.add(channel)

    def lent_by(self, entry):
        """The tokens that are to count in the list of a channel."""
        tokens = [token_of(entry["id"])] if entry["id"] in self.lent else []
        everywhere = self.lent_everywhere and (entry["id"] == 0 or "acls" in entry)
        return tokens + ([BACKSTAGE] if everywhere else [])

    def document(self):
        """The document as a text."""
        channels = []
        for channel, entry in sorted(self.channels.items()):
            entry = dict(entry)
            for token in self.lent_by(entry):
                entry["acls"] = entry.get("acls", []) + [{"group": f"#{token}", "grant": 1}]
            if channel != 0 or len(entry) > 1:
                channels.append(entry)
        keys = {**self.settings, "accounts": list(self.accounts.values()), "channels": channels, "links": self.links}
        return json.dumps({key: value for key, value in keys.items() if value != []}, ensure_ascii=False,
                          separators=(",", ":"))
