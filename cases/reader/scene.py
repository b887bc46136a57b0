"""A server as the calls of a line make it: its configuration, and the steps of a recording.

Channels, lists, links and accounts are the configuration's as long as nobody did more than log in. What changes later
is done by the administrator, SuperUser, who comes for it and leaves again; so sessions have other numbers there than
in the table. What users do that no right of theirs allows they do by the access token `backstage`, to which the
last entry of the lists gives Write: nobody else has it, and it lets nobody speak.
"""
from dataclasses import dataclass, field

from . import mumble
from .configuration import BACKSTAGE, Configuration, token_of
from .messages import message_of
from .policies import acl_message
from .table import NoCase
from .telling import renamed
from .words import has, head_of, number, part, pieces_of_texts, texts, word_of

OTHERS_PARTS = ("channel_id", "mute", "deaf", "suppress", "priority_speaker")


@dataclass
class User:
    """A user of a line: its number there, its connection, and the session that it got."""
    number: int
    connection: int
    session: int
    slot: int
    name: str
    account: int | None
    tokens: list = field(default_factory=list)
    is_here: bool = True
    is_open: bool = True
    left_at: int | None = None


class Scene:
    """The server that calls have led to."""

    def __init__(self):
        self.configuration = Configuration()
        self.steps = []
        self.accepted_at = {}
        self.users = {}
        self.connections = 0
        self.sessions = 0
        self.revision = 0
        self.slots = {}
        self.slot_of = {}
        self.is_settled = False
        self.administrator = None
        self.promised = {}

    # ---- numbers

    def session_of(self, word):
        """The session in the recording that a number of the table is; one that is not there where there is none."""
        if word in self.users:
            return self.users[word].session
        return word if word == 0 else self.sessions + max(1, word - len(self.users))

    def number_of(self, session):
        """The number in the table of a session in the recording."""
        for user in self.users.values():
            if user.session == session:
                return user.number
        return session if session == 0 else len(self.users) + session - self.sessions

    def user(self, word):
        """The user of a number of the table."""
        if number(word) not in self.users:
            raise NoCase(f"no session: {word}")
        return self.users[number(word)]

    def free_slot(self):
        """The least slot that nobody has."""
        return next(slot for slot in range(1 << 16) if slot not in self.slots)

    # ---- steps

    def connect(self):
        """A connection opens, and its number."""
        self.connections += 1
        self.steps.append(f"open {self.connections} 0")
        return self.connections

    def command(self, connection, kind, message, call):
        """A command that is accepted."""
        self.steps.append(f"frame {connection} {mumble.frame_of(kind, message)}")
        self.accepted_at[len(self.steps)] = call
        self.steps += [f"edit {connection}", f"tell {connection} -"]
        self.revision += 1

    def log_in(self, name, account, tokens, call):
        """A session joins, and gets the least slot; its connection, number and slot."""
        password = self.configuration.passwords.get(account, self.configuration.server_password)
        connection = self.connect()
        self.command(connection, mumble.AUTHENTICATE, {"username": name, "password": password, "tokens": tokens}, call)
        self.sessions += 1
        slot = self.free_slot()
        self.slots[slot] = self.sessions
        self.slot_of[self.sessions] = slot
        return connection, self.sessions, slot

    def log_out(self, connection, slot, call):
        """A connection ends, and its session leaves."""
        self.steps.append(f"close {connection} end")
        self.accepted_at[len(self.steps)] = call
        self.steps.append(f"edit {connection}")
        self.revision += 1
        del self.slots[slot]

    # ---- the administrator

    def administer(self, kind, message, call):
        """The administrator does this: SuperUser, if it is here, or one that comes."""
        superuser = next((user for user in self.users.values() if user.account == 0 and user.is_here), None)
        if superuser:
            self.command(superuser.connection, kind, message, call)
            return
        self.call_administrator(call)
        self.command(self.administrator[0], kind, message, call)

    def call_administrator(self, call):
        """The administrator comes, if it is not here."""
        if self.administrator is None:
            self.administrator = self.log_in(self.configuration.superuser(), 0, [], call)

    def dismiss(self):
        """The administrator leaves, if it is here."""
        if self.administrator:
            connection, _, slot = self.administrator
            self.administrator = None
            self.log_out(connection, slot, "the administrator leaves")

    # ---- calls that set up

    def set_up(self, call):
        """Makes what a call says."""
        word, rest = word_of(call)
        word = word.removesuffix(",")
        if word in ("server", "guarded", "account", "owner"):
            self.configure(word, rest)
        elif word in ("make", "edit", "acl", "remove", "kick"):
            self.change(word, rest, call)
        elif word in ("join", "leave", "user", "tokens", "target"):
            self.dismiss()
            {"join": self.join, "leave": self.leave, "user": self.set_user, "tokens": self.set_tokens,
             "target": self.set_target}[word](rest, call)
        else:
            raise NoCase(f"no call: {call}")

    def configure(self, word, rest):
        """Settings and accounts, which are the configuration's alone."""
        if word == "server":
            self.configuration.set_server(rest)
        elif word == "guarded":
            self.configuration.guard(rest)
        else:
            self.configuration.add_account(rest)

    def change(self, word, rest, call):
        """A channel, a list, or who is kicked: the configuration's, a user's or the administrator's."""
        if word == "make" and has(rest, "temporary"):
            self.make_temporary(rest, call)
        elif word in ("remove", "kick") or self.is_settled or word == "edit" and not self.configuration.may_edit(rest):
            self.is_settled = True
            self.administer(*self.administered(word, rest), call)
            self.note_kick(word, rest)
        elif word == "make":
            self.configuration.make_channel(rest)
        elif word == "edit":
            self.configuration.edit_channel(rest)
        else:
            self.configuration.set_acl(rest)

    def administered(self, word, rest):
        """The message by which the administrator does it."""
        if word == "acl":
            head, _, parts = rest.partition(":")
            message = acl_message(parts)
            message["acls"].append({"group": f"#{BACKSTAGE}", "grant": 1})
            return mumble.ACL, {"channel_id": number(head_of(head)[0]), **message}
        return self.asked_by_name(word, rest)

    def asked_by_name(self, word, rest):
        """The message that asks for a change of channels or lists, or for somebody to be kicked."""
        if word == "acl":
            head, _, parts = rest.partition(":")
            return mumble.ACL, {"channel_id": number(head_of(head)[0]), **acl_message(parts)}
        kind, message = message_of(f"{word} {head_of(rest)[0] if word == 'remove' else rest}")
        if word in ("make", "edit"):
            parent = part(rest, "parent") or part(rest, "under") or ("0" if word == "make" else None)
            message["parent"] = None if parent is None else number(parent)
        return kind, renamed(kind, message, self.session_of)

    def note_kick(self, word, rest):
        """Who was kicked is here no more; its connection stays open."""
        if word == "kick":
            self.end(self.user(head_of(rest)[0]))

    def end(self, user):
        """The session of a user is here no more."""
        user.is_here = False
        del self.slots[user.slot]

    def welcomed(self, made, name, tokens):
        """A user that logged in by an attempt is one of the line's."""
        self.sessions += 1
        slot = self.free_slot()
        self.slots[slot] = self.sessions
        self.slot_of[self.sessions] = slot
        place = len(self.users) + 1
        self.users[place] = User(place, made.connection, self.sessions, slot, name, None, pieces_of_texts(tokens))

    def make_temporary(self, rest, call):
        """`T, by 1, temporary`: its maker enters it."""
        self.dismiss()
        self.is_settled = True
        maker = self.user(part(rest, "by"))
        kind, message = message_of(f"make {rest}")
        message["parent"] = message["parent"] or 0
        with_right = self.lend(maker, call)
        self.command(maker.connection, kind, message, call)
        if with_right:
            self.show_tokens(maker, maker.tokens, call)

    def lend(self, user, call):
        """Lets a user do all but speak and whisper, by a token; whether it had to be lent."""
        if user.account == 0:
            return False
        self.configuration.lend()
        self.show_tokens(user, [*user.tokens, BACKSTAGE], call)
        return True

    def promise(self, user, channel):
        """A user that is to set the list of a channel has the token for it from its login on."""
        self.promised[user] = token_of(channel)
        self.configuration.lend_in(channel)

    def show_tokens(self, user, tokens, call):
        """A user logs in again with other tokens."""
        self.command(user.connection, mumble.AUTHENTICATE, {"tokens": tokens}, call)

    def join(self, rest, call):
        """`ann, account 7, tokens one two`"""
        name, parts = head_of(rest)
        account = part(parts, "account")
        account = None if account is None else number(account)
        if account is not None and self.configuration.accounts[account]["name"] != name:
            raise NoCase(f"nobody can log in under another name than the account's: {call}")
        self.welcome(name, account, texts(part(parts, "tokens")), call)

    def welcome(self, name, account, tokens, call):
        """A user logs in."""
        place = len(self.users) + 1
        tokens = tokens + [self.promised[place]] if place in self.promised else tokens
        connection, session, slot = self.log_in(name, account, tokens, call)
        self.users[place] = User(place, connection, session, slot, name, account, tokens)

    def leave(self, rest, call):
        """`1`: its connection ends."""
        user = self.user(rest)
        user.left_at = len(self.steps)
        user.is_here = user.is_open = False
        self.log_out(user.connection, user.slot, call)

    def set_user(self, rest, call):
        """`1, by 2, channel 3, flags +mute, cleared, comment hello, listen 4`: what is another's matter is done by
        the one who is named, and what is its own by the user itself."""
        self.is_settled = True
        for user, message in self.user_messages(rest):
            if user.account != 0:
                self.configuration.lend()
                message["temporary_access_tokens"] = [BACKSTAGE]
            self.command(user.connection, mumble.USER_STATE, message, call)

    def user_messages(self, rest):
        """The messages that a change of a user takes, each with the user who sends it."""
        who, parts = head_of(rest)
        user = self.user(who)
        actor = self.user(part(parts, "by") or who)
        _, message = message_of(f"user {rest}")
        message["session"] = user.session
        if has(parts, "cleared"):
            message["suppress"] = False
        if actor is user or user.account == 0:
            return [(user, message)]
        others = {key: value for key, value in message.items() if key in OTHERS_PARTS and value is not None}
        own = {key: value for key, value in message.items() if key not in OTHERS_PARTS and value not in (None, [])}
        messages = [(actor, {"session": user.session, **others})] if others else []
        return messages + ([(user, own)] if len(own) > 1 else [])

    def set_tokens(self, rest, call):
        """`1 one two`: a user logs in again with these tokens."""
        self.is_settled = True
        who, words = word_of(rest)
        user = self.user(who)
        user.tokens = texts(words)
        self.show_tokens(user, user.tokens, call)

    def set_target(self, rest, call):
        """`1 7 channel 3 links`: a voice target of a user."""
        self.is_settled = True
        who, target = word_of(rest)
        kind, message = message_of(f"target {target}")
        self.command(self.user(who).connection, kind, self.outgoing(kind, message), call)

    def outgoing(self, kind, message):
        """A message of the table with the numbers that sessions have in the recording."""
        if kind == mumble.VOICE_TARGET:
            items = [{**item, "session": [self.session_of(one) for one in item["session"]]}
                     for item in message["targets"]]
            return {**message, "targets": items}
        return renamed(kind, message, self.session_of)

    def moved_to_worker(self, user, worker):
        """The steps, with the connection of a user at another worker."""
        opened = f"open {user.connection} 0"
        return [f"open {user.connection} {worker}" if step == opened else step for step in self.steps]
