"""A firm of 300 channels in a mumble-server's database, with groups, lists and links, and questions about its rights.

Each of ten floors has 29 rooms, whose lists are the same on all floors. Cat is in the team of odd floors and dan in
that of even ones; ann administers, and bob is staff."""
import hashlib
import os
import re

from mumble_server import enter, log_in, permissions_of
from reader.mumble import AUTHENTICATE, PERMISSIONS
from reader.question import answer_to, channel_named
from reader.rights import rights_of
from reader.wire import message

FLOORS, ROOMS = 10, 29
PASSWORD = "a password for the test"
ACCOUNTS = ("ann", "bob", "cat", "dan", "eve", "fay")
ANN, BOB, CAT, DAN = 1, 2, 3, 4
QUESTIONS = os.path.join(os.path.dirname(os.path.abspath(__file__)), "murmurd-questions.txt")

WRITE, TRAVERSE, ENTER, SPEAK, MUTE_DEAFEN, MOVE, MAKE_CHANNEL, LINK_CHANNEL = (1 << bit for bit in range(8))
WHISPER, TEXT_MESSAGE, MAKE_TEMP_CHANNEL, KICK = 0x100, 0x200, 0x400, 0x10000
# What a client denies to all, and grants to those who have the password of a channel.
PASSWORDED = 0x38E

# Rooms that lie in another one of their floor, and those that inherit no list.
INSIDE = {5: 4, 9: 8, 11: 10, 15: 14, 17: 16}
CLOSED = (3, 19)
# Groups by rooms: the name, inherit, inheritable, who is added, who is removed.
GROUPS = {3: [("friends", 1, 1, [ANN, DAN], [])], 7: [("team", 0, 1, [5], [])], 8: [("team", 1, 0, [6], [CAT])]}
# Lists by rooms, F the number of the floor: an account or a group, here, subs, granted, denied.
LISTS = {
    2: [("all", 1, 1, 0, PASSWORDED), ("#keyF", 1, 1, PASSWORDED, 0)],
    3: [("all", 1, 1, 0, ENTER | SPEAK | WHISPER | TEXT_MESSAGE), ("friends", 1, 1, ENTER | SPEAK, 0)],
    4: [("all", 0, 1, 0, SPEAK), ("~in", 0, 1, SPEAK, 0), ("auth", 1, 0, MAKE_TEMP_CHANNEL, 0)],
    6: [("!team", 1, 1, 0, TEXT_MESSAGE), ("team", 1, 1, MAKE_TEMP_CHANNEL, 0)],
    7: [("team", 1, 1, MUTE_DEAFEN, 0)],
    8: [("team", 1, 1, MOVE, 0)],
    9: [("team", 1, 1, LINK_CHANNEL, 0), ("~!team", 1, 1, 0, WHISPER)],
    10: [(BOB, 1, 1, 0, TRAVERSE), (CAT, 1, 0, WRITE, 0), ("auth", 0, 1, MAKE_CHANNEL, 0)],
    12: [("all", 1, 1, 0, WHISPER), ("in", 1, 1, WHISPER, 0)],
    13: [("out", 1, 1, 0, TEXT_MESSAGE)],
    14: [("~sub,0,1", 1, 1, MAKE_CHANNEL, 0), ("!~sub,0,0", 1, 0, 0, SPEAK)],
    16: [("sub,0,0", 1, 1, MAKE_CHANNEL, 0)],
    18: [(DAN, 1, 1, WRITE, SPEAK), ("admin", 1, 1, 0, WRITE)],
    19: [("staff", 1, 1, WRITE, 0), ("none", 1, 1, MOVE, 0), ("!none", 1, 1, MAKE_CHANNEL, 0)],
}


def room(floor, number):
    """The number of the channel of a room."""
    return FLOORS + (floor - 1) * ROOMS + number


def quoted(value):
    """A value in SQL."""
    return "NULL" if value is None else str(value) if isinstance(value, int) else f"'{value}'"


def rows_of(table, rows):
    """SQL that adds rows to a table."""
    return [f"INSERT INTO {table} VALUES ({', '.join(map(quoted, row))});" for row in rows]


def groups_sql(channel, groups, first):
    """SQL that defines the groups of a channel, which have numbers from the first on."""
    lines = []
    for number, (name, inherit, inheritable, added, removed) in enumerate(groups, first):
        lines += rows_of("groups", [(number, 1, name, channel, inherit, inheritable)])
        lines += rows_of("group_members", [(number, 1, account, int(account in added)) for account in added + removed])
    return lines


def list_sql(channel, entries):
    """SQL that adds entries behind those that a channel has."""
    return rows_of("acl", [(1, channel, 10 + place, *((subject, "") if isinstance(subject, int) else (None, subject)),
                            here, subs, granted, denied)
                           for place, (subject, here, subs, granted, denied) in enumerate(entries)])


def floor_sql(floor):
    """SQL that makes a floor with its rooms."""
    lines = rows_of("channels", [(1, floor, 0, f"Floor {floor}", 1)])
    lines += groups_sql(floor, [("team", 1, 1, [CAT if floor % 2 else DAN], [])], 1000 * floor)
    lines += list_sql(floor, [("all", 0, 1, 0, MAKE_TEMP_CHANNEL), ("team", 0, 1, SPEAK, 0)])
    for number in range(1, ROOMS + 1):
        channel, parent = room(floor, number), room(floor, INSIDE[number]) if number in INSIDE else floor
        lines += rows_of("channels", [(1, channel, parent, f"Room {number}", int(number not in CLOSED))])
        lines += groups_sql(channel, GROUPS.get(number, []), 1000 * floor + 10 * number)
        entries = [(subject.replace("F", str(floor)) if isinstance(subject, str) else subject, *rest)
                   for subject, *rest in LISTS.get(number, [])]
        lines += list_sql(channel, entries)
    linked = [(4, 5), *((number, number + 1) for number in range(20, ROOMS))]
    return lines + rows_of("channel_links", [(1, room(floor, one), room(floor, other)) for one, other in linked])


def firm():
    """SQL that makes the firm of a new database. Passwords are digests of an old form, which the server still takes."""
    digest = hashlib.sha1(PASSWORD.encode()).hexdigest()
    lines = ["BEGIN;"]
    lines += rows_of("users (server_id, user_id, name, pw)",
                     [(1, number, name, digest) for number, name in enumerate(ACCOUNTS, 1)])
    lines += ["UPDATE `groups` SET group_id = 900 WHERE name = 'admin';"]
    lines += rows_of("group_members", [(900, 1, ANN, 1)]) + groups_sql(0, [("staff", 1, 1, [BOB], [])], 901)
    lines += list_sql(0, [("staff", 1, 1, KICK | MUTE_DEAFEN | MOVE, 0)])
    for floor in range(1, FLOORS + 1):
        lines += floor_sql(floor)
    return "\n".join([*lines, "COMMIT;"])


def questions():
    """The lines of the table: who, whether inside, a permission, the path of a channel, and whether it is allowed."""
    pattern = re.compile(r"(\S+) may (once inside )?(\w+) in (.+) = (yes|no)")
    with open(QUESTIONS, encoding="utf-8") as file:
        for line in file:
            if line.strip() and not line.startswith(";"):
                who, inside, permission, path, answer = pattern.fullmatch(line.strip()).groups()
                yield who, bool(inside), permission, path, answer == "yes"


class Askers:
    """Two clients of a server: a guest, who takes on tokens, and a user with an account, each of them by turns."""

    def __init__(self, server, channels):
        self.server, self.channels, self.user, self.name = server, channels, None, None
        self.guest, self.token, self.places = log_in(server, "guest"), None, {}

    def client_of(self, who):
        """The client of somebody: a token has `#` before it, and anybody else but `guests` is an account."""
        if who == "guests" or who.startswith("#"):
            if who != self.token:
                self.guest.send(AUTHENTICATE, message(*([(3, who[1:])] if who.startswith("#") else [])))
                self.token = who
            return self.guest
        if who != self.name:
            if self.user:
                self.user.close()
            self.user, self.name = log_in(self.server, who, PASSWORD), who
        return self.user

    def may(self, who, inside, permission, path):
        """Whether the server answers that somebody may do something in a channel, from the root or from inside."""
        client, channel = self.client_of(who), self.channels[path]
        assert enter(client, channel if inside else 0), f"{who} cannot enter {path}"
        return bool(permissions_of(client, channel) & PERMISSIONS[permission])


def may_here(document, answers, question):
    """Whether docs/who-may answers that somebody may do something."""
    who, inside, permission, path, _ = question
    said = answer_to(document, answers, who, permission, path)
    return said.startswith("yes") != (inside and said.endswith("once inside"))


def wrong_answers(server, document):
    """The questions of the table that a running server answers otherwise, or docs/who-may of a configuration, each with
    both answers; how many there are; and the two clients that asked."""
    asked, answers = list(questions()), rights_of(document)
    askers = Askers(server, {question[3]: channel_named(document, question[3]) for question in asked})
    found = [(question, askers.may(*question[:4]), may_here(document, answers, question)) for question in asked]
    return [one for one in found if one[1:] != 2 * (one[0][4],)], len(asked), askers
