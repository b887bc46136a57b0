"""Why nothing is written, and the status that says so."""
from enum import IntEnum


class Status(IntEnum):
    """How relay/from-murmurd ends, but for 0."""
    USAGE = 1
    UNREADABLE = 2
    NO_DATABASE = 3
    OTHER_APPLICATION = 4
    OTHER_VERSION = 5
    IN_USE = 6
    DAMAGED = 7
    TOO_MUCH = 8
    NOT_WRITTEN = 9


class Refused(Exception):
    """Nothing is written, for this reason."""

    def __init__(self, status, reason):
        super().__init__(reason)
        self.status = status
