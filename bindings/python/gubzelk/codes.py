"""The codes of broker.h, the kinds of a fault and those of a conflict. The names are the header's, without BROKER_."""
from enum import IntEnum


class Code(IntEnum):
    """What a call returns. The exception of each refusal says what it means (errors.py)."""

    OK = 0
    IDLE = 1
    SHUT = -1
    NO_MEMORY = -2
    FAULT = -3
    BAD_LIMIT = -4
    BAD_TABLE = -5
    BUSY = -6
    NO_PUBLISHER = -10
    TOO_MANY = -11
    HOLDING = -12
    NOTHING_STAGED = -13
    CLOSED = -14
    FULL = -15
    NOT_PLACED = -16
    NOT_YOURS = -17
    ALREADY_WITHDRAWN = -18
    SEQUENCE_FULL = -19
    UNKNOWN_TABLE = -20
    SHAPE_DIFFERS = -21
    JOURNAL_FULL = -22
    WAITING = -23
    NO_SUCH = -30
    STALE_LINK = -31
    WINDOW_FULL = -32
    NO_DELIVERY = -33
    NOT_IN_FLIGHT = -34
    SEEN = -35
    DRAINED = -36
    EMPTY = -37
    NOT_ACCEPTED = -38
    BAD_CURSOR = -39
    START_AHEAD = -40
    GAP = -41
    SHAPE = -42
    CONFLICT = -43
    NOT_FALLEN = -44
    STORE = -45
    NO_TABLE = -46
    NO_ROW = -47


class FaultKind(IntEnum):
    """Why bytes are no changeset."""

    BAD_MARKER = 1
    PATCHSET = 2
    COLUMNS = 3
    NO_KEY = 4
    EMPTY_NAME = 5
    NAME_TOO_LONG = 6
    BAD_OPERATION = 7
    BAD_TYPE = 8
    REAL = 9
    UNDEFINED_FIELD = 10
    KEY_MISSING = 11
    KEY_CHANGED = 12
    ONE_SIDED = 13
    VALUE_TOO_LONG = 14
    TOO_LONG = 15
    TRUNCATED = 16


class ConflictKind(IntEnum):
    """Why a change can't be applied. The numbers are SQLite's."""

    #: The row is there with other values.
    DATA = 1
    #: The row isn't there.
    NOTFOUND = 2
    #: The row is there already.
    CONFLICT = 3
