"""The codes of gubzelk.h, and what a step of a replica returns."""
from enum import Enum, IntEnum


class KeeperCode(IntEnum):
    """What a call of gubzelk.h returns. The names are the header's, without GZ_. keeper_errors.py has an exception for
    each negative one."""

    OK = 0
    IDLE = 1
    AWAY = 2
    LAGS = 3
    NO_MEMORY = -1
    SQLITE = -2
    BUSY = -3
    NOT_WAL = -4
    NO_FILE = -5
    TAKEN = -6
    TABLE_TAKEN = -7
    IN_TRANSACTION = -8
    NO_TRANSACTION = -9
    ROLLED_BACK = -10
    LONG_PATH = -11
    SYSTEM = -12
    NOT_REPLICA = -13
    OTHER_ROLE = -14


class Step(Enum):
    """What a step of a replica did. Each is true: compare with `is`."""

    #: A batch is applied, a slice of a copy is written, or the file goes on with a new broker. The file may not have
    #: everything yet.
    APPLIED = 0
    #: The file has everything that was committed before the step began, and nothing new came.
    IDLE = 1
    #: No source listens. The file stays as it is, and may not have everything.
    AWAY = 2
    #: The file doesn't have everything, and can't be brought further now. The status has the words.
    LAGS = 3
