"""An exception for each refusal of a source or a replica. Each is a KeeperRefused.

What SQL itself refuses is an exception of the module sqlite3, as there: IntegrityError, OperationalError and so on."""
import os
from typing import Any, ClassVar, Dict, Optional, Tuple, Type

from .keeper_codes import KeeperCode


class KeeperClosed(RuntimeError):
    """The source or the replica is closed."""


class KeeperRefused(Exception):
    """A call of gubzelk.h is refused.

    `code` is what it returned, `words` what that means, and `call` the call's name. `detail` has SQLite's words for
    SQLiteRefused, Locked and RolledBack, those of the system for SystemRefused, and is empty else."""

    of: ClassVar[Optional[KeeperCode]] = None
    call: str = ''

    def __init__(self, code: int, words: str, detail: str = '') -> None:
        super().__init__(code, words, detail)
        self.code, self.words, self.detail = code, words, detail

    def __str__(self) -> str:
        return (f'{self.call}: ' if self.call else '') + self.words + (f' ({self.detail})' if self.detail else '')

    def __reduce__(self) -> Tuple[Any, ...]:
        return type(self), self.args, {'call': self.call}


class NoMemory(KeeperRefused, MemoryError):
    """Memory ran out. Any call raises it, and may be made again. `commit` leaves the transaction open."""

    of = KeeperCode.NO_MEMORY


class SQLiteRefused(KeeperRefused):
    """SQLite refuses; `detail` has its words. The opening of a Source, `begin`, `commit` and `rollback` raise it.

    `commit` leaves the transaction open. The opening and `begin` leave none open."""

    of = KeeperCode.SQLITE


class Locked(KeeperRefused):
    """Another connection has locked the database, for longer than the source's timeout. The opening of a Source, `begin`
    and `commit` raise it.

    `commit` leaves the transaction open. The opening and `begin` leave none open."""

    of = KeeperCode.BUSY


class NotWal(KeeperRefused):
    """The database isn't in WAL mode, or can't be. The opening of a Source raises it, and has changed nothing."""

    of = KeeperCode.NOT_WAL


class NoFile(KeeperRefused):
    """The database is no file, as ':memory:', or SQLite isn't thread-safe. The opening of a Source raises it, and has
    changed nothing."""

    of = KeeperCode.NO_FILE


class FileTaken(KeeperRefused):
    """A source or a replica keeps the file already. The opening of either raises it, and has changed nothing."""

    of = KeeperCode.TAKEN


class TableTaken(KeeperRefused):
    """A table has the name of the mark and another shape: pass `prefix`. The opening of a Source raises it, and has
    changed nothing."""

    of = KeeperCode.TABLE_TAKEN


class InTransaction(KeeperRefused):
    """A transaction is open already. `begin` raises it, and has changed nothing."""

    of = KeeperCode.IN_TRANSACTION


class NoTransaction(KeeperRefused):
    """No transaction is open: `begin` wasn't called, or SQL has ended the transaction. `commit` and `rollback` raise it,
    and the calls of a Transaction.

    What SQL has committed is found by the next `begin`, and all replicas become copies."""

    of = KeeperCode.NO_TRANSACTION


class RolledBack(KeeperRefused):
    """SQLite refused COMMIT and rolled the transaction back, as where the disk is full. `commit` raises it. No
    transaction is open."""

    of = KeeperCode.ROLLED_BACK


class LongPath(KeeperRefused):
    """The path of the socket is longer than 107 bytes: pass `socket`. The opening of a Source or a Replica raises it,
    and has changed nothing."""

    of = KeeperCode.LONG_PATH


class SystemRefused(KeeperRefused):
    """The system gives no socket, thread, lock file or random bytes; `detail` says why. The opening of a Source or a
    Replica raises it. That of a Source may leave a table of the mark in the database."""

    of = KeeperCode.SYSTEM


class NotReplica(KeeperRefused):
    """The file is a database that no replica was: pass `replace` if it may be lost. A step of a Replica raises it, and
    has changed nothing."""

    of = KeeperCode.NOT_REPLICA


class OtherRole(KeeperRefused):
    """The file is a source's, or the file of a Source is a replica's: pass `replace` if that is meant. A step of a
    Replica and the opening of a Source raise it, and have changed nothing."""

    of = KeeperCode.OTHER_ROLE


CLASSES: Dict[int, Type[KeeperRefused]] = {
    kind.of: kind for kind in KeeperRefused.__subclasses__() if kind.of is not None}
#: The codes that SQLite has words for.
OF_SQLITE = (KeeperCode.SQLITE, KeeperCode.BUSY, KeeperCode.ROLLED_BACK)


# SQLite's session functions end with a statement that succeeds, so the words of their error are lost.
NO_ERROR = 'not an error'
LOST_WORDS = 'SQLite had an error while it read the changes, and rolled the transaction back'


def keeper_refusal(call: str, code: int, words: str, errno: int = 0, sqlite: str = '') -> KeeperRefused:
    """The exception of a code. `errno` is the system's number, and `sqlite` has SQLite's words."""
    detail = sqlite if code in OF_SQLITE else ''
    if code == KeeperCode.ROLLED_BACK and sqlite == NO_ERROR:
        detail = LOST_WORDS
    if code == KeeperCode.SYSTEM and errno:
        detail = os.strerror(errno)
    found = CLASSES.get(code, KeeperRefused)(code, words, detail)
    found.call = call
    return found
