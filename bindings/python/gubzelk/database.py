"""A connection to an SQLite database by SQLite's own calls, for a Source: the keeper needs its pointer, which Python's
sqlite3 module doesn't give."""
import sqlite3
from ctypes import byref, c_void_p
from typing import Dict, Iterable, List, Optional, Type

from .keeper_native import Call
from .statements import Parameters, Row, Script

READWRITE_CREATE = 0x2 | 0x4
INTERNAL, NOMEM, TOOBIG, CONSTRAINT, MISMATCH, MISUSE, RANGE, NOTFOUND = 2, 7, 18, 19, 20, 21, 25, 12
#: The exceptions of the module sqlite3 by SQLite's codes. Other codes up to SCHEMA are OperationalError.
SCHEMA, CORRUPT = 17, 11
CLASSES: Dict[int, Type[Exception]] = {
    INTERNAL: sqlite3.InternalError, NOTFOUND: sqlite3.InternalError, CORRUPT: sqlite3.DatabaseError,
    TOOBIG: sqlite3.DataError, CONSTRAINT: sqlite3.IntegrityError, MISMATCH: sqlite3.IntegrityError,
    MISUSE: sqlite3.InterfaceError, RANGE: sqlite3.InterfaceError}


def sql_error(code: int, words: str) -> Exception:
    """The exception that the module sqlite3 has for a code of SQLite."""
    primary = code & 0xff
    if primary == NOMEM:
        return MemoryError(words)
    kind = CLASSES.get(primary, sqlite3.OperationalError if primary <= SCHEMA else sqlite3.DatabaseError)
    error = kind(words)
    error.sqlite_errorcode = code  # type: ignore[attr-defined]
    return error


class Database:
    """A connection. One thread at a time uses it."""

    pointer: Optional[int] = None

    def __init__(self, calls: Dict[str, Call], path: bytes) -> None:
        self.calls = calls
        pointer = c_void_p()
        code = calls['open_v2'](path, byref(pointer), READWRITE_CREATE, None)
        self.pointer = pointer.value
        if code:
            error = self.error(code)
            self.close()
            raise error

    def close(self) -> None:
        """Closes it. A second close does nothing."""
        pointer, self.pointer = self.pointer, None
        if pointer:
            self.calls['close_v2'](pointer)

    def words(self) -> str:
        """SQLite's words for the last call."""
        words: bytes = self.calls['errmsg'](self.pointer) if self.pointer else b''
        return words.decode('utf-8', 'replace')

    def error(self, code: int) -> Exception:
        """The exception of a code that a call on the connection has just returned."""
        if not self.pointer:
            return sql_error(code, self.calls['errstr'](code).decode())
        extended: int = self.calls['extended_errcode'](self.pointer)
        if extended & 0xff == code & 0xff:
            return sql_error(extended, self.words())
        return sql_error(code, self.calls['errstr'](code).decode())

    def wait_for_locks(self, seconds: float) -> None:
        """How long a call waits for another connection's lock."""
        self.calls['busy_timeout'](self.pointer, min(int(seconds * 1000 + 0.5), (1 << 31) - 1))

    @property
    def in_transaction(self) -> bool:
        """Whether a transaction is open."""
        return bool(self.pointer) and not self.calls['get_autocommit'](self.pointer)

    def run(self, sql: str, parameters: Parameters, only_reads: bool = False) -> List[Row]:
        """Runs a statement, and returns its rows."""
        statement = Script(self, sql).only()
        if statement is None:
            return []
        with statement:
            if only_reads and not statement.only_reads():
                raise sqlite3.ProgrammingError('a write outside of a transaction would be a foreign write: use '
                                               '`with source.transaction() as t`')
            statement.bind(parameters)
            return statement.rows()

    def run_many(self, sql: str, several: Iterable[Parameters]) -> None:
        """Runs a statement for each of several parameters. Rows are dropped."""
        statement = Script(self, sql).only()
        if statement is None:
            return
        with statement:
            for parameters in several:
                statement.bind(parameters)
                statement.runs()

    def run_script(self, sql: str) -> None:
        """Runs each statement of a text, one after the other. Rows are dropped."""
        script = Script(self, sql)
        while True:
            statement = script.next()
            if statement is None:
                return
            with statement:
                statement.runs()
