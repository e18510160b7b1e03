"""A source: a database whose transactions replicas get. Its methods are the calls of gubzelk.h."""
import os
import sqlite3
import threading
import time
from ctypes import byref, c_void_p
from typing import Any, Callable, Iterable, Iterator, List, Optional, SupportsIndex

from .database import Database
from .keeper_codes import KeeperCode
from .keeper_handle import KeeperHandle, Result, path_bytes
from .keeper_native import UNKNOWN, KnownRow, LeftRow, OptionsRow, Path, SourceRow
from .keeper_records import Known, Left, SourceStatus
from .operands import flag, name, number
from .statements import Parameters, Row
from .transactions import Transaction

#: How long a call waits for a lock before an interrupt can come, in seconds.
SLICE = 0.1


class Source(KeeperHandle):
    """A database file that this process writes, and whose transactions are handed to replicas.

        with Source('live.db') as source:
            with source.transaction() as t:
                t.execute('INSERT INTO item VALUES (?, ?)', (1, 'lamp'))

    The source has a connection of its own. The keeper needs SQLite's pointer to it, and Python's sqlite3 module doesn't
    give its pointer in any way that lasts. Read the file by sqlite3.connect as you like. What that writes is a foreign
    write: the next `begin` finds it, and all replicas become copies.

    Several threads may share a source. A transaction belongs to the thread that began it, and other threads wait until
    it ends, but for `status`, `replicas` and `left`. Only the process that opened the source uses it."""

    _what = 'source'
    _database: Optional[Database] = None

    def __init__(self, path: Path, *, prefix: Optional[str] = None, socket: Optional[Path] = None,
                 max_bytes: SupportsIndex = 0, max_entries: SupportsIndex = 0, set_wal: bool = True,
                 replace: bool = False, timeout: float = 5.0, library: Optional[Path] = None) -> None:
        """Opens a source over a file, which is made if there is none. All replicas become copies then.

        The mark is the table `<prefix>mark`, `gz_` if it is None; replicas have the same prefix. `socket` is the path
        of the socket, the file's with `-gz` after it if None. A broker that holds more than `max_bytes` (256 MiB if 0)
        or `max_entries` (1,000,000 if 0) is followed by a new one. `set_wal` sets PRAGMA journal_mode=WAL. `replace`
        lets it take over a replica's file. `timeout` is how many seconds a call waits for another connection's lock.

        Refused: NoFile, LongPath, FileTaken, NotWal, TableTaken, OtherRole, Locked, SQLiteRefused, SystemRefused,
        NoMemory. A file that can't be opened is a sqlite3.Error. A LibraryError says that no library serves."""
        options = OptionsRow(
            prefix=None if prefix is None else whole(name(prefix, 'prefix'), 'prefix'),
            socket=None if socket is None else path_bytes(socket, 'socket'),
            max_bytes=number(max_bytes, 'max_bytes'), max_entries=number(max_entries, 'max_entries'),
            set_wal=flag(set_wal, 'set_wal'), replace=flag(replace, 'replace'))
        found = path_bytes(path, 'path')
        self._timeout = float(timeout)
        super().__init__(library)
        self._database = Database(self._library.sqlite, found)
        handle = c_void_p()
        try:
            code = self._patiently('source_open', byref(handle), self._database.pointer, byref(options))
        finally:
            # also where an interrupt comes as soon as it is open
            self._handle = handle.value
        if code < 0:
            error = self._refusal('source_open', code)
            self._drop()
            raise error

    def _drop(self) -> None:
        handle, self._handle = self._handle, None
        try:
            if handle is not None:
                self._library.calls['source_close'](handle)
        finally:
            if self._database is not None:
                self._database.close()

    def _sqlite_words(self) -> str:
        return self._database.words() if self._database is not None else ''

    def _patiently(self, call: str, *words: Any) -> int:
        """Makes a call until it finds no lock, or the timeout is over. An interrupt can come between."""
        assert self._database is not None
        ends = time.monotonic() + self._timeout
        try:
            while True:
                left = max(0.0, ends - time.monotonic())
                self._database.wait_for_locks(min(left, SLICE))
                code = self._call(call, *words)
                if code != KeeperCode.BUSY or left <= 0:
                    return code
        finally:
            self._database.wait_for_locks(self._timeout)

    # ---- transactions

    def transaction(self) -> Transaction:
        """A transaction for a `with` statement: `begin`, and `commit` at its end, or `rollback` if the body raises.

            with source.transaction() as t:
                t.execute(...)

        A refused commit is rolled back, and raised. Refused: what `begin` and `commit` name."""
        return Transaction(self)

    def begin(self) -> None:
        """Begins a transaction (BEGIN IMMEDIATE) that is recorded. `execute` then writes. Other threads wait until
        `commit` or `rollback`. A foreign write since the last commit is found here: all replicas become copies.

        Refused: InTransaction, Locked, SQLiteRefused, NoMemory."""
        was_open = self.in_transaction
        try:
            self._do(self._begin)
        except BaseException:
            # an interrupt may come when the transaction has begun
            if not was_open and self.in_transaction:
                self.rollback()
            raise

    def _begin(self, handle: int) -> None:
        if not self._opened.in_transaction:
            self._opener = threading.current_thread()
        try:
            code = self._patiently('begin', handle)
            if code < 0:
                raise self._refusal('begin', code)
        finally:
            self._settle()

    def commit(self) -> None:
        """Commits the transaction. It is in the database then, and will be in each replica.

        Locked, SQLiteRefused and NoMemory leave the transaction open: call it again, write more, or `rollback`.
        Refused: NoTransaction, Locked, SQLiteRefused, RolledBack, NoMemory."""
        self._do(lambda handle: self._finish('commit', handle))

    def rollback(self) -> None:
        """Rolls the transaction back. Refused: NoTransaction, SQLiteRefused, NoMemory."""
        self._do(lambda handle: self._finish('rollback', handle))

    def _finish(self, call: str, handle: int) -> None:
        try:
            code = self._call(call, handle)
            if code < 0:
                raise self._refusal(call, code)
        finally:
            self._settle()

    def _settle(self) -> None:
        """Lets other threads in if no transaction is open."""
        if not self._opened.in_transaction:
            self._opener = None
            self._changed.notify_all()

    def _comes_in(self, me: threading.Thread) -> None:
        """Waits until no other thread has a transaction open. That of a thread that has ended is left to anyone."""
        while True:
            opener = self._opener
            if opener is None or opener is me or not opener.is_alive() or not self._opened.in_transaction:
                return
            self._changed.wait(1.0)

    @property
    def _opened(self) -> Database:
        """The connection."""
        assert self._database is not None
        return self._database

    @property
    def in_transaction(self) -> bool:
        """Whether this thread has a transaction open."""
        # then no other thread is in a call
        is_own = self._opener is threading.current_thread() and self._process == os.getpid()
        return is_own and self._opened.in_transaction

    # ---- SQL

    def execute(self, sql: str, parameters: Parameters = ()) -> List[Row]:
        """Runs one statement, and returns its rows: tuples of None, int, float, str and bytes. `parameters` is a
        sequence, or a mapping for parameters with names (`:name`).

        Between `begin` and `commit` it may write. Outside it only reads, and VACUUM and PRAGMA are allowed: another
        statement that writes, or begins a transaction, is a sqlite3.ProgrammingError. What SQL refuses is a
        sqlite3.Error. A text with a NUL character or a lone surrogate, and a float that is not a number, is a
        ValueError."""
        return self._do(lambda handle: self._inside_run(handle, lambda database: database.run(sql, parameters))
                        if self.in_transaction else self._outside_run(sql, parameters))

    def _outside_run(self, sql: str, parameters: Parameters) -> List[Row]:
        database, is_open = self._opened, self._opened.in_transaction
        rows = database.run(sql, parameters, only_reads=not is_upkeep(sql))
        if database.in_transaction and not is_open:
            database.run('ROLLBACK', ())
            raise sqlite3.ProgrammingError('SQL begins no transaction: use `with source.transaction() as t`')
        return rows

    def _inside_run(self, handle: int, work: Callable[[Database], Result]) -> Result:
        """Does a work inside the transaction of this thread, which SQL may end."""
        if not self.in_transaction:
            raise self._refusal('execute', KeeperCode.NO_TRANSACTION)
        try:
            return work(self._opened)
        finally:
            if not self._opened.in_transaction:
                # the keeper then knows it too
                self._call('rollback', handle)
                self._settle()

    def _within(self, work: Callable[[Database], Result]) -> Result:
        """The same, for a Transaction."""
        return self._do(lambda handle: self._inside_run(handle, work))

    # ---- what it says of itself

    def status(self) -> SourceStatus:
        """What the source says of itself."""
        row = SourceRow()

        def reads(handle: int) -> SourceStatus:
            self._call('source_status', handle, byref(row))
            return SourceStatus(bytes(row.name).hex(), row.front, row.entries, row.bytes, row.held, row.brokers,
                                text(row.reason), row.replicas, row.left)
        return self._do(reads, waits=False)

    def replicas(self) -> Iterator[Known]:
        """The replicas that the source knows, all as of the call."""
        return iter(self._do(lambda handle: [
            Known(bytes(row.id).hex(), row.at, row.cursor, None if row.lag == UNKNOWN else row.lag, row.since)
            for row in self._listed('source_replica', handle, KnownRow)], waits=False))

    def left(self) -> Iterator[Left]:
        """What doesn't travel to replicas, the latest first: 64 at most."""
        return iter(self._do(lambda handle: [Left(text(row.table), text(row.key), text(row.why))
                                             for row in self._listed('source_left', handle, LeftRow)], waits=False))

    def _listed(self, call: str, handle: int, kind: Callable[[], Any]) -> Iterable[Any]:
        """The rows of a list, each valid until the next one."""
        index = 0
        while True:
            row = kind()
            if self._call(call, handle, index, byref(row)) != KeeperCode.OK:
                return
            yield row
            index += 1

    def __repr__(self) -> str:
        return f'<Source{", closed" if self.closed else ""}>'


def text(value: Optional[bytes]) -> str:
    """Words of the library."""
    return (value or b'').decode('utf-8', 'backslashreplace')


def whole(value: bytes, what: str) -> bytes:
    """Bytes without a zero byte."""
    if b'\0' in value:
        raise ValueError(f'{what} has a zero byte')
    return value


def is_upkeep(sql: str) -> bool:
    """Whether a statement may write outside of a transaction: it doesn't change rows, or the keeper finds it."""
    return isinstance(sql, str) and sql.lstrip().upper().startswith(('VACUUM', 'PRAGMA'))
