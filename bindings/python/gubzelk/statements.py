"""SQL statements by SQLite's own calls: their texts, parameters and rows."""
import ctypes
import math
import sqlite3
from ctypes import byref, c_void_p
from types import TracebackType
from typing import TYPE_CHECKING, Any, List, Mapping, Optional, Sequence, Tuple, Type, Union

if TYPE_CHECKING:
    from .database import Database

OK, ROW, DONE = 0, 100, 101
INTEGER, FLOAT, TEXT, BLOB = 1, 2, 3, 4
UTF8 = 1
TRANSIENT = c_void_p(-1)

#: A value of SQLite. A bool is its number, and any object with a buffer of bytes is a blob.
Value = Union[None, int, float, str, bytes]
Row = Tuple[Value, ...]
Parameters = Union[Sequence[Any], Mapping[str, Any]]


def sql_bytes(sql: str) -> bytes:
    """The bytes of a text of SQL."""
    if not isinstance(sql, str):
        raise TypeError(f'sql is a str, not {type(sql).__name__}')
    return text_bytes(sql, 'sql')


def text_bytes(value: str, what: str) -> bytes:
    """A text in UTF-8. SQLite's functions are undefined on a text with a NUL character."""
    if '\0' in value:
        raise ValueError(f'{what} has a NUL character, which no text of SQLite should have: a blob may')
    try:
        return value.encode()
    except UnicodeEncodeError:
        raise ValueError(f'{what} has a lone surrogate, which UTF-8 cannot spell') from None


class Script:
    """A text with SQL statements."""

    def __init__(self, database: 'Database', sql: str) -> None:
        encoded = sql_bytes(sql)
        self._database, self._text = database, ctypes.create_string_buffer(encoded)
        self._at = ctypes.addressof(self._text)
        self._end = self._at + len(encoded)

    def next(self) -> Optional['Statement']:
        """The next statement, or None after the last one."""
        while self._at < self._end:
            pointer, tail = c_void_p(), c_void_p()
            code = self._database.calls['prepare_v2'](self._database.pointer, self._at, self._end - self._at + 1,
                                                      byref(pointer), byref(tail))
            if code:
                raise self._database.error(code)
            self._at = tail.value or self._end
            if pointer.value:
                return Statement(self._database, pointer.value)
        return None

    def only(self) -> Optional['Statement']:
        """The statement of a text that has one, or None if it has none."""
        statement = self.next()
        if statement is None:
            return None
        try:
            other = self.next()
        except BaseException as why:
            statement.close()
            if isinstance(why, sqlite3.Error):
                raise sqlite3.ProgrammingError('one statement at a time: executescript runs several') from None
            raise
        if other is not None:
            other.close()
            statement.close()
            raise sqlite3.ProgrammingError('one statement at a time: executescript runs several')
        return statement


class Statement:
    """A prepared statement."""

    def __init__(self, database: 'Database', pointer: int) -> None:
        self._database, self._calls, self._pointer = database, database.calls, pointer

    def close(self) -> None:
        pointer, self._pointer = self._pointer, 0
        if pointer:
            self._calls['finalize'](pointer)

    def __enter__(self) -> 'Statement':
        return self

    def __exit__(self, kind: Optional[Type[BaseException]], error: Optional[BaseException],
                 trace: Optional[TracebackType]) -> None:
        self.close()

    def only_reads(self) -> bool:
        """Whether it doesn't change the database."""
        return bool(self._calls['stmt_readonly'](self._pointer))

    # ---- parameters

    def bind(self, parameters: Parameters) -> None:
        """Sets all parameters: a sequence by their places, a mapping by their names."""
        count = self._calls['bind_parameter_count'](self._pointer)
        if isinstance(parameters, Mapping):
            values = [self._named(parameters, place) for place in range(1, count + 1)]
        elif isinstance(parameters, (str, bytes, bytearray)) or not isinstance(parameters, Sequence):
            raise TypeError(f'parameters is a sequence or a mapping, not {type(parameters).__name__}')
        else:
            values = list(parameters)
        if len(values) != count:
            raise sqlite3.ProgrammingError(f'the statement has {count} parameters, and {len(values)} are given')
        for place, value in enumerate(values, 1):
            self._check(self._bind(place, value))

    def _named(self, parameters: Mapping[str, Any], place: int) -> Any:
        name = self._calls['bind_parameter_name'](self._pointer, place)
        if name is None or name.startswith(b'?'):
            raise sqlite3.ProgrammingError(f'parameter {place} has no name: pass a sequence')
        try:
            return parameters[name[1:].decode()]
        except KeyError:
            raise sqlite3.ProgrammingError(f'no value for the parameter {name.decode()}') from None

    def _bind(self, place: int, value: Any) -> int:
        """Sets a parameter, and returns SQLite's code."""
        calls, at, what = self._calls, self._pointer, f'parameter {place}'
        code: int
        if value is None:
            code = calls['bind_null'](at, place)
        elif isinstance(value, int):
            if not -1 << 63 <= value < 1 << 63:
                raise OverflowError(f'{what} is not between -2**63 and 2**63 - 1')
            code = calls['bind_int64'](at, place, int(value))
        elif isinstance(value, float):
            if math.isnan(value):
                raise ValueError(f'{what} is not a number, for which SQLite would store NULL')
            code = calls['bind_double'](at, place, value)
        elif isinstance(value, str):
            encoded = text_bytes(value, what)
            code = calls['bind_text64'](at, place, encoded, len(encoded), TRANSIENT, UTF8)
        else:
            blob = blob_bytes(value, what)
            code = calls['bind_blob64'](at, place, blob, len(blob), TRANSIENT)
        return code

    # ---- rows

    def runs(self) -> None:
        """Runs it to its end, and makes it ready to run again."""
        while self._step():
            pass
        self._check(self._calls['reset'](self._pointer))

    def rows(self) -> List[Row]:
        """Runs it, and returns its rows."""
        columns = range(self._calls['column_count'](self._pointer))
        found: List[Row] = []
        while self._step():
            found.append(tuple(self._value(column) for column in columns))
        return found

    def _step(self) -> bool:
        """Whether there is a row."""
        code = self._calls['step'](self._pointer)
        if code == ROW:
            return True
        if code != DONE:
            error = self._database.error(code)
            self._calls['reset'](self._pointer)
            raise error
        return False

    def _value(self, column: int) -> Value:
        """A value of the row."""
        calls, at = self._calls, self._pointer
        kind = calls['column_type'](at, column)
        if kind == INTEGER:
            number: int = calls['column_int64'](at, column)
            return number
        if kind == FLOAT:
            real: float = calls['column_double'](at, column)
            return real
        if kind not in (TEXT, BLOB):
            return None
        place = calls['column_text' if kind == TEXT else 'column_blob'](at, column)
        length = calls['column_bytes'](at, column)
        if not place and (length or kind == TEXT):
            raise MemoryError('SQLite has no memory for a value')
        found = ctypes.string_at(place, length) if place else b''
        if kind == BLOB:
            return found
        try:
            return found.decode()
        except UnicodeDecodeError:
            raise sqlite3.OperationalError(f'column {column + 1} has a text that is not UTF-8: CAST it AS BLOB') from None

    def _check(self, code: int) -> None:
        if code:
            raise self._database.error(code)


def blob_bytes(value: Any, what: str) -> bytes:
    """The bytes of a blob."""
    if isinstance(value, bytes):
        return value
    try:
        with memoryview(value) as view:
            return view.tobytes()
    except TypeError:
        raise TypeError(f'{what} is None, an int, a float, a str or bytes, not {type(value).__name__}') from None
