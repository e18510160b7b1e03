"""The tables that changesets may be of: from names and key places, or as a connection of sqlite3 has them."""
import sqlite3
from typing import Any, Iterable, List, SupportsIndex, Tuple, Union

from . import operands


class Table:
    """A table's name, and for each column 0 or its place in the primary key, from 1.

    `key` is what the column `pk` of PRAGMA table_info has, such as (1, 0, 0) or b'\\1\\0\\0'. Two tables are equal if
    both are."""

    __slots__ = ('_name', '_key')
    _name: bytes
    _key: bytes

    def __init__(self, name: Union[str, bytes], key: Union[bytes, Iterable[SupportsIndex]]) -> None:
        """A TypeError or a ValueError says which operand no table has."""
        encoded = operands.name(name, "a table's name")
        if not 1 <= len(encoded) <= 1024 or 0 in encoded:
            raise ValueError("a table's name has 1 to 1,024 bytes, and no zero byte")
        if isinstance(key, str):
            raise TypeError("a table's key is bytes or integers, not str")
        try:
            places = [operands.number(place, "a place in a table's key") for place in key]
        except TypeError as why:
            raise TypeError(f"a table's key is bytes or integers: {why}") from None
        if not 1 <= len(places) <= 2000:
            raise ValueError('a table has 1 to 2,000 columns')
        if max(places) > 255:
            raise ValueError("a place in a table's key is at most 255")
        if not any(places):
            raise ValueError('a table has at least one key column')
        object.__setattr__(self, '_name', encoded)
        object.__setattr__(self, '_key', bytes(places))

    @classmethod
    def of(cls, connection: sqlite3.Connection, name: str, schema: str = 'main') -> 'Table':
        """The table as a connection has it, with the name as the schema spells it. A LookupError says that there is no
        such table. A ValueError says that it has no declared primary key: SQLite records no changes of it."""
        [*found] = asked(connection, f'SELECT name FROM {quoted(schema)}.{master(schema)} WHERE type = ? '
                         'AND name = ? COLLATE NOCASE', ('table', name))
        if not found:
            raise LookupError(f'no table {name} in {schema}')
        places = places_of(connection, found[0][0], schema)
        if not any(places):
            raise ValueError(f'table {name} has no declared primary key')
        return cls(found[0][0], places)

    @property
    def name(self) -> str:
        """The name. Bytes that aren't UTF-8 are lone surrogates in it (PEP 383)."""
        return self._name.decode('utf-8', 'surrogateescape')

    @property
    def encoded(self) -> bytes:
        """The bytes of the name."""
        return self._name

    @property
    def key(self) -> bytes:
        """A byte for each column: 0, or its place in the primary key."""
        return self._key

    def __setattr__(self, name: str, value: Any) -> None:
        raise AttributeError('a Table does not change')

    def __eq__(self, other: object) -> bool:
        return isinstance(other, Table) and (self._name, self._key) == (other._name, other._key)

    def __hash__(self) -> int:
        return hash((self._name, self._key))

    def __repr__(self) -> str:
        return f'Table({self.name!r}, {tuple(self._key)})'

    def __reduce__(self) -> Tuple[Any, ...]:
        return Table, (self._name, self._key)


def tables_of(connection: sqlite3.Connection, schema: str = 'main') -> List[Table]:
    """The tables of a connection of which SQLite's sessions record changes, in the order of their names: those with a
    declared primary key, without virtual tables and SQLite's own."""
    found = []
    for name, sql in asked(connection, f'SELECT name, sql FROM {quoted(schema)}.{master(schema)} WHERE type = ? '
                           'ORDER BY name', ('table',)):
        encoded, made = operands.name(name, 'name'), operands.name(sql or '', 'sql')
        if encoded.lower().startswith(b'sqlite_') or made.lower().startswith(b'create virtual'):
            continue
        places = places_of(connection, name, schema)
        if any(places):
            found.append(Table(name, places))
    return found


def table(value: Union[Table, Tuple[Any, Any]]) -> Table:
    """A table, or a pair of a name and a key as one."""
    if isinstance(value, Table):
        return value
    if isinstance(value, (tuple, list)) and len(value) == 2:
        return Table(*value)
    raise TypeError(f'a table is a Table or a pair of a name and a key, not {type(value).__name__}')


def places_of(connection: sqlite3.Connection, name: Union[str, bytes], schema: str) -> List[int]:
    """The column `pk` of PRAGMA table_info."""
    spelled = name if isinstance(name, str) else name.decode()
    return [row[5] for row in asked(connection, f'PRAGMA {quoted(schema)}.table_info({quoted(spelled)})', ())]


def asked(connection: sqlite3.Connection, sql: str, words: Tuple[str, ...]) -> List[Tuple[Any, ...]]:
    """The rows of a query, whatever the connection's row_factory is."""
    cursor = connection.cursor()
    cursor.row_factory = None
    try:
        return cursor.execute(sql, words).fetchall()
    finally:
        cursor.close()


def master(schema: str) -> str:
    return 'sqlite_temp_master' if schema.lower() == 'temp' else 'sqlite_master'


def quoted(name: str) -> str:
    return '"' + name.replace('"', '""') + '"'
