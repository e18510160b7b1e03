"""Reads the bytes of a changeset as Python values, and spells a key as a changeset does.

A value is None (NULL), an int, a float (REAL), a str (TEXT) or bytes (BLOB). A field that an UPDATE leaves alone is
UNDEFINED. A text that isn't UTF-8 has lone surrogates (PEP 383). The format is the one of
https://sqlite.org/session.html and of the comment at the top of sqlite3session.c."""
import struct
from enum import Enum, IntEnum
from typing import Iterable, Iterator, List, NamedTuple, Optional, Tuple, Union

from . import operands


class Undefined(Enum):
    """The type of UNDEFINED."""

    UNDEFINED = 0

    def __repr__(self) -> str:
        return 'UNDEFINED'


UNDEFINED = Undefined.UNDEFINED
Value = Union[None, int, float, str, bytes]
Field = Union[Value, Undefined]
Record = Tuple[Field, ...]


class Operation(IntEnum):
    """What a change does. The numbers are SQLite's, which are the bytes in a changeset."""

    DELETE = 9
    INSERT = 18
    UPDATE = 23


class Change(NamedTuple):
    """A change of one row."""

    table: str
    operation: Operation
    #: Whether a trigger or a foreign key made it.
    indirect: bool
    #: The row before it: for UPDATE the key and the columns that it changes; None for INSERT.
    old: Optional[Record]
    #: The row after it: for UPDATE the columns that it changes; None for DELETE.
    new: Optional[Record]
    #: A byte for each column: 0, or its place in the primary key.
    places: bytes

    @property
    def key(self) -> Record:
        """The values of the key columns, in the order of the columns."""
        image = self.new if self.old is None else self.old
        return tuple(field for field, place in zip(image or (), self.places) if place)


class ChangesetError(ValueError):
    """These bytes are no changeset. `at` is the place where reading ended, from 0."""

    def __init__(self, words: str, at: int) -> None:
        super().__init__(words, at)
        self.at = at

    def __str__(self) -> str:
        return f'{self.args[0]}, at byte {self.at}'


def read(text: operands.BytesLike) -> Iterator[Change]:
    """The changes of a changeset, one after another. A ChangesetError ends it where the bytes are no changeset: the
    changes before were right. It accepts what a broker accepts, and REAL values and any length too."""
    source = Source(operands.text(text, 'text'))
    name, places = '', b''
    while source.at < len(source.text):
        at, marker = source.at, source.byte()
        if marker == 0x54:
            name, places = source.header()
        elif not places:
            raise ChangesetError('a patchset' if marker == 0x50 else 'no header of a table', at)
        elif marker in (9, 18, 23):
            yield source.change(Operation(marker), name, places)
        else:
            raise ChangesetError('a patchset' if marker == 0x50 else 'neither a change nor a header', at)


def key_text(values: Iterable[Value]) -> bytes:
    """The bytes of a key for Broker.row: those of its values, in the order of the columns. A TypeError or a ValueError
    names a value that no key has."""
    return b''.join(spelled(value) for value in values)


def spelled(value: Value) -> bytes:
    """A value of a key as a changeset spells it."""
    if isinstance(value, int) and not isinstance(value, bool):
        if not -1 << 63 <= value < 1 << 63:
            raise ValueError("a key's integer is not between -2**63 and 2**63 - 1")
        return b'\1' + value.to_bytes(8, 'big', signed=True)
    if isinstance(value, str):
        found = operands.name(value, "a key's text")
        return b'\3' + varint(len(found)) + found
    if isinstance(value, bytes):
        return b'\4' + varint(len(value)) + value
    raise TypeError(f"a key's value is an int, a str or bytes, not {type(value).__name__}")


def varint(number: int) -> bytes:
    """A length below 2**56 as SQLite's varint."""
    found = [number & 127]
    while number > 127:
        number >>= 7
        found.append(number & 127 | 128)
    return bytes(reversed(found))


class Source:
    """The bytes of a changeset, and the place up to which they are read."""

    def __init__(self, text: bytes) -> None:
        self.text, self.at = text, 0

    def byte(self) -> int:
        if self.at >= len(self.text):
            raise ChangesetError('the bytes end inside a header or a change', self.at)
        self.at += 1
        return self.text[self.at - 1]

    def take(self, count: int) -> bytes:
        if count > len(self.text) - self.at:
            raise ChangesetError('the bytes end inside a header or a change', self.at)
        self.at += count
        return self.text[self.at - count:self.at]

    def varint(self) -> int:
        number = 0
        for _ in range(8):
            byte = self.byte()
            number = number << 7 | byte & 127
            if byte < 128:
                return number
        return number << 8 | self.byte()

    def header(self) -> Tuple[str, bytes]:
        """A table's name, and a byte for each of its columns."""
        at = self.at
        columns = self.varint()
        if not 1 <= columns <= 2000:
            raise ChangesetError('a table has 1 to 2,000 columns', at)
        places = self.take(columns)
        if not any(places):
            raise ChangesetError('a table without a key column', at)
        end = self.text.find(b'\0', self.at, self.at + 1025)
        if end == self.at:
            raise ChangesetError("a table's name is empty", end)
        if end < 0:
            raise ChangesetError("a table's name doesn't end within 1,024 bytes", self.at)
        name = self.take(end - self.at)
        self.at += 1
        return name.decode('utf-8', 'surrogateescape'), places

    def change(self, operation: Operation, name: str, places: bytes) -> Change:
        """The rest of a change, after its operation."""
        indirect = self.byte() != 0
        old = self.record(operation, places) if operation is not Operation.INSERT else None
        if old is not None and operation is Operation.UPDATE:
            new: Optional[Record] = self.later(places, old)
        else:
            new = self.record(operation, places) if operation is not Operation.DELETE else None
        return Change(name, operation, indirect, old, new, places)

    def record(self, operation: Operation, places: bytes) -> Record:
        """The record of an INSERT or a DELETE, or the first of an UPDATE."""
        found: List[Field] = []
        for place in places:
            at, field = self.at, self.field()
            if place and (field is None or field is UNDEFINED):
                raise ChangesetError('a key column without a value', at)
            if field is UNDEFINED and operation is not Operation.UPDATE:
                raise ChangesetError('a field of an INSERT or a DELETE without a value', at)
            found.append(field)
        return tuple(found)

    def later(self, places: bytes, old: Record) -> Record:
        """The second record of an UPDATE."""
        found: List[Field] = []
        for place, before in zip(places, old):
            at, field = self.at, self.field()
            if place and field is not UNDEFINED:
                raise ChangesetError('an UPDATE of a key column', at)
            if not place and (field is UNDEFINED) != (before is UNDEFINED):
                raise ChangesetError('a column with a value in one record of an UPDATE', at)
            found.append(field)
        return tuple(found)

    def field(self) -> Field:
        at, kind = self.at, self.byte()
        if kind == 0:
            return UNDEFINED
        if kind == 5:
            return None
        if kind == 1:
            return int.from_bytes(self.take(8), 'big', signed=True)
        if kind == 2:
            real: float = struct.unpack('>d', self.take(8))[0]
            return real
        if kind in (3, 4):
            found = self.take(self.varint())
            return found if kind == 4 else found.decode('utf-8', 'surrogateescape')
        raise ChangesetError('no field has this type', at)
