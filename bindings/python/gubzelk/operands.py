"""Checks operands before a call. A wrong one is a TypeError or a ValueError that names the operand."""
import operator
from typing import Iterable, List, SupportsIndex, TypeVar, Union

Item = TypeVar('Item')

#: What a text may be. Other objects with a buffer of bytes serve too, such as an array or a mapped file.
BytesLike = Union[bytes, bytearray, memoryview]


def number(value: SupportsIndex, what: str) -> int:
    """An integer between 0 and 2**64 - 1. A bool is no number."""
    found = integer(value, what)
    if not 0 <= found < 1 << 64:
        raise ValueError(f'{what} is not between 0 and 2**64 - 1')
    return found


def code(value: SupportsIndex, what: str) -> int:
    """An integer that C's int has."""
    found = integer(value, what)
    if not -1 << 31 <= found < 1 << 31:
        raise ValueError(f'{what} is not between -2**31 and 2**31 - 1')
    return found


def integer(value: SupportsIndex, what: str) -> int:
    """Any integer."""
    if isinstance(value, bool):
        raise TypeError(f'{what} is an integer, not a bool')
    try:
        return operator.index(value)
    except TypeError:
        raise TypeError(f'{what} is an integer, not {type(value).__name__}') from None


def several(values: Iterable[Item], what: str) -> List[Item]:
    """The items of an iterable."""
    try:
        items = iter(values)
    except TypeError:
        raise TypeError(f'{what} is an iterable, not {type(values).__name__}') from None
    return list(items)


def flag(value: bool, what: str) -> bool:
    """True or False."""
    if not isinstance(value, bool):
        raise TypeError(f'{what} is a bool, not {type(value).__name__}')
    return value


def text(value: BytesLike, what: str) -> bytes:
    """Bytes that nobody can change during a call. A bytes object isn't copied, nor is a view of all of one. Any other
    object is, because another thread could write to it while the library reads it."""
    if type(value) is bytes:
        return value
    try:
        view = memoryview(value)
    except TypeError:
        raise TypeError(f'{what} is a bytes-like object, not {type(value).__name__}') from None
    with view:
        if view.format not in ('B', 'b', 'c'):
            raise TypeError(f'{what} has items of format {view.format}, not bytes')
        if type(view.obj) is bytes and view.c_contiguous and view.nbytes == len(view.obj):
            return view.obj
        return view.tobytes()


def name(value: Union[str, bytes], what: str) -> bytes:
    """The bytes of a name: a str in UTF-8, or bytes as they are."""
    if isinstance(value, str):
        try:
            return value.encode('utf-8', 'surrogateescape')
        except UnicodeEncodeError:
            raise ValueError(f'{what} has a lone surrogate, which UTF-8 cannot spell') from None
    if isinstance(value, bytes):
        return bytes(value)
    raise TypeError(f'{what} is a str or bytes, not {type(value).__name__}')
