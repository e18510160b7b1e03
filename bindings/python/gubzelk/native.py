"""The shared library: where it is found, and the types of its calls.

It is the operand `library`, or the file that the environment variable GUBZELK_LIBRARY names, or libgubzelk.so beside
this file, or what the system's linker finds (ctypes.util)."""
import ctypes
import ctypes.util
import os
import sys
import threading
from ctypes import POINTER, Structure, c_bool, c_char_p, c_int, c_int64, c_size_t, c_uint64, c_void_p
from functools import lru_cache
from typing import Any, Callable, Dict, List, Optional, Tuple, Union

from .refused import LibraryError, WrongProcess

#: The version of the header that this package is written for, and the number that broker_version returns for it.
VERSION = '0.1.0'
VERSION_NUMBER = 1000

FILE = 'libgubzelk.dylib' if sys.platform == 'darwin' else 'libgubzelk.so'


class TableRow(Structure):
    """struct broker_table"""

    _fields_ = [('name', c_char_p), ('name_len', c_size_t), ('key', c_char_p), ('columns', c_size_t)]
    name: bytes
    name_len: int
    key: bytes
    columns: int


class LimitsRow(Structure):
    """struct broker_limits"""

    _fields_ = [(name, c_uint64) for name in ('batch', 'window', 'timeout', 'capacity', 'intake', 'appliers')]


class Numbers(Structure):
    """struct broker_numbers"""

    _fields_ = [('first', c_uint64), ('second', c_uint64)]
    first: int
    second: int


class DeliveryRow(Structure):
    """struct broker_delivery"""

    _fields_ = [(name, c_uint64) for name in ('number', 'subscription', 'first', 'last')]
    number: int
    subscription: int
    first: int
    last: int


class AboutRow(Structure):
    """struct broker_about"""

    _fields_ = [(name, c_uint64) for name in ('publisher', 'own', 'withdraws')]
    publisher: int
    own: int
    withdraws: int


class StatusRow(Structure):
    """struct broker_status"""

    _fields_ = [*((name, c_uint64) for name in ('start', 'floor', 'cursor', 'offered', 'link', 'ready', 'in_flight',
                                                'front')), ('closed', c_bool), ('fallen', c_bool)]


# What a call takes after its handle, and what it writes, a letter each: n a number, t a text with its length, b a bool;
# o a number, a, d, s and y a record, w a text into a buffer with its room.
CALLS = dict(
    publisher='o', feed='nt', reset='n', end='n', send='no', withdraw='nn', turn='o', place='nto', close='o', left='o',
    front='o', text='nw', combined='nnw', entry='na', subscribe='noo', subscribe_bare='noo', take='nnd', take_any='nd',
    accept='no', crash='nbo', cursor='no', status='ns', ack='no', nack='n', nack_opened='no', expire='no',
    reconnect='nno', resume='no', unsubscribe='n', rows='nw', row='nntw', why='y')
LETTERS: Dict[str, List[Any]] = dict(
    n=[c_uint64], t=[c_char_p, c_size_t], b=[c_bool], o=[POINTER(c_uint64)], a=[POINTER(AboutRow)],
    d=[POINTER(DeliveryRow)], s=[POINTER(StatusRow)], y=[POINTER(Numbers)], w=[c_char_p, c_size_t])
# the calls that only read, whose refusals have no numbers
READS = frozenset(['text', 'combined', 'rows', 'row', 'entry', 'cursor', 'status', 'left', 'front', 'why'])

Call = Callable[..., Any]


class Library:
    """The calls of one library."""

    def __init__(self, loaded: ctypes.CDLL) -> None:
        self.calls: Dict[str, Call] = {}
        for name, letters in CALLS.items():
            types = [one for letter in letters for one in LETTERS[letter]]
            self.calls[name] = typed(loaded, name, c_int64 if 'w' in letters else c_int, c_void_p, *types)
        self.open = typed(loaded, 'open', c_int, POINTER(c_void_p), POINTER(LimitsRow), POINTER(TableRow), c_size_t,
                          POINTER(Numbers))
        self.shut = typed(loaded, 'shut', None, c_void_p)
        self.free = typed(loaded, 'free', None, c_void_p)
        self.version = typed(loaded, 'version', c_int)
        self._message = typed(loaded, 'message', c_int64, c_int, c_char_p, c_size_t)

    def message(self, code: int) -> str:
        """The words of a code."""
        words = ctypes.create_string_buffer(64)
        self._message(code, words, 64)
        return words.value.decode('utf-8', 'replace')


def typed(loaded: ctypes.CDLL, name: str, result: Any, *types: Any) -> Call:
    """A function of the library, with its types."""
    function = getattr(loaded, 'broker_' + name)
    function.restype, function.argtypes = result, types
    made: Call = function
    return made


class Forks:
    """Whether this process is the forked child of one with threads, in which broker.h allows no call."""

    threads = child = False

    def before(self) -> None:
        self.threads = threading.active_count() > 1

    def after_in_child(self) -> None:
        self.child = self.child or self.threads


forks = Forks()
if hasattr(os, 'register_at_fork'):
    os.register_at_fork(before=forks.before, after_in_child=forks.after_in_child)


def found(library: Union[str, 'os.PathLike[str]', None] = None) -> str:
    """The path or the name of the library. A LibraryError says that there is none."""
    if library is not None:
        try:
            return os.fsdecode(library)
        except TypeError:
            raise TypeError(f'library is a path, not {type(library).__name__}') from None
    named = os.environ.get('GUBZELK_LIBRARY')
    if named:
        return named
    beside = os.path.join(os.path.dirname(os.path.abspath(__file__)), FILE)
    if os.path.exists(beside):
        return beside
    known: Optional[str] = ctypes.util.find_library('gubzelk')
    if known:
        return known
    raise LibraryError(f'no {FILE}: pass `library`, set GUBZELK_LIBRARY, or put the file beside {__file__}')


def load(path: str) -> Library:
    """Loads the library, once. A LibraryError says why it doesn't serve."""
    if forks.child:
        raise WrongProcess('the forked child of a process with threads opens no broker')
    return opened(path)


@lru_cache(maxsize=None)
def opened(path: str) -> Library:
    try:
        library = Library(ctypes.CDLL(path))
    except AttributeError as why:
        raise LibraryError(f'{path} is no libgubzelk of this version: {why}') from None
    except OSError as why:
        raise LibraryError(f'the library cannot be loaded: {why}') from None
    version = library.version()
    if version != VERSION_NUMBER:
        raise LibraryError(f'{path} has version {shown(version)}, and this package is for {VERSION}')
    return library


def shown(version: int) -> str:
    """A version as three numbers with points."""
    parts: Tuple[int, int, int] = version // 1000000, version // 1000 % 1000, version % 1000
    return '.'.join(map(str, parts))
