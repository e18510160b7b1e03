"""The shared library of the keeper: where it is found, and the types of its calls and of SQLite's.

It is the operand `library`, or the file that the environment variable GUBZELK_REPLICAS_LIBRARY names. Else it is
libgubzelk_replicas.so beside the file that GUBZELK_LIBRARY names or beside this file, or what the system's linker finds.

It calls the system's SQLite, libsqlite3.so.0, 3.37 or later with sessions. SQLite's calls are looked up through the
keeper's library, so that both are of one SQLite."""
import ctypes
import ctypes.util
import os
import warnings
from ctypes import POINTER, Structure, c_char_p, c_double, c_int, c_int64, c_size_t, c_ubyte, c_uint64, c_void_p
from functools import lru_cache
from importlib import import_module
from typing import Any, Callable, Dict, List, Optional, Tuple, Union

from .native import forks
from .refused import LibraryError, WrongProcess

FILE = 'libgubzelk_replicas.so'
#: The oldest SQLite that has all calls.
SQLITE = 3037000
#: What gubzelk.h has for a lag that isn't known.
UNKNOWN = (1 << 64) - 1

Call = Callable[..., Any]
Path = Union[str, 'os.PathLike[str]']
Name = c_ubyte * 16


class OptionsRow(Structure):
    """struct gz_options"""

    _fields_ = [('prefix', c_char_p), ('socket', c_char_p), ('max_bytes', c_uint64), ('max_entries', c_uint64),
                ('set_wal', c_int), ('replace', c_int), ('setup', c_void_p), ('context', c_void_p)]


class SourceRow(Structure):
    """struct gz_source_status"""

    _fields_ = [('name', Name), ('front', c_uint64), ('entries', c_uint64), ('bytes', c_uint64), ('held', c_int),
                ('brokers', c_uint64), ('reason', c_char_p), ('replicas', c_size_t), ('left', c_uint64)]


class KnownRow(Structure):
    """struct gz_known"""

    _fields_ = [('id', Name), ('at', c_int), ('cursor', c_uint64), ('lag', c_uint64), ('since', c_double)]


class LeftRow(Structure):
    """struct gz_left"""

    _fields_ = [('table', c_char_p), ('key', c_char_p), ('why', c_char_p)]


class ReplicaRow(Structure):
    """struct gz_replica_status"""

    _fields_ = [('name', Name), ('number', c_uint64), ('front', c_uint64), ('lag', c_uint64), ('copying', c_int),
                ('pages_done', c_int), ('pages', c_int), ('copies', c_uint64), ('reason', c_char_p),
                ('error', c_char_p), ('foreign', c_int), ('id', Name)]


# The calls without the prefix gz_: the result, and the operands.
CALLS: Dict[str, Tuple[Any, List[Any]]] = dict(
    message=(c_char_p, [c_int]),
    source_open=(c_int, [POINTER(c_void_p), c_void_p, POINTER(OptionsRow)]),
    source_close=(None, [c_void_p]),
    begin=(c_int, [c_void_p]),
    commit=(c_int, [c_void_p]),
    rollback=(c_int, [c_void_p]),
    source_status=(c_int, [c_void_p, POINTER(SourceRow)]),
    source_replica=(c_int, [c_void_p, c_size_t, POINTER(KnownRow)]),
    source_left=(c_int, [c_void_p, c_size_t, POINTER(LeftRow)]),
    replica_open=(c_int, [POINTER(c_void_p), c_char_p, c_char_p, POINTER(OptionsRow)]),
    replica_step=(c_int, [c_void_p, c_int]),
    replica_status=(c_int, [c_void_p, POINTER(ReplicaRow)]),
    replica_close=(None, [c_void_p]))

# The calls of SQLite without the prefix sqlite3_.
SQLITE_CALLS: Dict[str, Tuple[Any, List[Any]]] = dict(
    libversion_number=(c_int, []), threadsafe=(c_int, []), errstr=(c_char_p, [c_int]),
    open_v2=(c_int, [c_char_p, POINTER(c_void_p), c_int, c_char_p]), close_v2=(c_int, [c_void_p]),
    busy_timeout=(c_int, [c_void_p, c_int]), get_autocommit=(c_int, [c_void_p]), errmsg=(c_char_p, [c_void_p]),
    extended_errcode=(c_int, [c_void_p]),
    prepare_v2=(c_int, [c_void_p, c_void_p, c_int, POINTER(c_void_p), POINTER(c_void_p)]),
    finalize=(c_int, [c_void_p]), step=(c_int, [c_void_p]), reset=(c_int, [c_void_p]),
    stmt_readonly=(c_int, [c_void_p]), bind_parameter_count=(c_int, [c_void_p]),
    bind_parameter_name=(c_char_p, [c_void_p, c_int]), bind_null=(c_int, [c_void_p, c_int]),
    bind_int64=(c_int, [c_void_p, c_int, c_int64]), bind_double=(c_int, [c_void_p, c_int, c_double]),
    bind_text64=(c_int, [c_void_p, c_int, c_char_p, c_uint64, c_void_p, c_ubyte]),
    bind_blob64=(c_int, [c_void_p, c_int, c_char_p, c_uint64, c_void_p]),
    column_count=(c_int, [c_void_p]), column_type=(c_int, [c_void_p, c_int]),
    column_int64=(c_int64, [c_void_p, c_int]), column_double=(c_double, [c_void_p, c_int]),
    column_text=(c_void_p, [c_void_p, c_int]), column_blob=(c_void_p, [c_void_p, c_int]),
    column_bytes=(c_int, [c_void_p, c_int]))


class KeeperLibrary:
    """The calls of the keeper, and those of the SQLite that it calls."""

    def __init__(self, loaded: ctypes.CDLL) -> None:
        self.calls = typed(loaded, 'gz_', CALLS)
        self.sqlite = typed(loaded, 'sqlite3_', SQLITE_CALLS)

    def message(self, code: int) -> str:
        """The words of a code."""
        words: bytes = self.calls['message'](code)
        return words.decode('utf-8', 'replace')


def typed(loaded: ctypes.CDLL, prefix: str, calls: Dict[str, Tuple[Any, List[Any]]]) -> Dict[str, Call]:
    """The functions of a library with their types, by their names without the prefix."""
    found: Dict[str, Call] = {}
    for name, (result, operands) in calls.items():
        function = getattr(loaded, prefix + name)
        function.restype, function.argtypes = result, operands
        found[name] = function
    return found


def found_keeper(library: Optional[Path] = None) -> str:
    """The path or the name of the keeper's library. A LibraryError says that there is none."""
    if library is not None:
        try:
            return os.fsdecode(library)
        except TypeError:
            raise TypeError(f'library is a path, not {type(library).__name__}') from None
    named = os.environ.get('GUBZELK_REPLICAS_LIBRARY')
    if named:
        return named
    for file in [os.environ.get('GUBZELK_LIBRARY') or __file__, __file__]:
        beside = os.path.join(os.path.dirname(os.path.abspath(file)), FILE)
        if os.path.exists(beside):
            return beside
    known: Optional[str] = ctypes.util.find_library('gubzelk_replicas')
    if known:
        return known
    raise LibraryError(f'no {FILE}: pass `library`, set GUBZELK_REPLICAS_LIBRARY, or put the file beside {__file__}')


def load_keeper(path: str) -> KeeperLibrary:
    """Loads the library, once. A LibraryError says why it doesn't serve."""
    if forks.child or inherited.is_set:
        raise WrongProcess('the forked child of a process with threads, a source or a replica opens none: use spawn')
    return opened_keeper(path)


@lru_cache(maxsize=None)
def opened_keeper(path: str) -> KeeperLibrary:
    try:
        loaded = ctypes.CDLL(path, mode=mode(), use_errno=True)
        library = KeeperLibrary(loaded)
    except AttributeError as why:
        raise LibraryError(f'{path} is no {FILE} of this version: {why}') from None
    except OSError as why:
        raise LibraryError(f"the keeper's library cannot be loaded: {why}. It needs libsqlite3.so.0, SQLite 3.37 or "
                           'later with sessions') from None
    version = library.sqlite['libversion_number']()
    if version < SQLITE:
        raise LibraryError(f'SQLite has version {version // 1000000}.{version // 1000 % 1000}, and the keeper needs 3.37')
    if not is_shared(loaded):
        warnings.warn("Python's sqlite3 module has another copy of SQLite than the keeper: in this process, don't open "
                      'the file of a source or a replica by it (https://sqlite.org/howtocorrupt.html, 2.2.1)',
                      RuntimeWarning, stacklevel=5)
    return library


def mode() -> int:
    """The mode of loading. Where the process shows an SQLite of its own to all libraries, the keeper takes the one that
    it needs by name."""
    deep: int = getattr(os, 'RTLD_DEEPBIND', 0)
    return ctypes.DEFAULT_MODE | (deep if hasattr(ctypes.CDLL(None), 'sqlite3_open_v2') else 0)


def is_shared(loaded: ctypes.CDLL) -> bool:
    """Whether Python's sqlite3 module calls the same SQLite as the keeper. Two copies in one process don't see each
    other's locks on a file."""
    try:
        other = ctypes.CDLL(getattr(import_module('_sqlite3'), '__file__', None)).sqlite3_open_v2
    except (AttributeError, ImportError, OSError):
        return False
    return address(other) == address(loaded.sqlite3_open_v2)


def address(function: Any) -> Optional[int]:
    """Where a function lies."""
    return ctypes.cast(function, c_void_p).value


class Inherited:
    """Whether this process is the forked child of one that had a source or a replica open. SQLite's own tables of the
    files that are open would mislead it."""

    is_set = False


inherited = Inherited()
