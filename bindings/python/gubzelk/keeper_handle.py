"""What a source and a replica have in common: the handle, the lock of threads, forks, and the end of the process."""
import atexit
import ctypes
import os
import threading
import time
import weakref
from types import TracebackType
from typing import Any, Callable, NoReturn, Optional, Set, Type, TypeVar

from .keeper_errors import KeeperClosed, KeeperRefused, keeper_refusal
from .keeper_native import KeeperLibrary, Path, found_keeper, inherited, load_keeper
from .refused import Reentered, WrongProcess

Self = TypeVar('Self', bound='KeeperHandle')
Result = TypeVar('Result')
#: How long a thread waits that has made the last call, where others wait: they come in then.
PAUSE = 0.0005


class KeeperHandle:
    """A handle of the keeper, which one thread at a time uses. Only the process that opened it does.

    An interrupt may come between any two steps of Python, and leaves no lock behind: `with` takes it and gives it."""

    #: How messages call it.
    _what = 'handle'
    _handle: Optional[int] = None
    _process = 0
    #: The thread that has a transaction open: others wait.
    _opener: Optional[threading.Thread] = None

    def __init__(self, library: Optional[Path]) -> None:
        self._library: KeeperLibrary = load_keeper(found_keeper(library))
        self._lock, self._calling = threading.RLock(), threading.Lock()
        self._changed = threading.Condition(self._lock)
        self._waiting: Set[threading.Thread] = set()
        self._last: Optional[threading.Thread] = None
        self._ends, self._process = False, os.getpid()
        handles.add(self)

    def __del__(self) -> None:
        # Nobody else has the handle, so no call is in it. A child of a fork leaves it alone.
        if self._process == os.getpid():
            self._drop()

    def __reduce__(self) -> NoReturn:
        raise TypeError(f'a {self._what} is neither copied nor pickled')

    def _drop(self) -> None:
        """Frees what the handle leads to."""
        raise NotImplementedError

    def _own(self) -> None:
        """Refuses the child of a fork. The lock may be held for good there, so this comes first."""
        if self._process != os.getpid():
            raise WrongProcess(f'this {self._what} was opened by another process')

    def _comes_in(self, me: threading.Thread) -> None:
        """Waits until the thread may make calls."""

    def _do(self, work: Callable[[int], Result], waits: bool = True) -> Result:
        """Does a work with the handle, while no other thread uses it. With `waits` it waits for the end of another
        thread's transaction. A signal handler that interrupts a call of its own thread gets Reentered."""
        self._own()
        me = threading.current_thread()
        if self._last is me and self._opener is not me and self._waiting - {me}:
            time.sleep(PAUSE)
        self._waiting.add(me)
        with self._lock:
            try:
                if waits:
                    self._comes_in(me)
            finally:
                self._waiting.discard(me)
            if self._calling.locked():
                raise Reentered(f'this thread is inside a call of this {self._what}')
            if self._handle is None:
                raise KeeperClosed(f'the {self._what} is closed')
            self._last = me
            with self._calling:
                return work(self._handle)

    def _call(self, name: str, *words: Any) -> int:
        """Makes a call, and returns its code."""
        ctypes.set_errno(0)
        code: int = self._library.calls[name](*words)
        return code

    def _refusal(self, name: str, code: int) -> KeeperRefused:
        """The exception of a code that a call has just returned."""
        return keeper_refusal(name, code, self._library.message(code), ctypes.get_errno(), self._sqlite_words())

    def _sqlite_words(self) -> str:
        """SQLite's words for its last refusal."""
        return ''

    def close(self) -> None:
        """Closes it. What another thread does ends first: a call, and a transaction. Each later call raises
        KeeperClosed, and a second close does nothing. In the child of a fork it only forgets the handle."""
        if self._process != os.getpid():
            self._handle = None
            return
        self._ends = True
        try:
            self._do(lambda handle: self._drop())
        except KeeperClosed:
            pass

    @property
    def closed(self) -> bool:
        """Whether it is closed."""
        return self._handle is None

    def __enter__(self: Self) -> Self:
        return self

    def __exit__(self, kind: Optional[Type[BaseException]], error: Optional[BaseException],
                 trace: Optional[TracebackType]) -> None:
        self.close()


handles: 'weakref.WeakSet[KeeperHandle]' = weakref.WeakSet()


def close_all() -> None:
    """At the end of the process. A call that doesn't end soon is left alone: the system frees what it has."""
    for handle in list(handles):
        if handle._process == os.getpid():
            handle._ends = True
            if handle._lock.acquire(timeout=1.0) and not handle._calling.locked():
                handle._drop()


def after_fork() -> None:
    """In the child of a fork."""
    inherited.is_set = inherited.is_set or any(not handle.closed for handle in list(handles))


atexit.register(close_all)
if hasattr(os, 'register_at_fork'):
    os.register_at_fork(after_in_child=after_fork)


def path_bytes(value: Path, what: str) -> bytes:
    """The bytes of a path."""
    try:
        found = os.fsencode(value)
    except TypeError:
        raise TypeError(f'{what} is a path, not {type(value).__name__}') from None
    if b'\0' in found:
        raise ValueError(f'{what} has a zero byte')
    return found
