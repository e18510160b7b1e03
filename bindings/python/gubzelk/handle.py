"""A handle of the library, which one thread at a time may use.

ctypes lets go of the interpreter's lock during a call, so another thread could enter the same handle. Each call holds
the handle's own lock."""
import ctypes
import os
import threading
from ctypes import byref, c_uint64, c_void_p
from typing import Any, List, NoReturn, Optional, Sequence, SupportsIndex, Tuple

from . import operands
from .codes import Code
from .errors import refusal
from .native import READS, Library, LimitsRow, Numbers, TableRow
from .refused import Reentered, WrongProcess
from .tables import Table

# texts up to this length take one call of the library; longer ones take two
ROOM = 65536


class Handle:
    """Makes calls by their names, and turns a refusal into an exception."""

    _handle: Optional[int] = None

    def __init__(self, library: Library, tables: Sequence[Table], limits: Sequence[int]) -> None:
        rows = (TableRow * max(1, len(tables)))()
        for row, table in zip(rows, tables):
            row.name, row.name_len = table.encoded, len(table.encoded)
            row.key, row.columns = table.key, len(table.key)
        self._library, self._lock, self._process = library, threading.RLock(), os.getpid()
        # held during a call: an interrupt at any moment leaves no lock behind that `with` has taken
        self._calling = threading.Lock()
        self._room = ctypes.create_string_buffer(ROOM)
        handle, why = c_void_p(), Numbers()
        code = library.open(byref(handle), byref(LimitsRow(*limits)), rows, len(tables), byref(why))
        if code < 0:
            raise refusal('open', code, library.message(code), why.first, why.second)
        self._handle = handle.value

    def __del__(self) -> None:
        # Nobody else has the handle, so no call is in it. A child of a fork leaves it alone.
        if self._handle is not None and self._process == os.getpid():
            self._library.free(self._handle)

    def __reduce__(self) -> NoReturn:
        raise TypeError('a broker is neither copied nor pickled')

    # ---- of each call

    def _own(self) -> None:
        """Refuses the child of a fork. The lock may be held for good there, so this comes first."""
        if self._process != os.getpid():
            raise WrongProcess('this broker was opened by another process')

    def _outside(self) -> None:
        """Refuses a signal handler or a finalizer that interrupts a call of its own thread. Other threads wait."""
        if self._calling.locked():
            raise Reentered('this thread is inside a call of this broker')

    def _make(self, name: str, words: Sequence[Any]) -> int:
        """Makes a call inside the lock, and returns its result, or raises its refusal. EMPTY is no refusal."""
        handle = self._handle
        if handle is None:
            raise refusal(name, Code.SHUT, self._library.message(Code.SHUT))
        result: int = self._library.calls[name](handle, *words)
        if result >= 0 or result == Code.EMPTY:
            return result
        why = Numbers()
        if name not in READS and result <= Code.FAULT and result != Code.BUSY:
            self._library.calls['why'](handle, byref(why))
        raise refusal(name, result, self._library.message(result), why.first, why.second)

    def _ask(self, name: str, *words: Any) -> int:
        """Makes a call."""
        self._own()
        with self._lock:
            self._outside()
            with self._calling:
                return self._make(name, words)

    def _number(self, name: str, *words: Any) -> int:
        """Makes a call that writes one number."""
        out = c_uint64()
        self._ask(name, *words, byref(out))
        return out.value

    def _text(self, name: str, *words: Any) -> bytes:
        """Makes a call that writes a text."""
        self._own()
        with self._lock:
            self._outside()
            with self._calling:
                length = self._make(name, (*words, self._room, ROOM))
                if length <= ROOM:
                    return ctypes.string_at(self._room, length)
                room = ctypes.create_string_buffer(length)
                self._make(name, (*words, room, length))
                return room.raw

    # ---- the handle itself

    def shut(self) -> None:
        """Frees all that the handle leads to (broker_shut). Each later call raises Shut. A second shut does nothing."""
        self._own()
        with self._lock:
            self._outside()
            with self._calling:
                if self._handle is not None:
                    self._library.shut(self._handle)

    def free(self) -> None:
        """Frees the handle and all that it leads to (broker_free). Each later call raises Shut. A second free does
        nothing. The end of a `with` statement frees too. In the child of a fork it only forgets the handle."""
        if self._process != os.getpid():
            self._handle = None
            return
        with self._lock:
            self._outside()
            handle, self._handle = self._handle, None
            if handle is not None:
                self._library.free(handle)

    @property
    def freed(self) -> bool:
        """Whether the handle is freed."""
        return self._handle is None

    def why(self) -> Tuple[int, int]:
        """The two numbers of the last refusal (broker_why), at first two zeros. The exception has them as `numbers`,
        and another thread's refusal changes what this returns."""
        why = Numbers()
        self._ask('why', byref(why))
        return why.first, why.second

    def message(self, code: SupportsIndex) -> str:
        """The words of a code (broker_message). Any number that C's int has serves."""
        self._own()
        return self._library.message(operands.code(code, 'code'))

    def version(self) -> int:
        """The version of the library as one number (broker_version): 1,000 for 0.1.0."""
        self._own()
        found: int = self._library.version()
        return found


def out_numbers(count: int) -> List[c_uint64]:
    """Places for numbers that a call writes."""
    return [c_uint64() for _ in range(count)]
