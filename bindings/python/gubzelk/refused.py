"""The exception that every refusal is below, and those that no call of the library raises."""
from enum import IntEnum
from typing import Any, ClassVar, Optional, Tuple

from .codes import Code


class LibraryError(OSError):
    """No library is found, it can't be loaded, or it has another version than this package."""


class WrongProcess(RuntimeError):
    """The broker, the source or the replica was opened before a fork. Only the process that opened it makes its calls."""


class Reentered(RuntimeError):
    """A signal handler or a finalizer makes a call while the same thread makes one of the same broker, source or replica."""


class Refused(Exception):
    """A call is refused.

    `code` is what it returned, and `words` what that means. `numbers` are the two numbers that go with it, and `call`
    is its name."""

    of: ClassVar[Optional[Code]] = None
    #: The names of the numbers, as the message shows them.
    shows: ClassVar[Tuple[str, ...]] = ()
    call: str = ''

    def __init__(self, code: int, words: str, first: int = 0, second: int = 0) -> None:
        super().__init__(code, words, first, second)
        self.code, self.words, self.numbers = code, words, (first, second)

    def __str__(self) -> str:
        shown = ', '.join(f'{name} {self._shown(name)}' for name in self.shows)
        return (f'{self.call}: ' if self.call else '') + self.words + (f' ({shown})' if shown else '')

    def _shown(self, name: str) -> object:
        try:
            value = getattr(self, name)
        except (ValueError, IndexError):
            return 'unknown'
        return value.name if isinstance(value, IntEnum) else value

    def __reduce__(self) -> Tuple[Any, ...]:
        return type(self), self.args, {'call': self.call}
