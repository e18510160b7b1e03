"""A broker in this process. Its methods are the calls of broker.h."""
import os
from types import TracebackType
from typing import Callable, Iterable, Iterator, Optional, Sequence, SupportsIndex, Tuple, Type, TypeVar, Union

from . import operands
from .deliveries import Delivery, deliveries
from .native import found, load
from .records import Limits
from .subscriptions import SubscriptionCalls
from .tables import Table, table

Self = TypeVar('Self', bound='Broker')


class Broker(SubscriptionCalls):
    """A broker without publishers, entries and subscriptions at first.

        with Broker([Table('item', (1, 0, 0))]) as broker:
            broker.publisher()

    Each call of broker.h is a method with its name. broker_open is the constructor, and the end of a `with` statement
    is broker_free. `close` closes the sequence, and frees nothing.

    Several threads may use one Broker: each call holds a lock. A call doesn't wait for anything else. Only the process
    that opened the broker uses it: in the child of a fork each call raises WrongProcess."""

    def __init__(self, tables: Iterable[Union[Table, Tuple[Union[str, bytes], Union[bytes, Sequence[int]]]]],
                 limits: Sequence[int] = Limits(), library: Union[str, 'os.PathLike[str]', None] = None) -> None:
        """Opens a broker for these tables. `library` is the path of the shared object (native.py says which one serves
        without it).

        Refused: BadLimit, BadTable, OutOfMemory. A LibraryError says that no library serves."""
        if isinstance(tables, (str, bytes, Table)):
            raise TypeError(f'tables is an iterable of tables, not {type(tables).__name__}')
        rows = [table(one) for one in operands.several(tables, 'tables')]
        given = operands.several(limits, 'limits')
        if len(given) != len(Limits._fields):
            raise ValueError(f'limits has {len(Limits._fields)} numbers, not {len(given)}')
        numbers = [operands.number(limit, f'limit {name}') for limit, name in zip(given, Limits._fields)]
        super().__init__(load(found(library)), rows, numbers)
        self._name, self._tables, self._limits = os.urandom(16).hex(), tuple(rows), Limits(*numbers)

    @property
    def name(self) -> str:
        """The broker's name: 32 hexadecimal digits that no other broker has. A replica's file stores it beside its
        number: under another name the number says nothing."""
        return self._name

    @property
    def tables(self) -> Tuple[Table, ...]:
        """The tables that changesets may be of, in the order in which `row` counts them."""
        return self._tables

    @property
    def limits(self) -> Limits:
        """The limits that the broker was opened with."""
        return self._limits

    def deliveries(self, subscription: SupportsIndex,
                   now: Union[SupportsIndex, Callable[[], SupportsIndex]] = 0) -> Iterator[Delivery]:
        """Takes what is ready for a subscription, one delivery after another. `now` is a tick, or a function that
        returns one for each `take`; a program that never calls `expire` needs none.

        It ends when nothing is ready, when the window is full, and when the subscription is drained (`status` says
        which). A delivery that was given back comes again. Each thread needs an iterator of its own. Refused at the
        first step: NoSuch, JournalFull, Closed."""
        return deliveries(self, subscription, now)

    def __enter__(self: Self) -> Self:
        return self

    def __exit__(self, kind: Optional[Type[BaseException]], error: Optional[BaseException],
                 trace: Optional[TracebackType]) -> None:
        self.free()

    def __repr__(self) -> str:
        return f'<Broker {self._name}{", freed" if self.freed else ""}>'
