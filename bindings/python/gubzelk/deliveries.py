"""Deliveries as objects, and an iterator over those that are ready."""
from types import TracebackType
from typing import Callable, Iterator, Optional, SupportsIndex, Type, Union

from .errors import Drained, WindowFull
from .records import Taken
from .refused import Reentered, Refused, WrongProcess
from .subscriptions import SubscriptionCalls


class Delivery:
    """The entries `first` to `last` for a subscription.

    As a context manager it gives itself back if the body raises an exception, unless it was settled or given back:

        with delivery:
            delivery.accept()
            apply(delivery.text())
            delivery.ack()

    Its entries then come again. If the body had accepted them, `accept` raises Seen the next time."""

    __slots__ = ('broker', 'number', 'subscription', 'first', 'last', '_out')

    def __init__(self, broker: SubscriptionCalls, taken: Taken) -> None:
        self.broker = broker
        self.number, self.subscription, self.first, self.last = taken
        self._out = True

    def __repr__(self) -> str:
        return f'Delivery(number={self.number}, subscription={self.subscription}, first={self.first}, last={self.last})'

    def text(self) -> bytes:
        """The entries as one changeset, as Broker.combined returns it."""
        return self.broker.combined(self.first, self.last)

    def accept(self) -> int:
        """Applies the changes to the subscription's tables, as Broker.accept does. Returns its cursor."""
        return self.broker.accept(self.number)

    def ack(self) -> int:
        """Settles the delivery, as Broker.ack does. Returns the number up to which all is settled."""
        floor = self.broker.ack(self.number)
        self._out = False
        return floor

    def nack(self) -> None:
        """Gives the delivery back, as Broker.nack does."""
        self.broker.nack(self.number)
        self._out = False

    def nack_opened(self) -> int:
        """Gives the delivery back, each of its entries alone, as Broker.nack_opened does."""
        count = self.broker.nack_opened(self.number)
        self._out = False
        return count

    def __enter__(self) -> 'Delivery':
        return self

    def __exit__(self, kind: Optional[Type[BaseException]], error: Optional[BaseException],
                 trace: Optional[TracebackType]) -> None:
        if kind is not None and self._out:
            try:
                self.nack()
            except (Refused, Reentered, WrongProcess):
                # It has expired, its link is stale, or the broker is shut: nothing is left to give back.
                pass


def deliveries(broker: SubscriptionCalls, subscription: SupportsIndex,
               now: Union[SupportsIndex, Callable[[], SupportsIndex]]) -> Iterator[Delivery]:
    """What Broker.deliveries returns."""
    while True:
        try:
            taken = broker.take(subscription, now() if callable(now) else now)
        except (Drained, WindowFull):
            return
        if taken is None:
            return
        yield Delivery(broker, taken)
