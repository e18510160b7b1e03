"""The calls for subscriptions and for deliveries. Subscriptions are numbered from 0, deliveries and links from 1."""
from array import array
from ctypes import byref
from typing import Any, Optional, Sequence, SupportsIndex, Union

from . import changesets
from .codes import Code
from .errors import Conflict
from .handle import out_numbers
from .native import DeliveryRow, StatusRow
from .operands import BytesLike, flag, number, text
from .records import Status, Subscribed, Taken
from .sequence import SequenceCalls


class SubscriptionCalls(SequenceCalls):
    """What subscriptions do. `now` is any tick of the caller's clock, and the clock never goes back."""

    def __init__(self, *words: Any) -> None:
        super().__init__(*words)
        # the first and the last number of each delivery, which a Conflict is looked up by
        self._ranges = array('Q')

    def subscribe(self, start: SupportsIndex) -> Subscribed:
        """Adds a subscription to the entries after `start`, with empty tables. Returns its number and its link.

        Refused: JournalFull, StartAhead, TooMany."""
        return self._subscribed('subscribe', start)

    def subscribe_bare(self, start: SupportsIndex) -> Subscribed:
        """The same, but the subscription keeps no rows: `accept` checks the order of its deliveries, applies nothing,
        and never raises Conflict. Refused: JournalFull, StartAhead, TooMany."""
        return self._subscribed('subscribe_bare', start)

    def _subscribed(self, name: str, start: SupportsIndex) -> Subscribed:
        subscription, link = out_numbers(2)
        self._ask(name, number(start, 'start'), byref(subscription), byref(link))
        return Subscribed(subscription.value, link.value)

    def take(self, subscription: SupportsIndex, now: SupportsIndex = 0) -> Optional[Taken]:
        """Hands out a subscription's next ready entries, or returns None if none are ready.

        Refused: NoSuch, JournalFull, Closed, WindowFull, Drained."""
        return self._taken('take', number(subscription, 'subscription'), number(now, 'now'))

    def take_any(self, now: SupportsIndex = 0) -> Optional[Taken]:
        """Hands out the entries that have been ready the longest, of any subscription with room in its window, or
        returns None. Refused: JournalFull."""
        return self._taken('take_any', number(now, 'now'))

    def _taken(self, name: str, *words: int) -> Optional[Taken]:
        row = DeliveryRow()
        self._own()
        with self._lock:
            if self._ask(name, *words, byref(row)) == Code.EMPTY:
                return None
            missing = 2 * row.number - len(self._ranges)
            if missing > 0:
                self._ranges.extend([0] * missing)
            self._ranges[2 * row.number - 2:2 * row.number] = array('Q', [row.first, row.last])
        return Taken(row.number, row.subscription, row.first, row.last)

    def accept(self, delivery: SupportsIndex) -> int:
        """Applies all changes of a delivery to its subscription's tables, or none. Returns the last number that the
        subscription has accepted. The delivery needn't be in flight.

        Refused: NoDelivery, Store, Closed, StaleLink, Seen, Gap, Shape, Conflict."""
        found = number(delivery, 'delivery')
        return self._accepted('accept', found)

    def crash(self, delivery: SupportsIndex, kept: bool) -> int:
        """Lets a delivery's subscription fall while it accepts the delivery, as a test of a program needs it.

        It is as after `accept` if `kept`, and else as before. It accepts nothing until `resume`. Returns its cursor.
        Refused as `accept`."""
        return self._accepted('crash', number(delivery, 'delivery'), flag(kept, 'kept'))

    def _accepted(self, name: str, delivery: int, *words: bool) -> int:
        try:
            return self._number(name, delivery, *words)
        except Conflict as conflict:
            conflict.reads = lambda position: self._change(delivery, position)
            raise

    def _change(self, delivery: int, position: int) -> changesets.Change:
        """The change at this position of a delivery's text."""
        first, last = self._ranges[2 * delivery - 2:2 * delivery] or (0, 0)
        if first:
            for at, change in enumerate(changesets.read(self.combined(first, last))):
                if at == position:
                    return change
        raise LookupError(f'no change {position} of delivery {delivery}')

    def cursor(self, subscription: SupportsIndex) -> int:
        """The last number that a subscription has accepted. Refused: NoSuch."""
        return self._number('cursor', number(subscription, 'subscription'))

    def status(self, subscription: SupportsIndex) -> Status:
        """How far a subscription has come. Refused: NoSuch."""
        row = StatusRow()
        self._ask('status', number(subscription, 'subscription'), byref(row))
        return Status(*(getattr(row, name) for name in Status._fields))

    def ack(self, delivery: SupportsIndex) -> int:
        """Settles a delivery. Returns the number up to which the subscription has settled all.

        Refused: NoDelivery, JournalFull, StaleLink, NotInFlight, NotAccepted."""
        return self._number('ack', number(delivery, 'delivery'))

    def nack(self, delivery: SupportsIndex) -> None:
        """Gives a delivery back. Its entries are ready again.

        Refused: NoDelivery, JournalFull, StaleLink, NotInFlight."""
        self._ask('nack', number(delivery, 'delivery'))

    def nack_opened(self, delivery: SupportsIndex) -> int:
        """Gives a delivery back and opens it: each of its entries is ready again, alone. Returns how many they are.

        Refused: NoDelivery, JournalFull, StaleLink, NotInFlight."""
        return self._number('nack_opened', number(delivery, 'delivery'))

    def expire(self, now: SupportsIndex) -> int:
        """Gives back every delivery that has been out for the timeout or longer. Returns how many they are.

        Refused: JournalFull."""
        return self._number('expire', number(now, 'now'))

    def reconnect(self, subscription: SupportsIndex, cursor: SupportsIndex) -> int:
        """Lets a subscription go on after number `cursor`, under a new link, which is returned. Its deliveries from
        before are stale.

        After a number above the subscription's own cursor, `accept` raises Gap for good: the entries between never come
        again. Refused: NoSuch, JournalFull, Closed, BadCursor."""
        return self._number('reconnect', number(subscription, 'subscription'), number(cursor, 'cursor'))

    def resume(self, subscription: SupportsIndex) -> int:
        """Lets a subscription that has fallen go on after its own cursor, under a new link, which is returned.

        Refused: NoSuch, NotFallen, JournalFull, Closed, BadCursor."""
        return self._number('resume', number(subscription, 'subscription'))

    def unsubscribe(self, subscription: SupportsIndex) -> None:
        """Closes a subscription. Refused: NoSuch, JournalFull, Closed."""
        self._ask('unsubscribe', number(subscription, 'subscription'))

    def rows(self, subscription: SupportsIndex) -> bytes:
        """The rows of a subscription as a changeset with an INSERT for each: by their tables, and then by the bytes of
        their keys. It is made anew by each call. Refused: NoSuch."""
        return self._text('rows', number(subscription, 'subscription'))

    def row(self, subscription: SupportsIndex, table: SupportsIndex,
            key: Union[BytesLike, Sequence[changesets.Value]]) -> bytes:
        """The same of one row: the one of the table at place `table`, from 0, with this key.

        `key` is a tuple or a list of the values of the key columns, in the order of the columns; or their bytes, as a
        changeset has them. Refused: NoSuch, NoTable, NoRow."""
        values: Any = key
        found = changesets.key_text(values) if isinstance(values, (tuple, list)) else text(values, 'key')
        return self._text('row', number(subscription, 'subscription'), number(table, 'table'), found, len(found))
