"""An exception for each refusal of a call. Each is a Refused, and names the numbers that go with it.

A refused call changes nothing, but for three cases. A stream keeps its fault until `reset`. A refused `turn` may have
taken a changeset out of the intake, which the next one tries first. A refused `place` has reset the publisher's
stream."""
from typing import Callable, Dict, Optional, Type

from .changesets import Change, Record
from .codes import Code, ConflictKind, FaultKind
from .records import Limits
from .refused import Refused


class Shut(Refused):
    """The broker is shut or freed."""

    of = Code.SHUT


class OutOfMemory(Refused, MemoryError):
    """Memory ran out. Nothing changed, and the call may be made again."""

    of = Code.NO_MEMORY


class Fault(Refused):
    """The publisher's stream spells no changeset."""

    of = Code.FAULT
    shows = 'at', 'kind'

    @property
    def at(self) -> int:
        """The place of the fault in the stream, from 0."""
        return self.numbers[0]

    @property
    def kind(self) -> FaultKind:
        return FaultKind(self.numbers[1])


class BadLimit(Refused):
    """A limit is out of its range."""

    of = Code.BAD_LIMIT
    shows = ('limit',)

    @property
    def limit(self) -> str:
        """The limit's name."""
        return Limits._fields[self.numbers[0]]


class BadTable(Refused):
    """A table has the name of an earlier one, or is one too many."""

    of = Code.BAD_TABLE
    shows = 'table', 'duplicate'

    @property
    def table(self) -> int:
        """The table's place, from 0."""
        return self.numbers[0]

    @property
    def duplicate(self) -> bool:
        """Whether an earlier table has its name."""
        return self.numbers[1] == 1


class Busy(Refused):
    """Another call is in the handle. A Broker's own lock keeps this away."""

    of = Code.BUSY


class NoPublisher(Refused):
    """No publisher has this number."""

    of = Code.NO_PUBLISHER


class TooMany(Refused):
    """There are 64 publishers, or 1,024 subscriptions."""

    of = Code.TOO_MANY


class Holding(Refused):
    """A changeset is staged already. `send` it first."""

    of = Code.HOLDING


class NothingStaged(Refused):
    """Nothing is staged."""

    of = Code.NOTHING_STAGED


class Closed(Refused):
    """The sequence is closed, or the subscription is."""

    of = Code.CLOSED


class Full(Refused):
    """The intake is full. `turn` makes room."""

    of = Code.FULL


class NotPlaced(Refused):
    """No entry has this number."""

    of = Code.NOT_PLACED


class NotYours(Refused):
    """Another publisher sent the entry."""

    of = Code.NOT_YOURS


class AlreadyWithdrawn(Refused):
    """The entry is withdrawn already."""

    of = Code.ALREADY_WITHDRAWN


class SequenceFull(Refused):
    """The sequence has as many entries as it may, for good."""

    of = Code.SEQUENCE_FULL


class BadSection(Refused):
    """What UnknownTable and ShapeDiffers have in common."""

    shows = ('section',)

    @property
    def section(self) -> int:
        """The section of the changeset, from 0: the changes of one table."""
        return self.numbers[0]


class UnknownTable(BadSection):
    """A section is of a table that isn't the broker's."""

    of = Code.UNKNOWN_TABLE


class ShapeDiffers(BadSection):
    """A section has other columns or another key than its table."""

    of = Code.SHAPE_DIFFERS


class JournalFull(Refused):
    """268,435,455 steps are made. Open a new broker."""

    of = Code.JOURNAL_FULL


class Waiting(Refused):
    """Other changesets wait to be placed. `turn` places them."""

    of = Code.WAITING
    shows = ('count',)

    @property
    def count(self) -> int:
        """How many wait."""
        return self.numbers[0]


class NoSuch(Refused):
    """No subscription has this number."""

    of = Code.NO_SUCH


class StaleLink(Refused):
    """The subscription has another link now than the delivery."""

    of = Code.STALE_LINK


class WindowFull(Refused):
    """The subscription has as many deliveries in flight as its window holds."""

    of = Code.WINDOW_FULL


class NoDelivery(Refused):
    """No delivery has this number."""

    of = Code.NO_DELIVERY


class NotInFlight(Refused):
    """The delivery isn't in flight: it is settled, given back or expired."""

    of = Code.NOT_IN_FLIGHT


class Seen(Refused):
    """The delivery is accepted already."""

    of = Code.SEEN


class Drained(Refused):
    """The sequence is closed, and the subscription has settled all of it."""

    of = Code.DRAINED
    shows = ('last',)

    @property
    def last(self) -> int:
        """The last number of the sequence."""
        return self.numbers[0]


class NotAccepted(Refused):
    """Not all of the delivery is accepted."""

    of = Code.NOT_ACCEPTED
    shows = ('cursor',)

    @property
    def cursor(self) -> int:
        """The last number that the subscription has accepted."""
        return self.numbers[0]


class BadCursor(Refused):
    """The cursor isn't between the floor and what was offered."""

    of = Code.BAD_CURSOR
    shows = 'floor', 'offered'

    @property
    def floor(self) -> int:
        """The number up to which the subscription has settled all."""
        return self.numbers[0]

    @property
    def offered(self) -> int:
        """The greatest number that was delivered to it."""
        return self.numbers[1]


class StartAhead(Refused):
    """The start isn't placed."""

    of = Code.START_AHEAD
    shows = ('front',)

    @property
    def front(self) -> int:
        """The last number placed."""
        return self.numbers[0]


class Gap(Refused):
    """Other entries come first."""

    of = Code.GAP
    shows = ('expected',)

    @property
    def expected(self) -> int:
        """The number that the subscription must accept next."""
        return self.numbers[0]


class Shape(Refused):
    """An entry is of other tables than the subscription's."""

    of = Code.SHAPE
    shows = ('entry',)

    @property
    def entry(self) -> int:
        return self.numbers[0]


class Conflict(Refused):
    """A change conflicts with the subscription's rows. None of the delivery's changes is applied.

    `change`, `table` and `key` read the text of the delivery's entries when they are asked for, and need the broker."""

    of = Code.CONFLICT
    shows = 'position', 'kind'
    #: Reads a change by its position. The Broker sets it.
    reads: Optional[Callable[[int], Change]] = None
    _change: Optional[Change] = None

    @property
    def position(self) -> int:
        """The change among those of the delivery's text, from 0."""
        return self.numbers[0]

    @property
    def kind(self) -> ConflictKind:
        return ConflictKind(self.numbers[1])

    @property
    def change(self) -> Change:
        """The change that conflicts. A LookupError says that this exception has no broker, as after a pickle."""
        if self._change is None:
            if self.reads is None:
                raise LookupError('the conflict has no broker to read the change from')
            self._change = self.reads(self.position)
        return self._change

    @property
    def table(self) -> str:
        """The name of the change's table."""
        return self.change.table

    @property
    def key(self) -> Record:
        """The key of the change's row, in the order of the columns."""
        return self.change.key


class NotFallen(Refused):
    """The subscription hasn't fallen."""

    of = Code.NOT_FALLEN


class Store(Refused):
    """The subscription has fallen. `resume` lets it go on."""

    of = Code.STORE


class NoTable(Refused):
    """The broker has no table at this place."""

    of = Code.NO_TABLE


class NoRow(Refused):
    """The table has no row with this key."""

    of = Code.NO_ROW


CLASSES: Dict[int, Type[Refused]] = {
    kind.of: kind for kind in [*Refused.__subclasses__(), *BadSection.__subclasses__()] if kind.of is not None}


def refusal(call: str, code: int, words: str, first: int = 0, second: int = 0) -> Refused:
    """The exception of a code."""
    found = CLASSES.get(code, Refused)(code, words, first, second)
    found.call = call
    return found
