"""The calls for publishers and for the sequence. Publishers are numbered from 0, entries from 1."""
from ctypes import byref
from typing import Optional, SupportsIndex

from .codes import Code
from .handle import Handle, out_numbers
from .native import AboutRow
from .operands import BytesLike, number, text
from .records import About


class SequenceCalls(Handle):
    """What publishers do. Each call may raise Shut and OutOfMemory beside what it names.

    A wrong operand is a TypeError or a ValueError, and then no call is made."""

    def publisher(self) -> int:
        """Adds a publisher, and returns its number. Refused: TooMany."""
        return self._number('publisher')

    def feed(self, publisher: SupportsIndex, bytes: BytesLike) -> None:
        """Adds bytes to a publisher's stream, which may be cut anywhere.

        A Fault comes as soon as no more bytes can make the stream a changeset, and from then on until `reset`.
        Refused: NoPublisher, Fault."""
        found = text(bytes, 'bytes')
        self._ask('feed', number(publisher, 'publisher'), found, len(found))

    def reset(self, publisher: SupportsIndex) -> None:
        """Empties a publisher's stream, and forgets its fault. What is staged stays. Refused: NoPublisher."""
        self._ask('reset', number(publisher, 'publisher'))

    def end(self, publisher: SupportsIndex) -> None:
        """Stages the changeset that a publisher's stream spells, and begins a new stream.

        Refused: NoPublisher, Holding, Fault, UnknownTable, ShapeDiffers. The stream then stays as it is."""
        self._ask('end', number(publisher, 'publisher'))

    def send(self, publisher: SupportsIndex) -> int:
        """Moves what a publisher staged to the end of the intake, and returns its number among the publisher's
        sendings, from 1. Refused: NoPublisher, NothingStaged, Closed, Full."""
        return self._number('send', number(publisher, 'publisher'))

    def withdraw(self, publisher: SupportsIndex, entry: SupportsIndex) -> None:
        """Stages the withdrawal of an entry that the publisher sent: the changeset that takes it back. `send` follows.

        Refused: NoPublisher, Holding, NotPlaced, NotYours, AlreadyWithdrawn."""
        self._ask('withdraw', number(publisher, 'publisher'), number(entry, 'entry'))

    def turn(self) -> Optional[int]:
        """Places the changeset that was sent first, and returns its number, or None if nothing waits.

        Refused: JournalFull, Closed, SequenceFull. A refused turn may have taken a changeset out of the intake, which
        the next turn tries first."""
        [out] = out_numbers(1)
        return None if self._ask('turn', byref(out)) == Code.IDLE else out.value

    def place(self, publisher: SupportsIndex, bytes: BytesLike) -> int:
        """Places a whole changeset, and returns its number: `reset`, `feed`, `end`, `send` and `turn` in one call.

        Refused: NoPublisher, Waiting, Fault, Holding, UnknownTable, ShapeDiffers, Closed, JournalFull, SequenceFull.
        The publisher's stream is empty then, and nothing is staged, sent or placed."""
        found = text(bytes, 'bytes')
        return self._number('place', number(publisher, 'publisher'), found, len(found))

    def close(self) -> int:
        """Closes the sequence, and returns its last number: nothing more is sent or placed. A second call does the
        same. What is placed can still be taken, accepted and acknowledged.

        This frees nothing: `free` does, and so does the end of a `with` statement."""
        return self._number('close')

    def left(self) -> int:
        """The number of changesets that are sent and not placed."""
        return self._number('left')

    def front(self) -> int:
        """The last number placed, or 0."""
        return self._number('front')

    def text(self, entry: SupportsIndex) -> bytes:
        """The canonical text of an entry's changeset. Refused: NotPlaced."""
        return self._text('text', number(entry, 'entry'))

    def combined(self, first: SupportsIndex, last: SupportsIndex) -> bytes:
        """The entries `first` to `last` as one changeset: a row's changes become one change or none. It is made anew by
        each call. Refused: NotPlaced unless 1 <= first <= last and `last` is placed."""
        return self._text('combined', number(first, 'first'), number(last, 'last'))

    def entry(self, entry: SupportsIndex) -> About:
        """What is known of an entry beside its text. Refused: NotPlaced."""
        row = AboutRow()
        self._ask('entry', number(entry, 'entry'), byref(row))
        return About(row.publisher, row.own, row.withdraws)
