"""The records that calls take and return. Each is a tuple with names."""
from typing import NamedTuple


class Limits(NamedTuple):
    """The limits of a broker."""

    #: The most entries in a delivery, 1 to 256.
    batch: int = 16
    #: The most deliveries in flight to a subscription, 1 to 64.
    window: int = 4
    #: After how many ticks a delivery expires, 1 to 1,000,000,000.
    timeout: int = 10
    #: The most entries of the sequence, 1 to 16,777,216.
    capacity: int = 65536
    #: The most changesets that wait to be placed, 1 to 4,096.
    intake: int = 64
    #: 1 to 16. It changes nothing here.
    appliers: int = 1


class Subscribed(NamedTuple):
    """A new subscription."""

    subscription: int
    link: int


class Taken(NamedTuple):
    """A delivery: the entries `first` to `last` for a subscription."""

    number: int
    subscription: int
    first: int
    last: int


class About(NamedTuple):
    """What is known of an entry beside its text."""

    #: The publisher that sent it.
    publisher: int
    #: Its number among that publisher's sendings, from 1.
    own: int
    #: The entry that it withdraws, or 0.
    withdraws: int


class Status(NamedTuple):
    """How far a subscription has come. `front - floor` is its lag."""

    #: The number after which it began.
    start: int
    #: The number up to which it has settled all.
    floor: int
    #: The last number that it has accepted; `start` before the first.
    cursor: int
    #: The greatest number that was delivered to it; `start` before the first.
    offered: int
    link: int
    #: How many deliveries are ready for it.
    ready: int
    #: How many deliveries are in flight to it.
    in_flight: int
    #: The last number placed.
    front: int
    closed: bool
    fallen: bool
