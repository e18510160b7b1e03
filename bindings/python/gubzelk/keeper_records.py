"""The records that a source and a replica return. Each is a tuple with names.

Names of brokers and of replicas are 16 random bytes, here 32 hexadecimal digits."""
from typing import NamedTuple, Optional


class SourceStatus(NamedTuple):
    """What a source says of itself."""

    #: The name of the present broker.
    name: str
    #: The broker's last entry. A replica that stands there has everything.
    front: int
    #: The entries of the brokers that are held.
    entries: int
    #: The bytes of the brokers that are held.
    bytes: int
    #: How many brokers are held: one, or two while replicas pass to a new one.
    held: int
    #: How many brokers began.
    brokers: int
    #: Why the last one began.
    reason: str
    #: How many replicas are known.
    replicas: int
    #: How many changes and tables were left out so far. `Source.left` has the last 64.
    left: int


class Known(NamedTuple):
    """What a source knows of a replica."""

    #: The replica's name.
    id: str
    #: Where its file stood when it last asked: 0 for an unknown name (it becomes a copy), 1 for the broker before the
    #: present one, and 2 for the present one.
    at: int
    #: The entry of that broker.
    cursor: int
    #: How many entries it doesn't have, or None while it becomes a copy.
    lag: Optional[int]
    #: How many seconds ago it last asked.
    since: float


class Left(NamedTuple):
    """Something that doesn't travel to replicas."""

    table: str
    #: The key as SQL literals, cut after some 200 bytes, or an empty text for a whole table.
    key: str
    #: Why it doesn't travel.
    why: str


class ReplicaStatus(NamedTuple):
    """What a replica says of itself, as of its last step."""

    #: The broker's name under which the file stands, or None if the file must become a copy.
    name: Optional[str]
    #: The entry at which the file stands.
    number: int
    #: The last entry of the source's broker, as of its last answer.
    front: int
    #: How many entries the file doesn't have, or None if that isn't known. It is 0 only if the last step was answered
    #: and the file had everything.
    lag: Optional[int]
    #: Whether a copy is being made.
    copying: bool
    #: How many pages of the copy are done.
    pages_done: int
    #: How many pages the copy has.
    pages: int
    #: How many copies this handle began.
    copies: int
    #: Why the last copy began, or an empty text before the first.
    reason: str
    #: Why the last step was LAGS, or an empty text.
    error: str
    #: Whether it was LAGS because others wrote to the source's database.
    foreign: bool
    #: The replica's name.
    id: str
