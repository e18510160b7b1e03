"""Replicas of SQLite databases by the calls of gubzelk.h, and a broker of changesets by those of broker.h.

    import gubzelk
    with gubzelk.Source('live.db') as source:                  # the program that writes
        with source.transaction() as t:
            t.execute('INSERT INTO item VALUES (?, ?)', (1, 'lamp'))

    with gubzelk.Replica('copy.db', 'live.db') as replica:     # another program
        for step in replica.steps():
            print(step)

source.py and replica.py have them. The broker alone:

    with gubzelk.Broker(gubzelk.tables_of(connection)) as broker:
        publisher = broker.publisher()
        subscription, _ = broker.subscribe(0)
        broker.place(publisher, changeset)
        for delivery in broker.deliveries(subscription):
            with delivery:
                delivery.accept()
                apply(delivery.text())
                delivery.ack()

broker.py has the broker, errors.py an exception for each refusal, and changesets.py a reader of changesets.
keeper_native.py and native.py say where the shared libraries are found."""
from . import changesets
from .broker import Broker
from .changesets import UNDEFINED, Change, ChangesetError, Operation
from .codes import Code, ConflictKind, FaultKind
from .deliveries import Delivery
from .errors import (
    AlreadyWithdrawn, BadCursor, BadLimit, BadTable, Busy, Closed, Conflict, Drained, Fault, Full, Gap, Holding,
    JournalFull, NoDelivery, NoPublisher, NoRow, NoSuch, NotAccepted, NotFallen, NothingStaged,
    NotInFlight, NotPlaced, NotYours, NoTable, OutOfMemory, Seen, SequenceFull, Shape, ShapeDiffers,
    Shut, StaleLink, StartAhead, Store, TooMany, UnknownTable, Waiting, WindowFull)
from .keeper_codes import KeeperCode, Step
from .keeper_errors import (
    FileTaken, InTransaction, KeeperClosed, KeeperRefused, Locked, LongPath, NoFile, NoMemory, NoTransaction,
    NotReplica, NotWal, OtherRole, RolledBack, SQLiteRefused, SystemRefused, TableTaken)
from .keeper_records import Known, Left, ReplicaStatus, SourceStatus
from .native import VERSION as __version__
from .records import About, Limits, Status, Subscribed, Taken
from .refused import LibraryError, Reentered, Refused, WrongProcess
from .replica import Replica
from .source import Source
from .tables import Table, tables_of
from .transactions import Transaction

__all__ = [
    'About', 'AlreadyWithdrawn', 'BadCursor', 'BadLimit', 'BadTable', 'Broker', 'Busy', 'Change', 'ChangesetError',
    'Closed', 'Code', 'Conflict', 'ConflictKind', 'Delivery', 'Drained', 'Fault', 'FaultKind', 'FileTaken', 'Full',
    'Gap', 'Holding', 'InTransaction', 'JournalFull', 'KeeperClosed', 'KeeperCode', 'KeeperRefused', 'Known', 'Left',
    'LibraryError', 'Limits', 'Locked', 'LongPath', 'NoDelivery', 'NoFile', 'NoMemory', 'NoPublisher', 'NoRow',
    'NoSuch', 'NoTable', 'NoTransaction', 'NotAccepted', 'NotFallen', 'NotInFlight', 'NotPlaced',
    'NotReplica', 'NotWal', 'NotYours', 'NothingStaged', 'Operation', 'OtherRole', 'OutOfMemory', 'Reentered',
    'Refused', 'Replica', 'ReplicaStatus', 'RolledBack', 'SQLiteRefused', 'Seen', 'SequenceFull', 'Shape',
    'ShapeDiffers', 'Shut', 'Source', 'SourceStatus', 'StaleLink', 'StartAhead', 'Status', 'Step', 'Store',
    'Subscribed', 'SystemRefused', 'Table', 'TableTaken', 'Taken', 'TooMany', 'Transaction', 'UNDEFINED',
    'UnknownTable', 'Waiting', 'WindowFull', 'WrongProcess', '__version__', 'changesets', 'tables_of']
