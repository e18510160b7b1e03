"""A replica: a file that stays a copy of a source's database. Its methods are the calls of gubzelk.h."""
import math
import time
from ctypes import byref, c_void_p
from typing import Iterator, Optional

from .keeper_codes import Step
from .keeper_errors import KeeperClosed
from .keeper_handle import KeeperHandle, path_bytes
from .keeper_native import UNKNOWN, OptionsRow, Path, ReplicaRow
from .keeper_records import ReplicaStatus
from .operands import flag, name
from .source import text, whole

#: How long one call of the library waits for news, in seconds. Between two calls an interrupt can come, and calls of
#: other threads.
SLICE = 0.1


class Replica(KeeperHandle):
    """A file that becomes and stays a copy of a database, as long as its steps are made.

        with Replica('copy.db', 'live.db') as replica:
            for step in replica.steps():
                if step is Step.LAGS:
                    print(replica.status().error)

    Others may read the file at any time, and nobody writes it. Neither file has to exist yet, and no source has to
    listen. The process must be allowed to read the source's file. Several threads may share a replica. Only the process
    that opened it uses it."""

    _what = 'replica'

    def __init__(self, file: Path, source_file: Path, *, socket: Optional[Path] = None, prefix: Optional[str] = None,
                 replace: bool = False, library: Optional[Path] = None) -> None:
        """Opens a replica. It makes a lock file, `file` with `-gz-lock` after it, and nothing else: steps do.

        `socket` and `prefix` are those of the source. `replace` lets `file` be any database, which is lost then.

        Refused: LongPath, FileTaken, SystemRefused, NoMemory. A LibraryError says that no library serves."""
        options = OptionsRow(
            prefix=None if prefix is None else whole(name(prefix, 'prefix'), 'prefix'),
            socket=None if socket is None else path_bytes(socket, 'socket'), replace=flag(replace, 'replace'))
        own, source = path_bytes(file, 'file'), path_bytes(source_file, 'source_file')
        super().__init__(library)
        handle = c_void_p()
        try:
            code = self._call('replica_open', byref(handle), own, source, byref(options))
        finally:
            # also where an interrupt comes as soon as it is open
            self._handle = handle.value
        if code < 0:
            raise self._refusal('replica_open', code)

    def _drop(self) -> None:
        handle, self._handle = self._handle, None
        if handle is not None:
            self._library.calls['replica_close'](handle)

    def step(self, timeout: float = 1.0) -> Step:
        """Brings the file further by at most one batch or one slice of a copy, and returns what it did.

        It returns Step.APPLIED at once. Else it tries until `timeout` seconds are over, plus some 0.3 s for an answer
        or a locked file, and returns the last result: only Step.IDLE says that the file has everything. An interrupt,
        such as control-C, comes through within some 0.1 s, and other threads run.

        Refused: NoMemory, NotReplica, OtherRole."""
        ends = time.monotonic() + timeout
        while True:
            left = ends - time.monotonic()
            found = self._slice(left)
            if found is Step.APPLIED or left <= SLICE:
                return found

    def _slice(self, seconds: float) -> Step:
        """Makes one step of at most SLICE seconds."""
        def makes(handle: int) -> Step:
            if self._ends:
                raise KeeperClosed('the replica is closed')
            code = self._call('replica_step', handle, math.ceil(max(0.0, min(seconds, SLICE)) * 1000))
            if code < 0:
                raise self._refusal('replica_step', code)
            return Step(code)
        return self._do(makes)

    def steps(self, timeout: float = 1.0) -> Iterator[Step]:
        """Makes one step after another, each with this timeout, and gives what each did. It ends when the replica is
        closed, by the loop or by another thread; `break` ends it too. Refused: what `step` names."""
        while not self.closed:
            try:
                found = self.step(timeout)
            except KeeperClosed:
                return
            yield found

    def wait(self, timeout: Optional[float] = None) -> bool:
        """Makes steps until the file has everything that was committed before the last of them began. Returns whether
        it came to that within `timeout` seconds; without one it waits on. Refused: what `step` names."""
        ends = math.inf if timeout is None else time.monotonic() + timeout
        while True:
            left, found = ends - time.monotonic(), self._slice(0)
            if found is Step.IDLE:
                return True
            if left <= 0:
                return False
            if found is not Step.APPLIED:
                time.sleep(min(left, SLICE / 2))

    def status(self) -> ReplicaStatus:
        """What the replica says of itself, as of its last step. The source may have gone on since."""
        row = ReplicaRow()

        def reads(handle: int) -> ReplicaStatus:
            self._call('replica_status', handle, byref(row))
            named = bytes(row.name)
            return ReplicaStatus(named.hex() if any(named) else None, row.number, row.front,
                                 None if row.lag == UNKNOWN else row.lag, bool(row.copying), row.pages_done, row.pages,
                                 row.copies, text(row.reason), text(row.error), bool(row.foreign), bytes(row.id).hex())
        return self._do(reads)

    def __repr__(self) -> str:
        return f'<Replica{", closed" if self.closed else ""}>'
