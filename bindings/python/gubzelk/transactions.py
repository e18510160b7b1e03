"""A transaction of a source, for a `with` statement."""
from types import TracebackType
from typing import TYPE_CHECKING, Iterable, List, Optional, Type

from .keeper_errors import KeeperClosed, NoTransaction
from .statements import Parameters, Row

if TYPE_CHECKING:
    from .source import Source


class Transaction:
    """A transaction. Only the thread that began it makes its calls.

    Each call raises NoTransaction before the `with` statement and after it, and where SQL has ended the transaction.
    What SQL refuses is a sqlite3.Error; the transaction then goes on, unless the body raises."""

    def __init__(self, source: 'Source') -> None:
        self._source = source

    def execute(self, sql: str, parameters: Parameters = ()) -> List[Row]:
        """Runs one statement, and returns its rows, as Source.execute does."""
        rows: List[Row] = self._source._within(lambda database: database.run(sql, parameters))
        return rows

    def executemany(self, sql: str, several: Iterable[Parameters]) -> None:
        """Runs one statement for each of several parameters. Its rows are dropped."""
        given = list(several)
        self._source._within(lambda database: database.run_many(sql, given))

    def executescript(self, sql: str) -> None:
        """Runs each statement of a text. Their rows are dropped. It commits nothing."""
        self._source._within(lambda database: database.run_script(sql))

    def __enter__(self) -> 'Transaction':
        self._source.begin()
        return self

    def __exit__(self, kind: Optional[Type[BaseException]], error: Optional[BaseException],
                 trace: Optional[TracebackType]) -> None:
        if kind is None:
            try:
                self._source.commit()
            except BaseException:
                self._undo()
                raise
        else:
            self._undo()

    def _undo(self) -> None:
        """Rolls back what is open. SQL may have ended the transaction, and the source may be closed."""
        try:
            self._source.rollback()
        except (NoTransaction, KeeperClosed):
            pass
