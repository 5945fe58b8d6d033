"""A store that has far more changes than its table has rows, made anew beside the one that is followed with."""
from __future__ import annotations

from typing import TYPE_CHECKING, Callable, Final, Optional

from psycopg2 import sql

from ._copy import Copy
from ._slot import TOLD, snapshot_of
from ._snapshot import InSnapshot
from ._table import one
from ._values import Rows

if TYPE_CHECKING:
    from psycopg2.extensions import connection as Connection

# (so many changes for each row, and so many in all, are no reason)
MOST_PER_ROW, FEWEST_CHANGES = 4, 100_000
SECONDS_AFTER_FAILURE: Final = 60.0


def has_many(changes: int, rows: int) -> bool:
    """Whether a store has so many changes that it is made anew."""
    return changes > max(FEWEST_CHANGES, MOST_PER_ROW * rows)


class StoreAnew(InSnapshot):
    """Counts the rows of a table, and copies them where a store has many changes more. `rows` is their number, and `copy` the copy; both
    are there when it has ended and didn't fail. The store is known by a word."""

    def __init__(self, dsn: str, rows: Rows, word: str, changes: int, copied: Callable[["Connection", str, int], Copy]) -> None:
        self._rows, self.word, self._changes, self._copied = rows, word, changes, copied
        self.rows = 0
        self.copy: Optional[Copy] = None
        super().__init__(dsn, "copied")

    def close(self) -> None:
        super().close()
        if self.copy is not None:
            self.copy.mirror.discard()

    def work(self, connection: "Connection", snapshot: str) -> None:
        table = self._rows.table
        only = sql.SQL("ONLY " if table.partitions is None else "")
        with snapshot_of(connection, snapshot) as cursor:
            cursor.execute(sql.SQL("SELECT count(*) FROM {}{}").format(only, sql.Identifier(table.schema, table.name)))
            self.rows = one(cursor)[0]
        assert self.lsn is not None
        if has_many(self._changes, self.rows):
            TOLD.info("the store has %d changes of %d rows, and is made anew beside the old one", self._changes, self.rows)
            copy = self._copied(connection, snapshot, self.lsn)
            if self._is_given_up:
                copy.mirror.discard()
            else:
                self.copy = copy
