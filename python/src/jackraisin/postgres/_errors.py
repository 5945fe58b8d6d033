"""What keeps a table from being followed."""
from __future__ import annotations

from .._errors import DatacubeError, Unsayable


class CantFollow(DatacubeError):
    """What is wrong with the server, the slot or the table, and what to do."""


class ColumnsChanged(CantFollow):
    """The columns of the table aren't those that the follower began with."""


class BadMessage(CantFollow):
    """What the server sent is no message of its output plugin."""

    def __str__(self) -> str:
        return f"the server sent a message that can't be read: {super().__str__()}"


class RowUnsayable(CantFollow, Unsayable):
    """A row that no feed can say: its table, its key and the column."""

    def __init__(self, table: str, key: str, column: str, why: str) -> None:
        super().__init__(table, key, column, why)
        self.table, self.key, self.column, self.why = table, key, column, why

    def __str__(self) -> str:
        return f"table {self.table}, key {self.key}, column {self.column}: {self.why}"


class NotCaughtUp(DatacubeError):
    """A question that came before the follower had caught up with the table, or a wait that took too long."""


class BeginAnew(Exception):
    """The slot or the session is lost, so the table has to be copied again."""
