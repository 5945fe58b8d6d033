"""What is noted of a store, held against the server, the slot and the table as they are now."""
from __future__ import annotations

from typing import TYPE_CHECKING, Any, Optional

from ._errors import BeginAnew, CantFollow, ColumnsChanged
from ._lsn import lsn_text
from ._notes import Note
from ._publication import drop_publication
from ._slot import Place, drop_slot, free_slot
from ._store import Store
from ._table import check_same, find, look, table_of

if TYPE_CHECKING:
    from psycopg2.extensions import connection as Connection


class Resumed:
    """A store that a follower of a table wants to go on with, and its note."""

    def __init__(self, store: Store, note: Note, name: str, publication: Optional[str]) -> None:
        self._store, self._note, self._name, self._publication = store, note, name, publication

    def check_server(self, place: Place, slot: Optional[str]) -> None:
        """Raises `BeginAnew` where the server is another one, and `CantFollow` where another slot was given than the store goes with."""
        noted = self._note.about["slot"]
        if slot not in (None, noted):
            raise CantFollow(f"the store {self._store.path} goes with the slot {noted}, and the slot {slot} was given: name another store, or that slot")
        if self._note.about["place"] != [place.server, place.timeline]:
            raise BeginAnew(f"the store {self._store.path} is of another server, or the server was set back")

    def check_table(self, connection: "Connection") -> None:
        """Raises `BeginAnew` where the table isn't the one that is noted any more. Its name may be another one now."""
        before = table_of(self._note.about["table"])
        with connection.cursor() as cursor:
            named = find(cursor, self._name)
            if named is not None and named[0] != before.oid:
                self._leave(connection)
                raise BeginAnew(f"{self._name} is another table than the one that the store {self._store.path} is of")
            now = look(cursor, before.oid)
        try:
            check_same(before, now, self._note.about["names"])
        except ColumnsChanged as why:
            raise BeginAnew(f"{why}") from None

    def check_slot(self, connection: "Connection") -> None:
        """Raises `BeginAnew` where the slot isn't there, or was taken from by others."""
        slot, place = self._note.about["slot"], self._note.place
        taken = free_slot(connection, slot)
        if taken is None:
            raise BeginAnew(f"the slot {slot} is gone")
        if taken > place:
            raise BeginAnew(f"the slot {slot} is at {lsn_text(taken)}, and the store {self._store.path} at {lsn_text(place)}: others took what is between")

    def check_settings(self, settings: Any) -> None:
        """Raises `BeginAnew` where the store was made with other settings."""
        if self._note.about["settings"] != settings:
            raise BeginAnew(f"the store {self._store.path} was made with another schema, other columns, scales or another publication")

    def check_end(self, end: int) -> None:
        """Raises `BeginAnew` where the server's log ends before what the store has or an answer had."""
        if max(self._note.place, self._note.answered) > end:
            raise BeginAnew(f"the server's log ends at {lsn_text(end)}, and the store {self._store.path} is further: the server was set back")

    def _leave(self, connection: "Connection") -> None:
        """Drops the slot and the publication of a table that isn't followed any more."""
        self._store.notes.forget()
        slot = self._note.about["slot"]
        drop_slot(connection, slot, is_own=True)
        if self._publication is None:
            drop_publication(connection, slot)
