"""A cube that is kept as a table is."""
from __future__ import annotations

import collections
import contextlib
import csv
import json
import os
import tempfile
import threading
import time
from typing import TYPE_CHECKING, Any, Deque, Dict, Final, Iterator, Mapping, Optional, Sequence, Set, TextIO, Tuple, Union

import psycopg2
import psycopg2.errors

from .._ask import Given
from .._errors import DatacubeError
from .._live import Live
from .._program import Path
from .._schema import Schema, schema_of
from ._anew import SECONDS_AFTER_FAILURE, StoreAnew, has_many
from ._changes import Changes
from ._comparison import Comparison
from ._copy import Copy, RowsWriter, copy_table
from ._errors import BeginAnew, CantFollow
from ._lsn import lsn_text
from ._mirror import Mirror
from ._notes import Note
from ._publication import check_not_anothers, check_publication, drop_publication, fault_of, make_publication
from ._resumed import Resumed
from ._running import Running
from ._slot import (
    TOLD, AnyConnection, Place, cancel, check_server, connect, connect_to_replicate, drop_slot, make_slot, now_of, place_of, slot_name,
)
from ._state import Asked
from ._state import State as State
from ._store import Store, StoredMirror
from ._stream import Stream, Transaction
from ._table import Table, check_same, look, noted, read_table, table_of, untold
from ._taker import Taker
from ._values import Rows, Skipped
from ._work import END, SOURCE

if TYPE_CHECKING:
    from psycopg2.extensions import connection as Connection

# (a schema's `feed` that says nothing but that it is there)
NO_COLUMNS: Final[Mapping[str, Any]] = {}
# (how often the table's columns are looked at, and how long one wait for changes is)
SECONDS_BETWEEN_LOOKS, SECONDS_TO_WAIT = 1.0, 0.2
# (how long the session isn't asked anything at most, while others have questions under way)
SECONDS_UNASKED = 60.0
# (after which statements that the server is still at are cancelled)
SECONDS_TO_END = 1.0
# (how long nothing is taken at most, while a comparison gets its snapshot; and after how long one is begun again that got none)
SECONDS_TO_BEGIN, SECONDS_AFTER_NONE = 2.0, 60.0
FIRST_PAUSE, LONGEST_PAUSE = 0.1, 5.0
# (classes of SQLSTATE: the connection is gone, the server has no room for one, the server is ending; a slot that is in use yet)
OF_CONNECTIONS, IN_USE = ("08", "53", "57"), "55006"


class Follower(Asked, Running):
    """A cube over a table of PostgreSQL, which takes each transaction whole, in the order of their commits.

    It makes a publication and a replication slot, copies the table as it is in the slot's snapshot, and then takes the changes
    behind it, in threads of its own, between `start` and `close` or in a `with` block. Any thread may ask; an answer is over all
    transactions until some commit, never over a part of one. A question before it has caught up with the table raises
    `NotCaughtUp`, and one after it has stopped raises why it stopped. Where the connection is lost it connects again and goes
    on from its place; the answers meanwhile are those of the last commit that it has.

    `dimensions` and `measures` are the columns for those of the schema, where their names differ. `scale` says of a column
    how many decimals are taken: by 2 the numeric 3.50 is 350. A measure that the schema gives decimals takes a numeric as it is.
    A row with a measure that can't be said, as NaN, is left out, counted and told, or ends it where `skip` is false; a text of a
    dimension, or of a measure that is one, may be any. In what `ask` is given and gives, a text that begins with a backslash has one more. `slot` names the slot, and the publication with it; `publication`
    one that is there, and names the table, where the role may make none. Each `verify` seconds the totals of the cube are compared
    with the table's own, where that isn't 0; where they differ the table is copied again.

    With `store`, the path of a file, the cube outlives the follower, which keeps slot and publication then: one that is started with
    the same words goes on where the last one ended, whatever ended it, and copies nothing. It answers once it has come to where the
    server's log ended at its start, so to all that an earlier answer had seen.
    The schema's `version`, `max_records` and `feed` are of feeds, and don't matter here."""

    is_escaped = True

    def __init__(
        self,
        dsn: str,
        table: str,
        schema: Given,
        *,
        dimensions: Optional[Sequence[str]] = None,
        measures: Optional[Sequence[str]] = None,
        scale: Optional[Mapping[str, int]] = None,
        slot: Optional[str] = None,
        skip: bool = True,
        publication: Optional[str] = None,
        verify: float = 600,
        store: Optional[Path] = None,
    ) -> None:
        super().__init__(table)
        given = schema_of(schema)
        # (version 2 can say that a value is kept, and a feed by names that a fact is put or removed, whether or not it is there)
        names, feed = (given.dimensions, given.measures, given.aggregates), None if store is None else NO_COLUMNS
        self.schema = Schema(*names, grouping=given.grouping, version=2, decimals=given.decimals, texts=given.texts, feed=feed)
        self.dsn, self.slot, self.publication, self.skip = dsn, slot, publication, skip
        self.store = store
        self._store: Optional[Store] = None
        self._columns = dimensions, measures, scale or {}
        # (what takes changes: what is asked is another one where a store was made anew and isn't as far yet, and none before the
        # follower has come to its target)
        self._mirror: Optional[Mirror] = None
        self._target = self._counted = 0
        self._has_slot = self._has_publication = False
        self._place: Optional[Place] = None
        self._table: Optional[Table] = None
        self._names: Sequence[str] = ()
        self._rows: Optional[Rows] = None
        self._changes: Optional[Changes] = None
        self._comparison: Optional[Comparison] = None
        self._large: Set[int] = set()
        self._verify, self._compared = verify, time.monotonic()
        # (a store that is being made anew, where the log has to be kept from meanwhile, and when the next one may be)
        self._anew: Optional[StoreAnew] = None
        self._held: Optional[int] = None
        self._next_anew = 0.0
        self._last_look = 0.0
        self._last_asked = time.monotonic()
        # (where the server's log ended, and when that was asked for, where the follower hasn't come to yet)
        self._ends: Deque[Tuple[int, float]] = collections.deque()
        self._connections: Set["Connection"] = set()
        self._thread = threading.Thread(target=self._run, name="datacube follower", daemon=True)

    # What others call.

    def start(self) -> None:
        """Begins to follow; `wait` says when it has caught up, or why it can't."""
        self._thread.start()

    def close(self) -> None:
        """Ends the session. Without a store it drops the slot and the publication, since the next follower makes its own."""
        self._ending.set()
        if self._thread.ident is not None:
            self._thread.join(SECONDS_TO_END)
        while self._thread.is_alive():
            with contextlib.suppress(psycopg2.Error), contextlib.closing(connect(self.dsn)) as connection:
                cancel(connection, [it.info.backend_pid for it in list(self._connections)])
            self._thread.join(SECONDS_TO_END)

    def catch_up(self, seconds: Optional[float] = None) -> State:
        """Waits until all that is committed now is in the cube. Where the table was altered since the last look, it waits for the
        next one, which may lead to a new copy."""
        with contextlib.closing(connect(self.dsn)) as connection:
            lsn = now_of(connection)
            state = self.wait_for(lsn, seconds)
            if self._is_as_looked(connection):
                return state
        return self._wait(lambda it: it.is_caught_up and it.lsn >= lsn and it.looked >= lsn, seconds)

    def _is_as_looked(self, connection: "Connection") -> bool:
        """Whether nobody touched the table since the last look."""
        table = self._table
        with connection.cursor() as cursor, contextlib.suppress(CantFollow):
            return table is not None and look(cursor, table.oid) == table
        return False

    # What the thread does.

    def _run(self) -> None:
        failure: Optional[BaseException] = None
        try:
            self._follow_copies()
        except psycopg2.Error as why:
            failure = CantFollow(text_of_error(why))
        except BaseException as why:
            failure = why
        self._set(is_connected=False)
        try:
            # (before the failure is told: whoever is told may begin another follower, whose slot has the same name)
            self._finish(failure is None)
            self._drop_own()
        except DatacubeError as why:
            failure = failure or why
        finally:
            self._put_mirror(None)
            if self._store is not None:
                self._store.close()
            self._set(failure=failure)

    def _finish(self, is_whole: bool) -> None:
        """Ends the session over a store well; where nothing was broken off, the next start goes on from here."""
        kept = self._served or self._mirror
        if isinstance(kept, StoredMirror) and kept.is_chosen:
            kept.finish(is_whole)

    def _drop_own(self) -> None:
        """Drops the slot and the publication that this follower made, unless there is a store that goes on with them."""
        if not self._has_slot and not self._has_publication or self._store is not None and self._store.notes.whole():
            return
        assert self.slot is not None
        with contextlib.suppress(psycopg2.Error, CantFollow), contextlib.closing(connect(self.dsn)) as connection:
            if self._has_publication:
                drop_publication(connection, self.slot)
            if self._has_slot:
                drop_slot(connection, self.slot, is_own=True)

    def _follow_copies(self) -> None:
        """Follows until the end; where the slot or the session is lost, it begins with a copy again."""
        if self.store is not None:
            self._store = Store(self.store, self.schema)
        resumes = self._store is not None
        while not self._ending.is_set():
            try:
                place = self._place = (self._resume() if resumes else None) or self._copy()
                resumes = False
                while not self._ending.is_set():
                    self._follow(place)
                    self._take_up()
            except BeginAnew as why:
                resumes = False
                self._set(is_caught_up=False, is_connected=False)
                self._put_mirror(None)
                if self._store is not None:
                    self._store.notes.forget()
                TOLD.warning("%s: the table is copied again", why)
            except psycopg2.Error as why:
                if self._ending.is_set():
                    return
                if not self._state.copies or not is_cut(why):
                    raise
                TOLD.warning("the table couldn't be copied, and is copied again: %s", text_of_error(why))
            self._ending.wait(FIRST_PAUSE)

    def _copy(self) -> Place:
        """Makes the publication, and the slot anew, and a session with the table as it is in the slot's snapshot. Gives whose the
        slot is."""
        with self._open(connect(self.dsn)) as connection:
            check_server(connection)
            table = self._found(connection)
            rows = self._rows_of(table)
            slot = self.slot = self.slot or slot_name(table.name, table.oid)
            with self._open(connect_to_replicate(self.dsn)) as replication:
                place = self._place = place_of(replication)
                check_not_anothers(connection, slot, table)
                drop_slot(connection, slot, self._has_slot)
                self._publish(connection, slot, rows)
                TOLD.info("making the slot %s, which waits for the transactions that are open", slot)
                start, snapshot = make_slot(replication, slot)
                self._has_slot = True
                copy = self._copied(connection, snapshot, rows, start)
            self._table, self._counted = copy.table, copy.number
            self._put(copy.mirror, copy.changes, rows)
            skipped = len(copy.changes.skipped.ids)
            self._set(lsn=start, looked=start, copies=self._state.copies + 1, rows_copied=copy.number, skipped=skipped)
            if isinstance(copy.mirror, StoredMirror):
                copy.mirror.choose()
                copy.mirror.clean()
            TOLD.info("copied %d rows of table %s, of which %d were left out", copy.number, copy.table, skipped)
            self._target = self._end_of(connection)
            return place

    def _rows_of(self, table: Table) -> Rows:
        return Rows(table, self.schema, *self._columns, end="" if self._store is None else END)

    def _put(self, mirror: Mirror, changes: Changes, rows: Rows) -> None:
        """Puts a mirror that takes changes, while none is asked."""
        self._put_mirror(mirror)
        self._changes, self._rows, self._names, self._large = changes, rows, rows.names, set()
        self._ends.clear()

    def _found(self, connection: "Connection") -> Table:
        """The table as it is now: that of the name, and from the first copy on that of its number, whatever its name is."""
        with connection.cursor() as cursor:
            if self._table is None:
                return read_table(cursor, self.name)
            now = look(cursor, self._table.oid)
        check_same(self._table, now, self._names)
        assert now is not None
        return now

    def _publish(self, connection: "Connection", name: str, rows: Rows) -> None:
        """Sees that the table has a publication: the one that was given, or one that this follower makes."""
        if self.publication is not None:
            check_publication(connection, self.publication, rows.table, rows.names)
        else:
            self._has_publication |= make_publication(connection, name, rows.table, rows.names)

    def _copied(self, connection: "Connection", snapshot: str, rows: Rows, lsn: int) -> Copy:
        """A session with the rows of a snapshot, which is at an LSN."""
        with tempfile.TemporaryDirectory(prefix="datacube-") as folder:
            path = os.path.join(folder, "table.csv")
            with open(path, "w", encoding="utf-8", newline="") as out:
                writer = self._writer(rows, out)
                table = copy_table(connection, snapshot, rows, writer)
            count = writer.count - len(writer.skipped.ids)
            mirror = self._mirror_of(path, lsn) if self._store is None else self._stored_mirror_of(self._store, path, count, lsn)
        return Copy(mirror, Changes(rows, writer.skipped, self.skip, mirror.may_come_twice), rows, writer.count, table)

    def _writer(self, rows: Rows, out: TextIO) -> RowsWriter:
        """What writes a table as a feed, or where there is a store as changes of a session."""
        if self._store is not None:
            return RowsWriter(rows, out, self.skip, [SOURCE, "P"])
        csv.writer(out).writerow(["op", "id", *self.schema.dimensions, *self.schema.measures])
        return RowsWriter(rows, out, self.skip, ["I"])

    def _mirror_of(self, feed: str, lsn: int) -> Mirror:
        return Mirror(Live(self.schema, feed), self.schema, lsn)

    def _stored_mirror_of(self, store: Store, path: str, count: int, lsn: int) -> StoredMirror:
        session = store.begin()
        try:
            with open(path, encoding="utf-8", newline="") as changes:
                session.send(changes)
            session.changes = count
            session.sync()
        except BaseException:
            store.discard(session)
            raise
        return StoredMirror(session, self.schema, lsn, store, self._note)

    # How it goes on over a store.

    def _resume(self) -> Optional[Place]:
        """Goes on over the store, where there is one, from the place that is noted. Raises `BeginAnew` where the slot, the table or the
        server don't go on from there."""
        store = self._store
        assert store is not None
        note = store.noted()
        if note is None:
            return None
        resumed = Resumed(store, note, self.name, self.publication)
        with self._open(connect(self.dsn)) as connection:
            check_server(connection)
            with self._open(connect_to_replicate(self.dsn)) as replication:
                place = self._place = place_of(replication)
            resumed.check_server(place, self.slot)
            resumed.check_table(connection)
            self.slot = note.about["slot"]
            resumed.check_slot(connection)
            self._has_slot = True
            resumed.check_settings(self._settings())
            self._target = self._end_of(connection)
        resumed.check_end(self._target)
        table = table_of(note.about["table"])
        rows, skipped = self._rows_of(table), Skipped(note.left_out)
        mirror = StoredMirror(store.open(note, self._ending), self.schema, note.place, store, self._note, is_chosen=True)
        mirror.excuse(True)
        self._table, self._counted, self._answered = table, note.rows, note.answered
        ends = list(self._ends)
        self._put(mirror, Changes(rows, skipped, self.skip, mirror.may_come_twice), rows)
        self._ends.extend(ends)
        self._set(lsn=note.place, skipped=len(skipped.ids))
        TOLD.info("going on over the store %s of table %s, from %s", store.path, table, lsn_text(note.place))
        return place

    def _settings(self) -> Any:
        """What a store's start has to have in common with the next one's, as JSON has it."""
        return json.loads(json.dumps([self.schema.toml(), *self._columns, self.skip, self.publication]))

    def _note(self, lsn: int, changes: int) -> Note:
        """What is noted of a store that has so many changes, and all until an LSN."""
        assert self._changes is not None and self._table is not None and self._place is not None
        about: Dict[str, Any] = {
            "settings": self._settings(), "slot": self.slot, "place": [self._place.server, self._place.timeline],
            "table": noted(self._table), "names": list(self._names),
        }
        return Note(lsn, self._answered, changes, self._counted, sorted(self._changes.skipped.ids), about)

    def _begin_anew(self) -> None:
        """Begins to make the store anew, beside the one that is gone on with, where it has far more changes than the table has rows.
        The server keeps its log from here on until that is done."""
        mirror = self._mirror
        if not isinstance(mirror, StoredMirror) or self._anew or self._comparison or self._served is not mirror or time.monotonic() < self._next_anew:
            return
        changes = mirror.session.changes
        if has_many(changes, self._counted):
            assert self._table is not None
            rows = self._rows_of(self._table)
            self._held = mirror.certain
            self._anew = StoreAnew(self.dsn, rows, mirror.session.word, changes, lambda connection, snapshot, lsn: self._copied(connection, snapshot, rows, lsn))

    def _take_up(self) -> None:
        """Goes on with a store that was made anew, from the place of its copy; the old one is asked until that has come as far."""
        anew, self._anew = self._anew, None
        if anew is None:
            return
        copy, old = anew.copy, self._mirror
        assert isinstance(old, StoredMirror)
        self._counted = anew.rows or self._counted
        # (a TRUNCATE has put another store in the place of the one that had many changes)
        if copy is None or old.session.word != anew.word or self._ending.is_set():
            self._held = None
            if anew.failure is not None:
                TOLD.warning("the store couldn't be made anew: %s", anew.failure)
                self._next_anew = time.monotonic() + SECONDS_AFTER_FAILURE
            anew.close()
            return
        old.keep()
        with self._lock:
            self._mirror, self._target = copy.mirror, old.lsn
        self._changes, self._rows = copy.changes, copy.rows

    # How it takes changes.

    def _follow(self, place: Place) -> None:
        """Takes the changes behind the slot, over as many connections as it takes, until the end, or until a store is made anew."""
        pause = FIRST_PAUSE
        assert self._mirror is not None
        with contextlib.closing(Taker[Transaction](self._take, self._between, SECONDS_BETWEEN_LOOKS)) as taker:
            while not self._is_over():
                before = self._mirror.lsn
                try:
                    self._follow_connected(place, taker)
                except psycopg2.Error as why:
                    self._set(is_connected=False)
                    if self._ending.is_set():
                        return
                    if is_lost(why):
                        raise BeginAnew(f"the slot {self.slot} is lost ({text_of_error(why)})") from None
                    if not is_cut(why):
                        raise
                    TOLD.warning("the connection is lost, and is made again: %s", text_of_error(why))
                pause = FIRST_PAUSE if self._mirror.lsn > before else min(2 * pause, LONGEST_PAUSE)
                if not self._is_over():
                    self._ending.wait(pause)
        # (what takes changes may have failed just when the store made anew was there)
        if not self._ending.is_set():
            taker.check()

    def _is_over(self) -> bool:
        """Whether it isn't to be gone on with what takes changes now."""
        return self._ending.is_set() or self._anew is not None and self._anew.has_ended.is_set()

    def _follow_connected(self, place: Place, taker: "Taker[Transaction]") -> None:
        """Takes changes over one connection."""
        with self._open(connect(self.dsn)) as connection, self._open(connect_to_replicate(self.dsn)) as replication:
            if place_of(replication) != place:
                raise BeginAnew("the server is another one, or was set back")
            table = self._look(connection)
            assert self.slot is not None and self._mirror is not None
            stream = Stream(replication, self.slot, self.publication or self.slot, table, self._mirror.lsn)
            self._set(is_connected=True)
            try:
                self._read_all(stream, connection, taker)
            finally:
                self._end_comparison()

    def _read_all(self, stream: Stream, connection: "Connection", taker: "Taker[Transaction]") -> None:
        """Reads what comes, for the thread that takes it, and looks at the table between."""
        self._last_look = time.monotonic()
        reached = 0
        while not self._is_over():
            self._begin_comparison()
            self._begin_anew()
            transaction = stream.next(SECONDS_TO_WAIT)
            if transaction is not None:
                while not self._is_over() and not taker.put(transaction, transaction.size, SECONDS_TO_WAIT):
                    stream.confirm(self._done_with(), is_read=False)
                    self._attend(connection, taker)
            if stream.seen > reached:
                reached = stream.seen
                taker.reach(reached)
            stream.confirm(self._done_with())
            self._attend(connection, taker)

    def _attend(self, connection: "Connection", taker: "Taker[Transaction]") -> None:
        """Sees, while changes come or wait, that they are taken, and looks at the table."""
        try:
            taker.check()
        except (CantFollow, BeginAnew):
            # (it may be that the table was altered, and then it is copied again, or what was altered is told by its name)
            self._look(connection)
            raise
        self._end_comparison_that_is_over()
        if time.monotonic() >= self._last_look + SECONDS_BETWEEN_LOOKS:
            self._look(connection)
            self._last_look = time.monotonic()

    def _done_with(self) -> int:
        """The LSN until which the server's log isn't needed any more."""
        mirror = self._mirror
        assert mirror is not None
        if self._held is not None:
            return self._held
        return mirror.certain if isinstance(mirror, StoredMirror) else mirror.lsn

    def _begin_comparison(self) -> None:
        """Begins to compare the cube with the table, where it is time. Until the snapshot is there nothing is read, so that the cube
        isn't past it; that takes as long as the transactions that are open, so it may be given up."""
        if not self._verify or self._comparison or self._anew or self._served is not self._mirror or time.monotonic() < self._compared + self._verify:
            return
        assert self._rows is not None
        self._comparison = Comparison(self.dsn, self._rows, self.schema, self._large)
        if not self._comparison.has_begun.wait(SECONDS_TO_BEGIN):
            self._end_comparison()
            self._compared += min(SECONDS_AFTER_NONE, self._verify)
            TOLD.info("the cube isn't compared with the table now, since there are transactions that stay open")

    def _compare(self, lsn: int, has_come: bool) -> None:
        """Takes the totals of the cube for a comparison where it has come to the snapshot's place, or where the next transaction
        would bring it past that."""
        comparison, mirror = self._comparison, self._mirror
        if comparison is None or comparison.lsn is None or comparison.is_taken or mirror is None:
            return
        if lsn >= comparison.lsn if has_come else lsn > comparison.lsn:
            comparison.take(mirror)

    def _end_comparison_that_is_over(self) -> None:
        comparison = self._comparison
        if comparison is not None and comparison.is_over:
            self._end_comparison()
            self._conclude(comparison.failure, None if comparison.failure else comparison.difference())

    def _conclude(self, failure: Optional[str], difference: Optional[str]) -> None:
        """Says what came of a comparison; where the cube isn't the table's, that is copied again."""
        if failure is not None:
            TOLD.warning("the cube couldn't be compared with table %s: %s", self._table, failure)
            return
        self._set(is_verified=difference is None, differences=self._state.differences + (difference is not None))
        if difference is not None:
            TOLD.error(
                "the cube isn't that of table %s: %s. That is a fault of the follower, or somebody changed the table past its log: report it",
                self._table, difference,
            )
            raise BeginAnew("the cube isn't the table's")

    def _end_comparison(self) -> None:
        comparison, self._comparison = self._comparison, None
        if comparison is not None:
            self._compared = time.monotonic()
            comparison.close()

    def _take(self, it: Union[Transaction, int]) -> None:
        """Takes a transaction, or an LSN before which there is none that wasn't taken."""
        if isinstance(it, int):
            self._compare(it, True)
            self._arrive(it)
        else:
            self._compare(it.end, False)
            if self._served is not self._mirror and it.end > self._target:
                # (transactions come in the order of their commits)
                self._arrive(self._target)
            self._apply(it)
            self._arrive(it.end)

    def _apply(self, transaction: Transaction) -> None:
        """Makes the changes of a transaction, all between two questions. One that was there before the connection was lost comes
        twice, and is left."""
        mirror, changes = self._mirror, self._changes
        assert mirror is not None and changes is not None
        if transaction.end <= mirror.lsn:
            return
        work = changes.work_of(transaction)
        if self._is_hidden():
            mirror.apply(work, transaction.end, lambda: None)
            return
        state, skipped = self._state, len(changes.skipped.ids)
        counted = {"transactions": state.transactions + 1, "changes": state.changes + work.count, "skipped": skipped}
        mirror.apply(work, transaction.end, lambda: self._set(lsn=transaction.end, last_commit=transaction.committed, **counted))

    def _is_hidden(self) -> bool:
        """Whether changes are taken by a mirror that isn't as far as the one that is asked."""
        return self._served is not None and self._served is not self._mirror

    def _arrive(self, lsn: int) -> None:
        """Takes note of an LSN to which the follower has come."""
        mirror = self._mirror
        assert mirror is not None
        mirror.lsn = max(mirror.lsn, lsn)
        if self._served is not mirror and mirror.lsn >= self._target:
            self._serve(mirror)
        if self._is_hidden():
            return
        is_caught_up, as_of = self._served is mirror, self._state.as_of
        while self._ends and self._ends[0][0] <= mirror.lsn:
            as_of = self._ends.popleft()[1]
        if (mirror.lsn, is_caught_up, as_of) != (self._state.lsn, self._state.is_caught_up, self._state.as_of):
            self._set(lsn=mirror.lsn, is_caught_up=is_caught_up, as_of=as_of)

    def _serve(self, mirror: Mirror) -> None:
        """From here on a mirror is asked, and what was asked before isn't there any more."""
        old = self._served
        if isinstance(mirror, StoredMirror):
            if mirror.is_chosen:
                mirror.excuse(False)
            else:
                mirror.choose()
        with self._lock:
            self._served = mirror
            if old is not None:
                self._set(lsn=mirror.lsn, remade=self._state.remade + 1)
        if old is not None and isinstance(mirror, StoredMirror):
            old.close()
            mirror.clean()
            self._held = None

    def _between(self) -> None:
        """Sees that the session refused nothing, says which rows are left out, and makes certain what was taken. While a question is under
        way the session is asked nothing, since no change would be taken until that is answered; once a minute it is, though."""
        mirror, changes = self._mirror, self._changes
        assert mirror is not None and changes is not None
        why = changes.skipped.taken()
        if why is not None:
            TOLD.warning("rows are left out, %d of them now; the last one: %s", self._state.skipped, why)
        if mirror.is_answering() and time.monotonic() < self._last_asked + SECONDS_UNASKED:
            return
        self._last_asked = time.monotonic()
        if self._served is mirror:
            mirror.check()
        if isinstance(mirror, StoredMirror) and mirror.is_chosen:
            mirror.keep()

    def _end_of(self, connection: "Connection") -> int:
        """Where the server's log ends now; that is kept until the follower has come there."""
        asked = time.monotonic()
        end = now_of(connection)
        self._ends.append((end, asked))
        return end

    def _look(self, connection: "Connection") -> Table:
        """Sees that the table is what it was or was only altered in ways that its log tells, and that it has its publication. Gives the
        table as it is now."""
        before, now = now_of(connection), self._found(connection)
        assert self._table is not None and self.slot is not None
        publication = self.publication or self.slot
        fault = fault_of(connection, publication, now, self._names) or untold(self._table, now, self._names, publication)
        if fault is not None:
            raise BeginAnew(fault)
        self._table = now
        self._set(looked=before, behind=max(self._end_of(connection) - self._state.lsn, 0))
        return now

    @contextlib.contextmanager
    def _open(self, connection: AnyConnection) -> Iterator[AnyConnection]:
        """A connection that is closed behind a block, and whose work `close` may cut short."""
        with contextlib.closing(connection):
            self._connections.add(connection)
            try:
                yield connection
            finally:
                self._connections.discard(connection)

    def _put_mirror(self, mirror: Optional[Mirror]) -> None:
        """Puts a session in place of what is there, which ends; it is asked once it has come to its target."""
        with self._lock:
            old = {it for it in (self._mirror, self._served) if it is not None}
            self._mirror, self._served = mirror, None
        anew, self._anew, self._held = self._anew, None, None
        if anew is not None:
            anew.close()
        for it in old:
            it.close()


def is_cut(why: psycopg2.Error) -> bool:
    """Whether an error is of the connection, so that another one may do."""
    code: Optional[str] = why.pgcode
    if code is None:
        return isinstance(why, (psycopg2.OperationalError, psycopg2.InterfaceError)) or type(why) is psycopg2.DatabaseError
    return code.startswith(OF_CONNECTIONS) or code == IN_USE


def is_lost(why: psycopg2.Error) -> bool:
    """Whether an error says that the slot is gone, or that the log behind it is."""
    return isinstance(why, (psycopg2.errors.UndefinedObject, psycopg2.errors.ObjectNotInPrerequisiteState))


def text_of_error(why: psycopg2.Error) -> str:
    return " ".join(str(why).split())
