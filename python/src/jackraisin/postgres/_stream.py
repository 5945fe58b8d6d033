"""The changes behind a replication slot, transaction by transaction."""
from __future__ import annotations

import select
import struct
import tempfile
import time
from typing import IO, TYPE_CHECKING, Any, Dict, Iterator, List, NamedTuple, Optional, Set, Tuple, Union

from ._errors import BadMessage, BeginAnew
from ._messages import (
    Begin, Commit, Delete, Insert, Message, Relation, StreamAbort, StreamCommit, StreamStart, StreamStop, Truncate, Update, message_of, numbered,
)
from ._table import Table

if TYPE_CHECKING:
    from psycopg2.extras import LogicalReplicationConnection

IN_MEMORY = 16 * 2**20
# (the size of a message, and the number of its subtransaction)
HEAD = struct.Struct("=II")
# (what they say of a transaction's origin, of types and of messages in the log is of no table's rows)
OF_TRANSACTIONS, OF_ROWS, OF_NO_ROWS = (b"B", b"C", b"S", b"E", b"c", b"A"), (b"I", b"U", b"D"), (b"O", b"Y", b"M")
NUMBERED = (b"R", b"Y", b"I", b"U", b"D", b"T", b"M")
# (the first server that sends a large transaction while it is open)
STREAMS = 140000
SECONDS_BETWEEN_REPORTS, NEVER = 1.0, 10**8


class Change(NamedTuple):
    """A change of a table, and the table as it was then."""

    relation: Relation
    message: Union[Insert, Update, Delete, Truncate]


class Told(NamedTuple):
    """A table as it was told: as the how manieth telling, and in the transaction or subtransaction of which number."""

    at: int
    number: int
    relation: Relation


class Pending:
    """What came of a transaction whose end hasn't come: its messages about the table, in their order, those of a long one in a file.
    Each has the number of its transaction or subtransaction, which may be undone by itself; outside of blocks that is 0, since none is
    undone there."""

    def __init__(self, is_streamed: bool) -> None:
        self.is_streamed = is_streamed
        self.messages: Optional[IO[bytes]] = None
        self.told: List[Told] = []
        # (why it has to be begun anew, where what says so isn't undone)
        self.faults: List[Tuple[int, BeginAnew]] = []
        self.undone: Set[int] = set()
        self._numbers: Set[int] = set()

    def keep(self, number: int, payload: bytes) -> None:
        if self.messages is None:
            self.messages = tempfile.SpooledTemporaryFile(IN_MEMORY, prefix="datacube-")
        self.messages.write(HEAD.pack(len(payload), number))
        self.messages.write(payload)
        self._numbers.add(number)

    def is_left(self) -> bool:
        """Whether anything came that isn't undone."""
        return not self._numbers <= self.undone

    def last_told(self) -> Optional[Told]:
        """The table as it was told last, where that isn't undone."""
        left = [it for it in self.told if it.number not in self.undone]
        return left[-1] if left else None


class Transaction:
    """The changes of a committed transaction, in their order; those of a long one lie in a file. `end` is the LSN behind its
    commit, and `committed` when that was, in seconds since 1970 began. They have `size` bytes. It begins with the table as it was told
    before."""

    def __init__(self, messages: IO[bytes], undone: Set[int], commit: Commit, relation: Optional[Relation]) -> None:
        self._messages, self._undone, self._relation = messages, undone, relation
        self.size = messages.tell()
        self.end, self.committed = commit.end, commit.seconds

    def __iter__(self) -> Iterator[Change]:
        relation = self._relation
        for payload in self._left():
            message = message_of(payload)
            if isinstance(message, Relation):
                relation = message
            elif isinstance(message, (Insert, Update, Delete, Truncate)):
                if relation is None:
                    raise BadMessage("a change came before its table was told")
                yield Change(relation, message)

    def _left(self) -> Iterator[bytes]:
        """The messages without those that are undone."""
        self._messages.seek(0)
        while True:
            head = self._messages.read(HEAD.size)
            if not head:
                return
            size, number = HEAD.unpack(head)
            payload = self._messages.read(size)
            if number not in self._undone:
                yield payload


class Stream:
    """What comes from a slot about a table, from an LSN on, by way of a publication. A transaction is given whole or not at all; a large
    one comes while it is open, where the server can send it so."""

    def __init__(self, connection: "LogicalReplicationConnection", slot: str, publication: str, table: Table, start: int) -> None:
        self._cursor: Any = connection.cursor()
        # (what is said of an LSN goes by a cursor of its own: psycopg2 puts the LSN that one confirmed forward by itself, to where the server
        # is, once a message is of an earlier one; and those of a block may be earlier than a commit that isn't done with)
        self._reports: Any = connection.cursor()
        self._reported = time.monotonic()
        self._table, self._oid = table, struct.pack(">I", table.oid)
        # (how often it was told, and the last time that is of a committed transaction)
        self._told = 0
        self._relation: Optional[Told] = None
        # (those that come in blocks, by their numbers, and the one that is coming)
        self._streamed: Dict[int, Pending] = {}
        self._current: Optional[Pending] = None
        options = {"proto_version": "1", "publication_names": '"{}"'.format(publication.replace('"', '""'))}
        if connection.server_version >= STREAMS:
            options.update(proto_version="2", streaming="on")
        self._cursor.start_replication(slot, start_lsn=start, decode=False, status_interval=NEVER, options=options)

    def next(self, seconds: float) -> Optional[Transaction]:
        """The next transaction that changed something, or none where there was none for so many seconds."""
        until = time.monotonic() + seconds
        while time.monotonic() < until:
            message = self._cursor.read_message()
            found = self._take(message.payload) if message else None
            if found:
                return found
            if not message:
                select.select([self._cursor], [], [], max(until - time.monotonic(), 0))
        return None

    def _take(self, payload: bytes) -> Optional[Transaction]:
        """Takes a message, and gives the transaction that it ends."""
        kind, number = payload[:1], 0
        if kind in OF_TRANSACTIONS:
            return self._step(message_of(payload))
        if kind in NUMBERED and self._current is not None and self._current.is_streamed:
            number, payload = numbered(payload)
        if kind == b"R":
            self._tell(number, message_of(payload), payload)
        elif kind in OF_ROWS:
            # (a publication that was given may have other tables too)
            if payload[1:5] == self._oid:
                self._keep(number, payload)
        elif kind == b"T":
            message = message_of(payload)
            if isinstance(message, Truncate) and self._table.oid in message.oids:
                self._keep(number, payload)
        elif kind not in OF_NO_ROWS:
            raise BadMessage(f"{kind!r} is no kind of a message")
        return None

    def _step(self, message: Message) -> Optional[Transaction]:
        """Takes a message of the begin or the end of a transaction, or of a block of one."""
        current, self._current = self._current, None
        if isinstance(message, Begin):
            self._current = Pending(False)
        elif isinstance(message, StreamStart):
            if message.is_first:
                self._streamed[message.number] = Pending(True)
            self._current = self._open(message.number)
        elif isinstance(message, Commit) and current is not None and not current.is_streamed:
            return self._committed(current, message)
        elif isinstance(message, StreamCommit):
            pending = self._open(message.number)
            del self._streamed[message.number]
            return self._committed(pending, message.commit)
        elif isinstance(message, StreamAbort):
            self._undo(message)
        elif not isinstance(message, StreamStop):
            raise BadMessage("a commit came without its transaction")
        return None

    def _open(self, number: int) -> Pending:
        """The transaction of a number that comes in blocks."""
        if number not in self._streamed:
            raise BadMessage(f"transaction {number} goes on, and didn't begin")
        return self._streamed[number]

    def _undo(self, abort: StreamAbort) -> None:
        if abort.number == abort.undone:
            self._streamed.pop(abort.number, None)
        elif abort.number in self._streamed:
            self._streamed[abort.number].undone.add(abort.undone)

    def _committed(self, pending: Pending, commit: Commit) -> Optional[Transaction]:
        """A transaction that is at its end. In one that came in blocks the table is told anew; what was told last of those that are
        committed holds for the next one."""
        for number, fault in pending.faults:
            if number not in pending.undone:
                raise fault
        first = None if pending.is_streamed else self._relation
        last = pending.last_told()
        if last is not None and (self._relation is None or last.at > self._relation.at):
            self._relation = last
        if pending.messages is None or not pending.is_left():
            return None
        return Transaction(pending.messages, pending.undone, commit, first.relation if first else None)

    def _tell(self, number: int, relation: Message, payload: bytes) -> None:
        """Takes note of a table as it is from here on. The partitions of a table are told beside it: one that it didn't have when
        it was looked at has rows that were never copied."""
        assert isinstance(relation, Relation)
        if relation.oid == self._table.oid:
            self._keep(number, payload).told.append(Told(self._told, number, relation))
            self._told += 1
        elif self._table.partitions is not None and str(relation.oid) not in self._table.partitions:
            fault = BeginAnew(f"table {self._table} has another partition, {relation.schema}.{relation.name}")
            self._pending().faults.append((number, fault))

    def _pending(self) -> Pending:
        """The transaction that is coming."""
        if self._current is None:
            raise BadMessage("a change came outside of a transaction")
        return self._current

    def _keep(self, number: int, payload: bytes) -> Pending:
        pending = self._pending()
        pending.keep(number, payload)
        return pending

    @property
    def seen(self) -> int:
        """The LSN before which all commits were given; 0 inside a transaction, and inside a block of one. Those that are open and come in
        blocks are no matter: the server keeps what it needs to send them again until it has sent their end."""
        return 0 if self._current is not None else int(self._cursor.wal_end)

    def confirm(self, lsn: int, is_read: bool = True) -> None:
        """Says that all until an LSN is done with, so that the server may drop its log until there. That goes out once a second while
        the stream is read, else at once."""
        if is_read and time.monotonic() < self._reported + SECONDS_BETWEEN_REPORTS:
            return
        self._reports.send_feedback(write_lsn=lsn, flush_lsn=lsn, force=True)
        self._reported = time.monotonic()
