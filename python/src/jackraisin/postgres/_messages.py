"""The messages of pgoutput, the output plugin that every server has, in the versions 1 and 2 of its protocol.

Their source is the PostgreSQL documentation, "Logical Replication Message Formats". By version 2 a large transaction comes while
it is open, in blocks between those of others; within a block each message of rows and types has the number of its transaction or
subtransaction first. The later versions add transactions that are prepared, and none of these comes."""
from __future__ import annotations

import struct
from typing import Callable, Dict, List, NamedTuple, Optional, Tuple, Union

from .._cells import KEEP
from .._changes import Keep
from ._errors import BadMessage

BYTE, INT16, INT32, INT64 = struct.Struct(">B"), struct.Struct(">H"), struct.Struct(">I"), struct.Struct(">q")
# (times are counted from the begin of 2000; from that of 1970 on it is so many seconds)
SECONDS_BEFORE = 946_684_800
SIGNED = struct.Struct(">i")
IDENTITIES = "dnfi"

# (a value in the text format of its type, null, or one that is long, lies outside of its row and didn't change)
Field = Union[str, None, Keep]
Fields = Tuple[Field, ...]


class Begin(NamedTuple):
    """The first message of a transaction: the LSN of its commit, when that was, in microseconds since 2000 began, and its number."""

    commit: int
    time: int
    number: int


class Commit(NamedTuple):
    """The last message of a transaction: the LSN of its commit, the LSN behind that, and when it was."""

    commit: int
    end: int
    time: int

    @property
    def seconds(self) -> float:
        """When it was, in seconds since 1970 began."""
        return SECONDS_BEFORE + self.time / 10**6


class StreamStart(NamedTuple):
    """The first message of a block: the number of its transaction, and whether it is the first block of that."""

    number: int
    is_first: bool


class StreamStop(NamedTuple):
    """The last message of a block."""


class StreamCommit(NamedTuple):
    """The commit of a transaction that came in blocks."""

    number: int
    commit: Commit


class StreamAbort(NamedTuple):
    """The end of a transaction that came in blocks and is rolled back; or, where the second number is another one than the first, of a
    subtransaction of it."""

    number: int
    undone: int


class Origin(NamedTuple):
    """The server that a transaction came from, where it was taken from another one."""

    commit: int
    name: str


class RelationColumn(NamedTuple):
    """A column of a relation: whether it belongs to what names a row, its name, its type and the modifier of that."""

    is_key: bool
    name: str
    type: int
    modifier: int


class Relation(NamedTuple):
    """A table as it was when the rows behind this message were written."""

    oid: int
    schema: str
    name: str
    identity: str
    columns: Tuple[RelationColumn, ...]

    @property
    def key(self) -> List[str]:
        """The columns that are told of a row that is updated or deleted."""
        return [it.name for it in self.columns if it.is_key]

    def values(self, fields: Fields) -> Dict[str, Optional[str]]:
        """The values of a row by the names of their columns, without those that are kept."""
        if len(fields) != len(self.columns):
            raise BadMessage(f"a row of {self.schema}.{self.name} has {len(fields)} values for {len(self.columns)} columns")
        return {column.name: it for column, it in zip(self.columns, fields) if it is not KEEP}


class Type(NamedTuple):
    """A type that isn't one of the server's own."""

    oid: int
    schema: str
    name: str


class Before(NamedTuple):
    """A row as it was before its change: the whole row, or its key and null elsewhere."""

    is_whole: bool
    fields: Fields


class Insert(NamedTuple):
    oid: int
    row: Fields


class Update(NamedTuple):
    """An update; what was before is told where it names the row and the new row doesn't."""

    oid: int
    before: Optional[Before]
    row: Fields


class Delete(NamedTuple):
    oid: int
    before: Before


class Truncate(NamedTuple):
    """Tables of which no row is left, and the options of the statement."""

    oids: Tuple[int, ...]
    options: int


class Emitted(NamedTuple):
    """A message that somebody wrote to the log by `pg_logical_emit_message`."""

    is_of_transaction: bool
    lsn: int
    prefix: str
    content: bytes


Message = Union[
    Begin, Commit, StreamStart, StreamStop, StreamCommit, StreamAbort, Origin, Relation, Type, Insert, Update, Delete, Truncate, Emitted
]


class Reader:
    """Takes a message apart, from its front to its end."""

    def __init__(self, data: bytes) -> None:
        self._data, self._at = data, 1

    def number(self, form: struct.Struct) -> int:
        found: int = form.unpack_from(self._data, self._at)[0]
        self._at += form.size
        return found

    def kind(self) -> bytes:
        """A byte that says what follows; none where the message is at its end."""
        self._at += 1
        return self._data[self._at - 1 : self._at]

    def name(self) -> str:
        """A text that ends with a byte of 0."""
        start = self._at
        end = self._data.index(b"\0", start)
        self._at = end + 1
        return self._data[start:end].decode("utf-8")

    def counted(self) -> bytes:
        """Bytes behind their number."""
        size = self.number(INT32)
        found = self._data[self._at : self._at + size]
        if len(found) < size:
            raise BadMessage(f"{size} bytes are told, and {len(found)} are there")
        self._at += size
        return found

    def fields(self) -> Fields:
        """The values of a row."""
        return tuple([self._field() for _ in range(self.number(INT16))])

    def _field(self) -> Field:
        kind = self.kind()
        if kind == b"t":
            return self.counted().decode("utf-8")
        if kind == b"n":
            return None
        if kind == b"u":
            return KEEP
        raise BadMessage(f"{kind!r} is no kind of a value")

    def row(self) -> Fields:
        """The values of a row behind the byte that says so."""
        return self.row_of(self.kind())

    def row_of(self, kind: bytes) -> Fields:
        if kind != b"N":
            raise BadMessage(f"{kind!r} is where a new row begins")
        return self.fields()

    def before_of(self, kind: bytes) -> Before:
        if kind not in (b"K", b"O"):
            raise BadMessage(f"{kind!r} is where an old row begins")
        return Before(kind == b"O", self.fields())

    def column(self) -> RelationColumn:
        return RelationColumn(bool(self.number(BYTE) & 1), self.name(), self.number(INT32), self.number(SIGNED))

    def end(self) -> None:
        if self._at != len(self._data):
            raise BadMessage(f"it has {len(self._data)} bytes, of which {self._at} are a message")


def begin(reader: Reader) -> Begin:
    return Begin(reader.number(INT64), reader.number(INT64), reader.number(INT32))


def commit(reader: Reader) -> Commit:
    # (its flags have no meaning yet)
    reader.number(BYTE)
    return Commit(reader.number(INT64), reader.number(INT64), reader.number(INT64))


def stream_start(reader: Reader) -> StreamStart:
    return StreamStart(reader.number(INT32), reader.number(BYTE) == 1)


def stream_stop(_: Reader) -> StreamStop:
    return StreamStop()


def stream_commit(reader: Reader) -> StreamCommit:
    return StreamCommit(reader.number(INT32), commit(reader))


def stream_abort(reader: Reader) -> StreamAbort:
    return StreamAbort(reader.number(INT32), reader.number(INT32))


def origin(reader: Reader) -> Origin:
    return Origin(reader.number(INT64), reader.name())


def relation(reader: Reader) -> Relation:
    oid, schema, name, identity = reader.number(INT32), reader.name(), reader.name(), chr(reader.number(BYTE))
    if identity not in IDENTITIES:
        raise BadMessage(f"{identity!r} is no replica identity")
    return Relation(oid, schema, name, identity, tuple([reader.column() for _ in range(reader.number(INT16))]))


def type_of(reader: Reader) -> Type:
    return Type(reader.number(INT32), reader.name(), reader.name())


def insert(reader: Reader) -> Insert:
    return Insert(reader.number(INT32), reader.row())


def update(reader: Reader) -> Update:
    oid, kind = reader.number(INT32), reader.kind()
    if kind == b"N":
        return Update(oid, None, reader.row_of(kind))
    return Update(oid, reader.before_of(kind), reader.row())


def delete(reader: Reader) -> Delete:
    return Delete(reader.number(INT32), reader.before_of(reader.kind()))


def truncate(reader: Reader) -> Truncate:
    count, options = reader.number(INT32), reader.number(BYTE)
    # (a number that is turned may be billions, which the end of the message stops)
    return Truncate(tuple([reader.number(INT32) for _ in range(count)]), options)


def emitted(reader: Reader) -> Emitted:
    return Emitted(bool(reader.number(BYTE) & 1), reader.number(INT64), reader.name(), reader.counted())


READERS: Dict[bytes, Callable[[Reader], Message]] = {
    b"B": begin, b"C": commit, b"S": stream_start, b"E": stream_stop, b"c": stream_commit, b"A": stream_abort,
    b"O": origin, b"R": relation, b"Y": type_of, b"I": insert, b"U": update, b"D": delete, b"T": truncate, b"M": emitted,
}


def numbered(data: bytes) -> Tuple[int, bytes]:
    """The number of the transaction or subtransaction that a message of rows or types within a block is of, and the message as it is
    outside of one."""
    at = 1 + INT32.size
    if len(data) < at:
        raise BadMessage(f"{data!r} has no number of a transaction")
    return int(INT32.unpack_from(data, 1)[0]), data[:1] + data[at:]


def message_of(data: bytes) -> Message:
    """The message that some bytes are; raises `BadMessage` where they are none."""
    kind = bytes(data[:1])
    if kind not in READERS:
        raise BadMessage(f"{kind!r} is no kind of a message")
    reader = Reader(data)
    try:
        message = READERS[kind](reader)
    except (struct.error, ValueError) as why:
        raise BadMessage(f"a message of kind {kind!r} isn't what it should be: {why}") from None
    reader.end()
    return message
