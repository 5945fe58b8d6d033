"""The table as it is in a snapshot, written as the records of a feed or of a session."""
from __future__ import annotations

import csv
import io
from dataclasses import replace
from typing import TYPE_CHECKING, NamedTuple, Sequence, TextIO

from psycopg2 import sql

from ._changes import Changes
from ._errors import BeginAnew, RowUnsayable
from ._mirror import Mirror
from ._slot import snapshot_of
from ._table import Table, look
from ._values import Rows, Skipped, row_of

if TYPE_CHECKING:
    from psycopg2.extensions import connection as Connection


class Copy(NamedTuple):
    """A mirror with the rows of a snapshot, what says the changes behind it, their number, and the table as it was there."""

    mirror: Mirror
    changes: Changes
    rows: Rows
    number: int
    table: Table


class RowsWriter(io.RawIOBase):
    """Takes the rows that COPY sends, a line each, and writes them as records, each of which begins with the same fields. `skipped`
    has those that can't be said, where they may be skipped."""

    def __init__(self, rows: Rows, out: TextIO, skip: bool, first: Sequence[str]) -> None:
        super().__init__()
        self._rows, self._skip, self._records = rows, skip, csv.writer(out)
        self._names, self._first = rows.names, first
        self.count = 0
        self.skipped = Skipped()

    def write(self, line: bytes) -> int:  # type: ignore[override]
        values = dict(zip(self._names, row_of(bytes(line).decode("utf-8")[:-1])))
        self.count += 1
        try:
            self._records.writerow([*self._first, self._rows.id_of(values), *self._rows.fields_of(values)])
        except RowUnsayable as why:
            if not self._skip:
                raise
            self.skipped.add(self._rows.id_of(values), why)
        return len(line)


def copy_table(connection: "Connection", snapshot: str, rows: Rows, writer: RowsWriter) -> Table:
    """Copies the rows of a snapshot, and gives the table as it is there. Raises `BeginAnew` where the table isn't there
    what it was when it was looked at, or where its rows were written anew since, for then a snapshot of before may see none of
    them (of TRUNCATE, and of some forms of ALTER TABLE)."""
    name, columns = sql.Identifier(rows.table.schema, rows.table.name), sql.SQL(", ").join(map(sql.Identifier, rows.names))
    # (the rows of a partitioned table lie in its partitions)
    only = sql.SQL("ONLY ") if rows.table.partitions is None else sql.SQL("")
    with snapshot_of(connection, snapshot) as cursor:
        then = look(cursor, rows.table.oid)
        # (the publication was made since)
        if then is None or then != replace(rows.table, publications=then.publications):
            raise BeginAnew(f"table {rows.table} was altered before its copy began")
        cursor.copy_expert(sql.SQL("COPY (SELECT {} FROM {}{}) TO STDOUT").format(columns, only, name), writer)
    with connection.cursor() as cursor:
        now = look(cursor, rows.table.oid)
    if now is None or now.file != then.file or now.partitions != then.partitions:
        raise BeginAnew(f"the rows of table {rows.table} were written anew while they were copied")
    return then
