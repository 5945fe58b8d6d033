"""The changes of a transaction, as the server's output plugin tells them, said as work on a session."""
from __future__ import annotations

from typing import Iterable, List, Optional, Union

from ._errors import BeginAnew, RowUnsayable
from ._messages import Before, Delete, Insert, Relation, Truncate, Update
from ._stream import Change
from ._table import misfit
from ._values import Rows, Skipped, Values
from ._work import KEPT, Work


class Changes:
    """Says the changes of a table's rows, transaction by transaction in their order. `skipped` has the rows that are left out."""

    def __init__(self, rows: Rows, skipped: Skipped, skip: bool, may_come_twice: bool) -> None:
        self._rows, self.skipped, self._skip, self._may_come_twice = rows, skipped, skip, may_come_twice
        self._relation: Optional[Relation] = None

    def work_of(self, changes: Iterable[Change]) -> Work:
        """What a transaction changes. The session isn't touched, and may be asked meanwhile."""
        work = Work(self._may_come_twice)
        for change in changes:
            self._change(work, change)
            work.count += 1
        return work

    def _change(self, work: Work, change: Change) -> None:
        message, relation = change.message, change.relation
        self._check_relation(relation)
        if isinstance(message, Insert):
            self._insert(work, relation.values(message.row))
        elif isinstance(message, Update):
            values = relation.values(message.row)
            self._update(work, self._before(relation, message.before) if message.before else values, values)
        elif isinstance(message, Delete):
            self._delete(work, self._rows.id_of(self._before(relation, message.before)))
        elif isinstance(message, Truncate):
            work.truncate()
            self.skipped.ids.clear()

    def _check_relation(self, relation: Relation) -> None:
        """Raises where the table wasn't, when a row was written, what it was when it was copied."""
        if relation == self._relation:
            return
        table = self._rows.table
        fault = misfit(table, relation, self._rows.names)
        if fault is not None:
            raise BeginAnew(f"table {table} was altered: {fault}")
        self._relation = relation

    def _before(self, relation: Relation, before: Before) -> Values:
        """What is told of a row as it was: all of it, or its key alone. Of a partitioned table the server says that it is all where
        that is the replica identity of the whole table, whatever that of the partition is, by which it was written."""
        values, table = relation.values(before.fields), self._rows.table
        return values if before.is_whole and table.partitions is None else {it: values.get(it) for it in table.key}

    def _insert(self, work: Work, values: Values) -> None:
        id, fields = self._rows.id_of(values), self._fields(values)
        if isinstance(fields, RowUnsayable):
            self.skipped.add(id, fields)
        elif KEPT in fields:
            raise self._not_told(values)
        else:
            work.insert(id, *fields)

    def _update(self, work: Work, before: Values, values: Values) -> None:
        """An update; that of a key is a delete and an insert, and so is one between what can be said and what can't. A value
        that the log doesn't tell, since it is long and didn't change, is kept."""
        whole = {**before, **values}
        old, new = self._rows.id_of(before), self._rows.id_of(whole)
        fields = self._fields(whole)
        if old == new and old not in self.skipped.ids and not isinstance(fields, RowUnsayable):
            work.update(old, *fields)
        else:
            self._delete(work, old)
            self._insert(work, whole)

    def _delete(self, work: Work, id: str) -> None:
        is_skipped = id in self.skipped.ids
        self.skipped.ids.discard(id)
        # (where changes may come twice, a row that is left out now may have been there then)
        if not is_skipped or self._may_come_twice:
            work.delete(id)

    def _fields(self, values: Values) -> Union[List[str], RowUnsayable]:
        """The fields of a row, or why it can't be said, where it is left out for that."""
        try:
            return self._rows.fields_of(values)
        except RowUnsayable as why:
            if not self._skip:
                raise
            return why

    def _not_told(self, values: Values) -> BeginAnew:
        missing = next(it for it in self._rows.names if it not in values)
        table = self._rows.table
        mend = "" if table.partitions is not None else f", which ALTER TABLE {table} REPLICA IDENTITY FULL would spare"
        return BeginAnew(
            f"table {table}, key {self._rows.key_of(values)}: the key of the row is another one, and the log doesn't tell its column "
            f"{missing}, whose long text didn't change{mend}"
        )
