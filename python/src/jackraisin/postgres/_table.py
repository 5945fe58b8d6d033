"""The followed table, as the catalog of the database tells of it."""
from __future__ import annotations

from dataclasses import asdict, dataclass
from typing import TYPE_CHECKING, Any, Dict, Iterable, List, Mapping, Optional, Sequence, Tuple

import psycopg2.errors

from ._errors import CantFollow, ColumnsChanged
from ._messages import Relation

if TYPE_CHECKING:
    from psycopg2.extensions import cursor as Cursor

WHOLE = ("int2", "int4", "int8")
# (types of which two values are the same exactly where their texts are)
EXACT = (
    *WHOLE, "numeric", "bool", "text", "varchar", "bpchar", "name", "uuid", "date", "time", "timestamp", "timestamptz", "oid",
)
TEXTS = ("text", "varchar", "bpchar", "name")

FIND = "SELECT oid::int8, relname FROM pg_class WHERE oid = to_regclass(%s)"

# (one statement, which sees the catalog as it is at one moment. A row of the catalog has the number of the transaction that wrote
# it. The key is that of the primary key, or of the index that is the replica identity)
LOOK = """
SELECT n.nspname, c.relname, c.relkind, c.relpersistence, c.relreplident,
    c.relkind <> 'p' AND EXISTS (SELECT FROM pg_inherits AS i WHERE i.inhparent = c.oid),
    c.relfilenode::text, c.xmin::text, (SELECT count(*) FROM pg_am WHERE amtype = 't'),
(
    SELECT json_agg(json_build_array(
        a.attname, a.attnum, format_type(a.atttypid, a.atttypmod), a.atttypid::int8, a.atttypmod, base.typname, base.typtype,
        CASE WHEN t.typtype = 'd' THEN t.typtypmod ELSE a.atttypmod END, a.attgenerated <> '',
        coalesce(l.collisdeterministic, true), a.xmin::text
    ) ORDER BY a.attnum)
    FROM pg_attribute AS a
        JOIN pg_type AS t ON t.oid = a.atttypid
        JOIN pg_type AS base ON base.oid = CASE WHEN t.typtype = 'd' THEN t.typbasetype ELSE t.oid END
        LEFT JOIN pg_collation AS l ON l.oid = a.attcollation
    WHERE a.attrelid = c.oid AND a.attnum > 0 AND NOT a.attisdropped
), ARRAY (
    SELECT a.attname::text
    FROM pg_index AS i
        CROSS JOIN LATERAL unnest(i.indkey) WITH ORDINALITY AS k (attnum, place)
        JOIN pg_attribute AS a ON a.attrelid = i.indrelid AND a.attnum = k.attnum
    WHERE i.indrelid = c.oid AND i.indisvalid AND i.indimmediate AND k.place <= i.indnkeyatts
        AND CASE c.relreplident WHEN 'i' THEN i.indisreplident ELSE i.indisprimary END
    ORDER BY k.place
), (
    SELECT string_agg(e.oid || ' ' || e.xmin, ',' ORDER BY e.oid)
    FROM pg_attribute AS a
        JOIN pg_type AS t ON t.oid = a.atttypid
        JOIN pg_enum AS e ON e.enumtypid = CASE WHEN t.typtype = 'd' THEN t.typbasetype ELSE t.oid END
    WHERE a.attrelid = c.oid AND a.attnum > 0 AND NOT a.attisdropped
), (
    SELECT json_object_agg(p.pubname, concat_ws(' ', r.oid, r.xmin, p.xmin))
    FROM pg_publication_rel AS r JOIN pg_publication AS p ON p.oid = r.prpubid
    WHERE r.prrelid = c.oid
), (
    SELECT json_object_agg(q.oid, json_build_array(q.relname, q.relpersistence, q.relreplident, concat_ws(' ', q.xmin, h.xmin)))
    FROM pg_partition_tree(c.oid) AS t
        JOIN pg_class AS q ON q.oid = t.relid AND q.oid <> c.oid
        JOIN pg_inherits AS h ON h.inhrelid = q.oid
    WHERE c.relkind = 'p'
)
FROM pg_class AS c JOIN pg_namespace AS n ON n.oid = c.relnamespace
WHERE c.oid = %s
"""


@dataclass(frozen=True)
class Column:
    """A column: its number in the table, its type as SQL writes it and by its number and modifier, the type it stands on (of a
    domain its base) and the modifier of that, and the transaction that altered it last."""

    name: str
    number: int
    type: str
    type_number: int
    type_modifier: int
    base: str
    kind: str
    modifier: int
    is_generated: bool
    is_deterministic: bool
    altered: str

    @property
    def is_bool(self) -> bool:
        return self.base == "bool"

    @property
    def is_whole(self) -> bool:
        return self.base in WHOLE

    @property
    def is_exact(self) -> bool:
        """Whether two of its values are the same exactly where their texts are."""
        has_modifier = self.base not in ("numeric", "bpchar") or self.modifier >= 0
        return (self.base in EXACT or self.kind == "e") and has_modifier and self.is_deterministic

    @property
    def place(self) -> Tuple[int, str, str]:
        return self.number, self.name, self.type


@dataclass(frozen=True)
class Partition:
    """A partition: its name, whether its rows are in the log, what names its rows there, and who changed it last."""

    name: str
    persistence: str
    identity: str
    altered: str


@dataclass(frozen=True)
class Table:
    """A table that can be followed: its columns by their names, those of its key, the file that its rows lie in, and its
    partitions by their numbers where it is partitioned. Then who changed it last, the labels of its enumerations and the
    publications that name it, and how many kinds of tables the server has."""

    oid: int
    schema: str
    name: str
    columns: Mapping[str, Column]
    key: Tuple[str, ...]
    file: str
    partitions: Optional[Mapping[str, Partition]]
    altered: str
    labels: Optional[str]
    publications: Mapping[str, str]
    kinds: int

    def __str__(self) -> str:
        return f"{self.schema}.{self.name}"

    def column(self, name: str, what: str) -> Column:
        """The column of a name, which is wanted as a dimension or a measure."""
        if name not in self.columns:
            raise CantFollow(f"table {self} has no column {name}, which is wanted as a {what}; it has {', '.join(self.columns)}")
        return self.columns[name]


def noted(table: Table) -> Dict[str, Any]:
    """A table as JSON has it."""
    return asdict(table)


def table_of(note: Mapping[str, Any]) -> Table:
    """The table that was so noted."""
    said = dict(note)
    said["columns"] = {name: Column(**it) for name, it in note["columns"].items()}
    said["key"] = tuple(note["key"])
    said["partitions"] = None if note["partitions"] is None else {oid: Partition(**it) for oid, it in note["partitions"].items()}
    return Table(**said)


def read_table(cursor: "Cursor", name: str) -> Table:
    """The table of a name, which may have a schema and quotes as in SQL; raises `CantFollow` where it can't be followed."""
    named = find(cursor, name)
    found = look(cursor, named[0]) if named else None
    if found is None:
        raise CantFollow(f"there is no table {name}: write SCHEMA.TABLE, with double quotes where SQL wants them")
    return found


def find(cursor: "Cursor", name: str) -> Optional[Tuple[int, str]]:
    """The number of the table of a name, and its name without a schema, or none where there is no such table."""
    try:
        cursor.execute(FIND, [name])
    except psycopg2.errors.InvalidName as why:
        raise CantFollow(f"{name} is no name of a table: {why}") from None
    row = cursor.fetchone()
    return (row[0], row[1]) if row else None


def look(cursor: "Cursor", oid: int) -> Optional[Table]:
    """The table of a number as it is now, or none."""
    cursor.execute(LOOK, [oid])
    row = cursor.fetchone()
    if row is None:
        return None
    schema, name, kind, persistence, identity, has_children, file, altered, kinds, columns, key, labels, publications, partitions = row
    full = f"{schema}.{name}"
    check_kind(full, kind, persistence, has_children)
    parts = {it: Partition(*of) for it, of in (partitions or {}).items()} if kind == "p" else None
    check_partitions(full, parts or {})
    check_identity(full, identity, key)
    return Table(
        oid, schema, name, {it[0]: Column(*it) for it in columns or []}, tuple(key), file, parts, altered, labels, publications or {}, kinds
    )


def check_kind(name: str, kind: str, persistence: str, has_children: bool) -> None:
    """Raises `CantFollow` where the write-ahead log doesn't tell the rows of a relation as its own."""
    if kind not in ("r", "p"):
        raise CantFollow(f"{name} is no table")
    if persistence != "p":
        raise CantFollow(f"table {name} is temporary or unlogged, so its changes aren't in the write-ahead log: ALTER TABLE {name} SET LOGGED")
    if has_children:
        raise CantFollow(f"table {name} has tables that inherit from it, whose changes come as their own: follow those one by one")


def check_partitions(name: str, partitions: Mapping[str, Partition]) -> None:
    """Raises `CantFollow` where the log doesn't tell the rows of a partition, or not by the key of the whole table."""
    for it in partitions.values():
        if it.persistence != "p":
            raise CantFollow(f"partition {it.name} of table {name} is unlogged, so its changes aren't in the write-ahead log: SET LOGGED")
        if it.identity not in ("d", "f"):
            raise CantFollow(f"partition {it.name} of table {name} has a replica identity of its own: ALTER TABLE .. REPLICA IDENTITY DEFAULT")


def check_identity(name: str, identity: str, key: Sequence[str]) -> None:
    """Raises `CantFollow` where no columns name a row in the changes."""
    mend = f"ALTER TABLE {name} REPLICA IDENTITY DEFAULT, and give it a primary key that isn't deferrable"
    if identity == "n":
        raise CantFollow(f"table {name} has REPLICA IDENTITY NOTHING, so its updates and deletes don't tell their keys: {mend}")
    if not key:
        raise CantFollow(f"table {name} has no key that names its rows in the changes: {mend}")


def check_same(before: Table, now: Optional[Table], names: Iterable[str]) -> None:
    """Raises `ColumnsChanged` where a table isn't there any more, or some of its columns or its key aren't what they were."""
    if now is None:
        raise ColumnsChanged(f"table {before} is gone: name it anew, and start the follower again")
    faults = differing(before, now, names)
    if not faults and before.key != now.key:
        faults = [f"the key is ({', '.join(now.key)}), and was ({', '.join(before.key)})"]
    if faults:
        raise ColumnsChanged(f"the columns of table {now} changed: {'; '.join(faults)}. Start the follower again: it takes the table as it is then")


def differing(before: Table, now: Table, names: Iterable[str]) -> List[str]:
    """What is said of columns that differ."""
    numbers = {it.number: it.name for it in now.columns.values()}
    faults = []
    for was in (before.columns[it] for it in names):
        column = now.columns.get(was.name)
        if column is None:
            faults.append(f"column {was.name} is {'named ' + numbers[was.number] + ' now' if was.number in numbers else 'gone'}")
        elif column.place != was.place:
            faults.append(f"column {was.name} is number {column.number} of type {column.type}, and was number {was.number} of type {was.type}")
    return faults


def untold(before: Table, now: Table, names: Iterable[str], publication: str) -> Optional[str]:
    """What came between and may have changed the rows of a table, or what is told of them, without a word in the log; or none.
    A table is told by its number, so another name doesn't matter. Rows are written anew into another file, and where that gives
    a column other values, the column's own row in the catalog is written too."""
    if before.publications.get(publication) != now.publications.get(publication):
        return f"the publication {publication} was changed"
    if before.partitions != now.partitions:
        return f"the partitions of table {now} were changed"
    if before.labels != now.labels:
        return f"an enumeration of table {now} was altered"
    if before.file != now.file and any(before.columns[it].altered != now.columns[it].altered for it in names):
        return f"table {now} was altered, and its rows were written anew"
    if now.kinds > 1 and before.altered != now.altered:
        return f"table {now} was altered, and the server has tables of other kinds than its own, whose changes may not be in the log"
    return None


def misfit(table: Table, relation: Relation, names: Iterable[str]) -> Optional[str]:
    """What of a table as the log tells it isn't what it was when it was copied, or none where its rows can be taken."""
    told = {it.name: it for it in relation.columns}
    for column in (table.columns[it] for it in names):
        found = told.get(column.name)
        if found is None or (found.type, found.modifier) != (column.type_number, column.type_modifier):
            return f"its column {column.name} was {'not there' if found is None else 'of another type'} for a while"
    if not set(table.key) <= set(relation.key):
        return "its rows were named otherwise for a while"
    return None


def one(cursor: "Cursor") -> Sequence[Any]:
    """The one row of an answer."""
    row: Optional[Sequence[Any]] = cursor.fetchone()
    assert row is not None
    return row
