"""The publication of a followed table, which says what the server sends of it. It also makes the server refuse changes of the table
that its log wouldn't tell, as updates while rows have no identity, and SET UNLOGGED."""
from __future__ import annotations

import contextlib
from typing import TYPE_CHECKING, Optional, Sequence

import psycopg2
import psycopg2.errors
from psycopg2 import sql

from ._errors import CantFollow
from ._slot import PREFIX, is_numbered_otherwise
from ._table import Table, one

if TYPE_CHECKING:
    from psycopg2.extensions import connection as Connection

VIA_ROOT = " WITH (publish_via_partition_root = true)"
# (a publication of all tables, or of a schema, doesn't keep a table of it from becoming unlogged. That of filters and of lists of
# columns is told since PostgreSQL 15)
FIND = """
SELECT p.pubinsert AND p.pubupdate AND p.pubdelete AND p.pubtruncate,
    EXISTS (SELECT FROM pg_publication_rel AS r WHERE r.prpubid = p.oid AND r.prrelid = %(table)s),
    EXISTS (SELECT FROM pg_publication_rel AS r WHERE r.prpubid = p.oid AND r.prrelid <> %(table)s),
    t.tablename IS NOT NULL, to_jsonb(t) ->> 'rowfilter', to_jsonb(t) -> 'attnames'
FROM pg_publication AS p
    LEFT JOIN pg_publication_tables AS t ON t.pubname = p.pubname AND (t.schemaname, t.tablename) = (
        SELECT n.nspname, c.relname FROM pg_class AS c JOIN pg_namespace AS n ON n.oid = c.relnamespace WHERE c.oid = %(table)s
    )
WHERE p.pubname = %(publication)s
"""


def fault_of(connection: "Connection", name: str, table: Table, columns: Sequence[str]) -> Optional[str]:
    """What keeps a publication from guarding a table and from telling some of its columns in full, or none where it does both."""
    with connection.cursor() as cursor:
        cursor.execute(FIND, {"publication": name, "table": table.oid})
        row = cursor.fetchone()
    if row is None:
        return f"there is no publication {name}"
    is_whole, has_table, has_others, is_by_name, filter, sent = row
    if not has_table:
        return f"the publication {name} doesn't name table {table}"
    if not is_whole:
        return f"the publication {name} leaves inserts, updates, deletes or truncates out"
    if not is_by_name:
        how = "true, and names what it is a partition of" if table.partitions is None else "false"
        return f"the publication {name} doesn't send the rows of table {table} as its own: it has publish_via_partition_root = {how}"
    if table.partitions is not None and has_others:
        return f"the publication {name} names other tables beside {table}, from which its partitions can't be told"
    if filter is not None:
        return f"the publication {name} leaves rows of table {table} out, by WHERE {filter}"
    missing = [it for it in columns if sent is not None and it not in sent]
    return f"the publication {name} leaves column {missing[0]} of table {table} out" if missing else None


OTHERS = """
SELECT r.prrelid::regclass::text FROM pg_publication AS p JOIN pg_publication_rel AS r ON r.prpubid = p.oid WHERE p.pubname = %s AND r.prrelid <> %s
"""
IS_THERE = """
SELECT EXISTS (SELECT FROM pg_replication_slots WHERE slot_name = %(name)s) OR EXISTS (SELECT FROM pg_publication WHERE pubname = %(name)s)
"""


def check_not_anothers(connection: "Connection", name: str, table: Table) -> None:
    """Raises `CantFollow` where a slot or a publication of a follower's name is that of another table, so that it isn't dropped."""
    with connection.cursor() as cursor:
        cursor.execute(OTHERS, [name, table.oid])
        other = cursor.fetchone()
        cursor.execute(IS_THERE, {"name": name})
        is_there = one(cursor)[0]
    mend = f"so it is left alone: give this follower another slot, or drop that one by --slot {name} --drop"
    if name.startswith(PREFIX) and other is not None:
        raise CantFollow(f"the publication {name} is of another table, {other[0]}, and not of {table}, {mend}")
    if is_there and is_numbered_otherwise(name, table.oid):
        raise CantFollow(f"the slot or the publication {name} has the number of another table in its name than {table}, which is {table.oid}, {mend}")


def make_publication(connection: "Connection", name: str, table: Table, columns: Sequence[str]) -> bool:
    """Makes the publication of a follower, unless it is there already, and says whether it is one of a follower."""
    fault = fault_of(connection, name, table, columns)
    if fault is None:
        return name.startswith(PREFIX)
    if name.startswith(PREFIX):
        drop_publication(connection, name)
    statement = sql.SQL("CREATE PUBLICATION {} FOR TABLE ONLY {}{}").format(
        sql.Identifier(name), sql.Identifier(table.schema, table.name), sql.SQL("" if table.partitions is None else VIA_ROOT)
    )
    try:
        with connection.cursor() as cursor:
            cursor.execute(statement)
    except psycopg2.errors.InsufficientPrivilege as why:
        raise CantFollow(
            f"the role may not make a publication of table {table}, without which changes of the table could be missed: "
            f"{mend(table)}, and start the follower with --publication NAME. {why}"
        ) from None
    except psycopg2.errors.DuplicateObject:
        raise CantFollow(f"{fault}: give this follower another slot, of which its publication has the name") from None
    return True


def check_publication(connection: "Connection", name: str, table: Table, columns: Sequence[str]) -> None:
    """Raises `CantFollow` where a publication that was given doesn't guard a table or tell it in full."""
    fault = fault_of(connection, name, table, columns)
    if fault is not None:
        raise CantFollow(f"{fault}: {mend(table)}, and give that one")


def mend(table: Table) -> str:
    return f"have the table's owner CREATE PUBLICATION NAME FOR TABLE {table}{'' if table.partitions is None else VIA_ROOT}"


def drop_publication(connection: "Connection", name: str) -> bool:
    """Drops a publication where it is there and the role may, and says whether it did."""
    with connection.cursor() as cursor, contextlib.suppress(psycopg2.errors.UndefinedObject, psycopg2.errors.InsufficientPrivilege):
        cursor.execute(sql.SQL("DROP PUBLICATION {}").format(sql.Identifier(name)))
        return True
    return False
