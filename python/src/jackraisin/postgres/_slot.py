"""Connections, and the replication slot that keeps a follower's place in the write-ahead log."""
from __future__ import annotations

import contextlib
import logging
import re
import time
from dataclasses import dataclass
from typing import TYPE_CHECKING, Any, Dict, Iterator, Optional, Sequence, Tuple, TypeVar

import psycopg2
import psycopg2.errors
import psycopg2.extensions
import psycopg2.extras

from ._errors import CantFollow
from ._lsn import lsn_of
from ._table import one

if TYPE_CHECKING:
    from psycopg2.extensions import connection as Connection
    from psycopg2.extras import LogicalReplicationConnection

AnyConnection = TypeVar("AnyConnection", bound="Connection")
TOLD = logging.getLogger("jackraisin.postgres")
PLUGIN = "pgoutput"
# (what a follower's own slots and publications are named by)
PREFIX = "jackraisin_"
# (values are written alike by COPY and by the output plugin, and no row is hidden)
SETTINGS = "-c DateStyle=ISO -c TimeZone=UTC -c IntervalStyle=postgres -c row_security=off -c statement_timeout=0 -c lock_timeout=0 -c idle_in_transaction_session_timeout=0"
# (a connection whose other end is silent is given up after half a minute)
DEFAULTS = {
    "connect_timeout": "10", "keepalives_idle": "10", "keepalives_interval": "5", "keepalives_count": "3", "tcp_user_timeout": "30000",
    "fallback_application_name": "datacube",
}
SECONDS_TO_BE_FREE = 10
NO_TEXTS = ("SQL_ASCII", "MULE_INTERNAL")

SERVER = """
SELECT current_setting('wal_level'), pg_encoding_to_char(encoding), pg_is_in_recovery(), current_setting('server_version_num')::int
FROM pg_database WHERE datname = current_database()
"""

SLOT = """
SELECT plugin, database = current_database(), active_pid, confirmed_flush_lsn::text FROM pg_replication_slots WHERE slot_name = %s
"""
# (a slot's or a publication's own name ends with the number of its table)
NUMBERED = re.compile(re.escape(PREFIX) + r".*_(\d+)")


def dsn_of(dsn: str) -> str:
    """A connection string with the settings that a follower wants; what the caller says goes before."""
    given = options_in(dsn)
    options = " ".join(it for it in (given.pop("options", ""), SETTINGS) if it)
    return str(psycopg2.extensions.make_dsn(**{**DEFAULTS, **given, "options": options, "client_encoding": "UTF8"}))


def options_in(dsn: str) -> Dict[str, str]:
    """What a connection string says. Where it can't be read, or where a part of its password would be taken for a host, libpq's own
    error would show that part."""
    try:
        given: Dict[str, str] = psycopg2.extensions.parse_dsn(dsn)
    except psycopg2.ProgrammingError:
        raise CantFollow(
            "the connection string can't be read. It isn't shown here, since it may have a password; in a URI % is written %25, and @ "
            "of a password %40"
        ) from None
    # (a socket without a file has a name that begins so)
    places = [*(it[1:] for it in given.get("host", "").split(",")), given.get("port", "")]
    if any("@" in it for it in places):
        raise CantFollow("the host or the port of the connection string has an @ in it: in a URI, @ of a password is written %40")
    return given


def connect(dsn: str) -> "Connection":
    """A connection for SQL, in which each statement is a transaction."""
    connection = psycopg2.connect(dsn_of(dsn))
    connection.autocommit = True
    return connection


def connect_to_replicate(dsn: str) -> "LogicalReplicationConnection":
    """A connection for a replication slot."""
    return psycopg2.connect(dsn_of(dsn), connection_factory=psycopg2.extras.LogicalReplicationConnection)


def slot_name(table: str, oid: int) -> str:
    """The name of the slot of a table, by its name without a schema and its number, where none is given."""
    return f"{PREFIX}{re.sub(r'[^a-z0-9_]', '_', table.lower())[:40]}_{oid}"


@dataclass(frozen=True)
class Place:
    """Which history of which server an LSN is of."""

    server: str
    timeline: str


def place_of(connection: "LogicalReplicationConnection") -> Place:
    with connection.cursor() as cursor:
        cursor.execute("IDENTIFY_SYSTEM")
        server, timeline = one(cursor)[:2]
    return Place(str(server), str(timeline))


def check_server(connection: "Connection") -> None:
    """Raises `CantFollow` where the server or the database can't be followed."""
    with connection.cursor() as cursor:
        cursor.execute(SERVER)
        level, encoding, is_standby, version = one(cursor)
    if level != "logical":
        raise CantFollow(f"the server has wal_level = {level}: ALTER SYSTEM SET wal_level = logical, and restart it")
    if encoding in NO_TEXTS:
        raise CantFollow(f"the database is written in {encoding}, of which the server can't make UTF-8")
    if is_standby:
        raise CantFollow("the server is a standby: follow its primary")
    if version < 120000:
        raise CantFollow("the server is older than PostgreSQL 12")


def make_slot(connection: "LogicalReplicationConnection", slot: str, is_temporary: bool = False) -> Tuple[int, str]:
    """Makes the slot, which may be one that goes with its connection; gives the LSN from which it tells, and the snapshot of that
    moment, which holds until the connection is used again."""
    cursor: Any
    with connection.cursor() as cursor:
        try:
            cursor.execute(f'CREATE_REPLICATION_SLOT "{slot}" {"TEMPORARY " if is_temporary else ""}LOGICAL "{PLUGIN}"')
        except psycopg2.errors.InsufficientPrivilege as why:
            raise CantFollow(f"the role may make no slot, for which it has to have ALTER ROLE .. REPLICATION. {why}") from None
        except psycopg2.errors.ConfigurationLimitExceeded as why:
            raise CantFollow(f"the server has no room for a slot: drop one that nobody uses, or raise max_replication_slots. {why}") from None
        _, start, snapshot = one(cursor)[:3]
    return lsn_of(start), snapshot


def drop_slot(connection: "Connection", slot: str, is_own: bool = False) -> bool:
    """Drops the slot where it is there, and says whether it was. It waits some seconds until the slot is free, as one is
    soon after its follower was killed. Raises `CantFollow` where the slot may be another's: only one that this follower made
    (`is_own`), or that has the name of a follower's, is dropped."""
    until = time.monotonic() + SECONDS_TO_BE_FREE
    with connection.cursor() as cursor:
        while True:
            cursor.execute(SLOT, [slot])
            row = cursor.fetchone()
            if row is None:
                return False
            check_ours(slot, is_own, *row[:2])
            with contextlib.suppress(psycopg2.errors.ObjectInUse):
                cursor.execute("SELECT pg_drop_replication_slot(%s)", [slot])
                return True
            if time.monotonic() > until:
                raise in_use(slot, row[2])
            time.sleep(0.1)


def free_slot(connection: "Connection", slot: str) -> Optional[int]:
    """The LSN until which a slot's changes were taken, once nobody is at it, or none where it isn't there or isn't one that a follower of
    this database made."""
    until = time.monotonic() + SECONDS_TO_BE_FREE
    with connection.cursor() as cursor:
        while True:
            cursor.execute(SLOT, [slot])
            row = cursor.fetchone()
            if row is None or row[0] != PLUGIN or not row[1] or row[3] is None:
                return None
            if row[2] is None:
                return lsn_of(row[3])
            if time.monotonic() > until:
                raise in_use(slot, row[2])
            time.sleep(0.1)


def in_use(slot: str, process: int) -> CantFollow:
    return CantFollow(
        f"the slot {slot} is in use by the server's process {process}: is another follower running? End that one, or give "
        "this one another slot; a follower that was cut off is forgotten after wal_sender_timeout"
    )


def is_numbered_otherwise(name: str, oid: int) -> bool:
    """Whether a name is that of a slot of another table."""
    found = NUMBERED.fullmatch(name)
    return found is not None and found[1] != str(oid)


def check_ours(slot: str, is_own: bool, plugin: Optional[str], is_of_database: Optional[bool]) -> None:
    """Raises `CantFollow` where a slot isn't one that a follower of this database made."""
    if plugin != PLUGIN or not is_of_database:
        mend = f", or, if no earlier version of the follower runs with it, SELECT pg_drop_replication_slot('{slot}')" if slot.startswith(PREFIX) else ""
        raise CantFollow(
            f"the slot {slot} is of {plugin or 'a standby'}{'' if is_of_database else ' in another database'}: give this follower another slot{mend}"
        )
    if not is_own and not slot.startswith(PREFIX):
        raise CantFollow(
            f"the slot {slot} is there, and may be another's, so it is left alone: only slots whose names begin with {PREFIX} are dropped. "
            f"Give this follower another slot, or, if nobody reads it, SELECT pg_drop_replication_slot('{slot}')"
        )


@contextlib.contextmanager
def snapshot_of(connection: "Connection", snapshot: str) -> Iterator[Any]:
    """A cursor that sees the tables as they are in a snapshot."""
    with connection.cursor() as cursor:
        cursor.execute("BEGIN ISOLATION LEVEL REPEATABLE READ READ ONLY")
        cursor.execute("SET TRANSACTION SNAPSHOT %s", [snapshot])
        yield cursor
        cursor.execute("COMMIT")


def now_of(connection: "Connection") -> int:
    """The LSN up to which the server has written its log."""
    with connection.cursor() as cursor:
        cursor.execute("SELECT pg_current_wal_lsn()")
        return lsn_of(one(cursor)[0])


def cancel(connection: "Connection", processes: Sequence[int]) -> None:
    """Cancels what some of the server's processes are at."""
    with connection.cursor() as cursor:
        for it in processes:
            cursor.execute("SELECT pg_cancel_backend(%s)", [it])
