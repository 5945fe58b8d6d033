"""A private PostgreSQL for tests, writers on it, what SQL says of a table's cube, and a way to it that can be cut."""
from __future__ import annotations

import atexit
import contextlib
import importlib
import json
import os
import select
import shutil
import socket
import subprocess
import sys
import tempfile
import threading
import time
from typing import Any, Iterator, List, Optional

import beside
import jackraisin
import oracle
import sql

HERE = os.path.dirname(os.path.realpath(__file__))
LONG = bool(os.environ.get("DATACUBE_LONG"))
# (what the tests look for in it isn't safe from a crash of the machine)
SETTINGS = ["listen_addresses=", "fsync=off", "wal_level=logical", "max_wal_senders=20", "max_replication_slots=20", "jit=off", "deadlock_timeout=50ms"]
DIMENSIONS, MEASURES = ["city", "product", "is_paid"], ["price", "cents"]
AGGREGATES = ["count(*)", "count(price)", "sum(price)", "min(price)", "max(price)", "avg(price)", "sum(cents)", "min(cents)", "max(cents)", "avg(cents)"]
AGGREGATES += ["count(distinct price)", "percentile_disc(0.5,price)", "percentile_disc(0.95,cents)", "sum_of_squares(price)", "var_pop(cents)", "values(price)"]
SCHEMA = jackraisin.Schema(DIMENSIONS, MEASURES, AGGREGATES)
# the writers' table, and its facts as the schema has them
CREATE = """
CREATE TABLE {table} (
    kind text, number bigint, city text, product varchar(40), is_paid boolean, price numeric(12, 2), cents bigint, note text,
    PRIMARY KEY (kind, number)
)
"""
FACTS = """
CREATE OR REPLACE TEMP VIEW facts AS
SELECT {city}, {product}, is_paid::text, (price * 100)::bigint AS price, cents FROM {table}
"""


def escaped(column: str) -> str:
    """A column of texts in SQL, as a follower's cube has it: one that begins with a backslash has one more."""
    return rf"CASE WHEN left({column}, 1) = '\' THEN '\' ELSE '' END || {column} AS {column}"


def facts(table: str) -> str:
    """The statement that makes the view of the writers' facts."""
    return FACTS.format(table=table, city=escaped("city"), product=escaped("product"))


def missing() -> Optional[str]:
    """What these tests lack, or none."""
    for module, package in (("psycopg2", "python3-psycopg2"),):
        try:
            importlib.import_module(module)
        except ImportError:
            return f"{package} isn't installed for this Python"
    if not sql.newest_server():
        return "Debian's package postgresql isn't installed"
    if not has_loopback():
        return "127.0.0.1 can't be reached"
    return None if shutil.which("setpriv") else "there is no setpriv"


def has_loopback() -> bool:
    """Whether a server on 127.0.0.1 can be reached."""
    try:
        with socket.create_server(("127.0.0.1", 0)) as server, socket.create_connection(server.getsockname()):
            return True
    except OSError:
        return False


def fresh(folder: str) -> None:
    """Leaves what a new server has in a folder."""
    with sql.Server(sql.newest_server(), folder, SETTINGS):
        pass


class Private:
    """A private server in a folder of its own, which may be ended and begun again."""

    def __init__(self) -> None:
        self.room = tempfile.mkdtemp(prefix="pg-")
        self.server = sql.Server(sql.newest_server(), self.room, SETTINGS, beside.once("postgresql", fresh))
        self.server.__enter__()
        self.dsn = f"host={self.room} user=datacube dbname=postgres"
        self.kept = threading.local()

    def close(self) -> None:
        self.server.end()
        shutil.rmtree(self.room)

    def folder_for_others(self) -> str:
        """A folder for the temporary files of what may be killed; it goes with the server's own."""
        folder = f"{self.room}/tmp"
        os.makedirs(folder, exist_ok=True)
        return folder

    def oid(self, table: str) -> int:
        """The number of a table."""
        return int(self.ask(f"SELECT '{table}'::regclass::oid::int8")[0][0])

    def lsn(self) -> int:
        """Where the server's log ends now."""
        return int(self.ask("SELECT pg_current_wal_lsn() - '0/0'")[0][0])

    @contextlib.contextmanager
    def connected(self) -> Iterator[Any]:
        """A cursor whose statements are transactions."""
        import psycopg2

        with contextlib.closing(psycopg2.connect(self.dsn)) as connection:
            connection.autocommit = True
            with connection.cursor() as cursor:
                yield cursor

    def executed(self, statement: str) -> Any:
        """The cursor of a statement on the connection that this thread keeps, or on a new one where the server ended that."""
        import psycopg2

        process, connection = getattr(self.kept, "connection", (None, None))
        self.kept.connection = None, None
        is_kept = process is self.server.process and not connection.closed
        if not is_kept:
            connection = psycopg2.connect(self.dsn)
            connection.autocommit = True
        cursor = connection.cursor()
        try:
            cursor.execute(statement)
        except psycopg2.Error:
            was_ended = connection.closed
            connection.close()
            if is_kept and was_ended:
                return self.executed(statement)
            raise
        self.kept.connection = self.server.process, connection
        return cursor

    def run(self, *statements: str) -> None:
        for it in statements:
            self.executed(it).close()

    def ask(self, statement: str) -> List[Any]:
        with self.executed(statement) as cursor:
            rows: List[Any] = cursor.fetchall()
        return rows

    def cube(self, facts: str, schema: jackraisin.Schema = SCHEMA) -> str:
        """The printed cube as GROUP BY CUBE gives it, over what a statement makes a view named facts of."""
        aggregates = [aggregate(schema, it) for it in schema.aggregates]
        like = oracle.Schema(list(schema.dimensions), list(schema.measures), aggregates, decimals=schema.decimals, texts=schema.texts)
        header = oracle.text_of(like, []).decode()
        out = tempfile.SpooledTemporaryFile(2**24)
        with self.executed(facts) as cursor:
            try:
                cursor.copy_expert(rf"COPY ({sql.cube(like)}) TO STDOUT WITH (FORMAT csv, NULL '\N')", out)
            finally:
                cursor.execute("DROP VIEW facts")
        out.seek(0)
        return header + out.read().decode()


def aggregate(schema: jackraisin.Schema, text: str) -> Any:
    """An aggregate as the oracle has it."""
    return oracle.aggregate_of(text, schema.measures)


SHARED: List[Private] = []


def shared() -> Private:
    """The server that all tests of a process share; what a test makes in it goes with the test."""
    if not SHARED:
        SHARED.append(Private())
        # (unittest has no end of its own)
        atexit.register(end_shared)
    return SHARED[0]


def end_shared() -> None:
    while SHARED:
        SHARED.pop().close()


class Writers:
    """Processes that write side by side."""

    def __init__(self, private: Private, table: str, seed: str, count: int = 4) -> None:
        command = [sys.executable, "-B", f"{HERE}/writers.py", private.dsn, table]
        pipes = {"stdin": subprocess.PIPE, "stdout": subprocess.PIPE, "text": True}
        self.processes = [subprocess.Popen([*command, f"{seed} {at}"], **pipes) for at in range(count)]
        self.transactions = self.changes = 0

    def __enter__(self) -> "Writers":
        return self

    def __exit__(self, *_: object) -> None:
        for it in self.processes:
            it.stdin.close()
            it.wait()
            it.stdout.close()

    def begin(self, count: int) -> None:
        """Lets each make so many transactions."""
        for it in self.processes:
            it.stdin.write(f"run {count}\n")
            it.stdin.flush()

    def end(self) -> None:
        """Waits until all have made theirs, and adds up what they committed."""
        told = [json.loads(it.stdout.readline()) for it in self.processes]
        self.transactions, self.changes = (sum(it[name] for it in told) for name in ("transactions", "changes"))

    def run(self, count: int) -> None:
        self.begin(count)
        self.end()


class Way:
    """A way to a server's socket that can be cut, at once or after so many bytes more from the server."""

    def __init__(self, private: Private) -> None:
        self.target = f"{private.room}/.s.PGSQL.5432"
        self.room = tempfile.mkdtemp(prefix="datacube-way-")
        self.dsn = private.dsn.replace(private.room, self.room)
        self.left: Optional[int] = None
        self.cuts, self.is_shut = 0, False
        self.ends: List[socket.socket] = []
        self.server = socket.socket(socket.AF_UNIX)
        self.server.bind(f"{self.room}/.s.PGSQL.5432")
        self.server.listen()
        threading.Thread(target=self.accept, daemon=True).start()

    def accept(self) -> None:
        with contextlib.suppress(OSError):
            while True:
                near, far = self.server.accept()[0], socket.socket(socket.AF_UNIX)
                with contextlib.suppress(OSError):
                    if not self.is_shut:
                        far.connect(self.target)
                        self.ends += [near, far]
                        threading.Thread(target=self.carry, args=[near, far], daemon=True).start()
                        continue
                near.close()
                far.close()

    def carry(self, near: socket.socket, far: socket.socket) -> None:
        with near, far, contextlib.suppress(OSError, ValueError):
            while True:
                for it in select.select([near, far], [], [])[0]:
                    data = it.recv(65536)
                    if not data:
                        return
                    if it is far and self.left is not None:
                        data, self.left = data[: self.left], self.left - len(data)
                    (far if it is near else near).sendall(data)
                    if self.left is not None and self.left <= 0:
                        self.left = None
                        self.cut()
                        return

    def cut(self) -> None:
        """Cuts all connections."""
        self.cuts += 1
        ends, self.ends = self.ends, []
        for it in ends:
            with contextlib.suppress(OSError):
                it.shutdown(socket.SHUT_RDWR)

    def close(self) -> None:
        self.server.close()
        self.cut()
        shutil.rmtree(self.room)


until = beside.until
