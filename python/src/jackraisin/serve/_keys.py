"""What is noted of keys, so that a body which comes twice under one is made once, whatever ends the server."""
from __future__ import annotations

import contextlib
import json
import os
import sqlite3
import time
from typing import Any, List, NamedTuple, Optional

from .._program import Path
from ._errors import CantServe
from ._places import Place

BEHIND_STORE = "-keys"
SECONDS_KEPT = 24 * 3600
TABLES = [
    "CREATE TABLE IF NOT EXISTS keys(key TEXT PRIMARY KEY, digest BLOB NOT NULL, noted INTEGER NOT NULL)",
    """CREATE TABLE IF NOT EXISTS places(key TEXT NOT NULL, begin INTEGER NOT NULL, length INTEGER NOT NULL, first INTEGER NOT NULL,
        before TEXT NOT NULL)""",
    "CREATE INDEX IF NOT EXISTS places_of ON places(key)",
    "CREATE INDEX IF NOT EXISTS noted_at ON keys(noted)",
]


class Note(NamedTuple):
    """The SHA-256 of the body that came under a key, and where its changes stand in the store: all of them, or a first part where
    the server was killed."""

    digest: bytes
    places: List[Place]

    @property
    def length(self) -> int:
        """How many of the changes were made."""
        return sum(it.length for it in self.places)


class KeyNotes:
    """The notes of a day, in a SQLite file beside the store, which one thread uses. What is noted is on the disk once `commit`
    returns. At the start the number of changes in the store says how much of each body was made."""

    def __init__(self, store: Path, stored: int) -> None:
        self.path = os.fspath(store) + BEHIND_STORE
        try:
            make_private(self.path)
            self._connection = sqlite3.connect(self.path, isolation_level=None)
        except (sqlite3.Error, OSError) as why:
            raise self._failed(why) from None
        self._ask("PRAGMA journal_mode = WAL")
        self._ask("PRAGMA synchronous = FULL")
        self.begin()
        for table in TABLES:
            self._ask(table)
        self._ask("UPDATE places SET length = max(0, ? - first + 1) WHERE first + length - 1 > ?", stored, stored)
        self.commit()

    def of(self, key: str) -> Optional[Note]:
        """What is noted of a key, within a day."""
        found = self._ask("SELECT digest FROM keys WHERE key = ? AND noted > ?", key, now() - SECONDS_KEPT)
        if not found:
            return None
        rows = self._ask("SELECT begin, length, first, before FROM places WHERE key = ? ORDER BY begin", key)
        places = [Place(begin, length, first, {int(it): last for it, last in json.loads(before).items()}) for begin, length, first, before in rows]
        return Note(found[0][0], [it for it in places if it.length])

    def begin(self) -> None:
        self._ask("BEGIN IMMEDIATE")

    def add(self, key: str, digest: bytes, place: Place, is_new: bool) -> None:
        """Notes where the changes of a body, or the rest of them, are going to stand."""
        if is_new:
            self._ask("DELETE FROM places WHERE key = ?", key)
            self._ask("INSERT OR REPLACE INTO keys VALUES (?, ?, ?)", key, digest, now())
        self._ask("INSERT INTO places VALUES (?, ?, ?, ?, ?)", key, place.begin, place.length, place.first, json.dumps(place.before))

    def commit(self) -> None:
        """Makes what was noted certain, and forgets what is older than a day."""
        self._forget()
        self._ask("COMMIT")

    def close(self) -> None:
        with contextlib.suppress(sqlite3.Error):
            self._connection.close()

    def _forget(self) -> None:
        old = "SELECT key FROM keys WHERE noted <= ?"
        self._ask(f"DELETE FROM places WHERE key IN ({old})", now() - SECONDS_KEPT)
        self._ask("DELETE FROM keys WHERE noted <= ?", now() - SECONDS_KEPT)

    def _ask(self, statement: str, *values: object) -> List[Any]:
        try:
            return self._connection.execute(statement, values).fetchall()
        except sqlite3.Error as why:
            raise self._failed(why) from None

    def _failed(self, why: Exception) -> CantServe:
        return CantServe(f"the keys can't be noted in {self.path}: {why}")


def now() -> int:
    return int(time.time())


def make_private(path: str) -> None:
    """Makes a file that its owner alone may read and write, where there is none, and its place in the folder certain."""
    with contextlib.suppress(FileExistsError):
        os.close(os.open(path, os.O_CREAT | os.O_EXCL | os.O_WRONLY, 0o600))
        folder = os.open(os.path.dirname(os.path.abspath(path)), os.O_RDONLY)
        try:
            os.fsync(folder)
        finally:
            os.close(folder)
