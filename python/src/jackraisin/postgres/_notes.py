"""What is noted beside a store: how far it is, and what it is of."""
from __future__ import annotations

import contextlib
import json
import sqlite3
import threading
from typing import Any, Dict, List, NamedTuple, Optional

from .._program import Path
from ..serve._keys import make_private
from ._errors import CantFollow

TABLE = """CREATE TABLE IF NOT EXISTS stores(
    word TEXT PRIMARY KEY, is_whole INTEGER NOT NULL, place INTEGER NOT NULL, answered INTEGER NOT NULL, changes INTEGER NOT NULL,
    rows INTEGER NOT NULL, left_out TEXT NOT NULL, about TEXT NOT NULL
)"""
COLUMNS = "place, answered, changes, rows, left_out, about"


class Note(NamedTuple):
    """How far a store is: all changes until a `place` in the source's log are certain in it, and no answer before had seen more than
    what was until `answered`. It has at least so many `changes`; the table had so many `rows` when they were counted last. `left_out`
    are the ids of rows that no cube can have, and `about` says what the store is of."""

    place: int
    answered: int
    changes: int
    rows: int
    left_out: List[str]
    about: Dict[str, Any]


class Notes:
    """The notes of a path, in a SQLite file, which one process at a time has open. Stores are known by words; of one at most the notes
    are of a whole one. What is noted is on the disk when a call returns. Any thread may call."""

    def __init__(self, path: Path) -> None:
        self._path, self._lock = str(path), threading.Lock()
        try:
            make_private(self._path)
            self._connection = sqlite3.connect(self._path, isolation_level=None, check_same_thread=False, timeout=1)
        except (sqlite3.Error, OSError) as why:
            raise self._failed(why) from None
        try:
            # (the lock is held until the file is closed)
            for it in ("PRAGMA locking_mode = EXCLUSIVE", "PRAGMA journal_mode = WAL", "PRAGMA synchronous = FULL", "BEGIN EXCLUSIVE", TABLE, "COMMIT"):
                self._ask(it)
        except BaseException:
            self.close()
            raise

    def words(self) -> List[str]:
        """The words of all stores that are noted."""
        return [it[0] for it in self._ask("SELECT word FROM stores")]

    def whole(self) -> Optional[str]:
        """The word of the store that is whole."""
        found = self._ask("SELECT word FROM stores WHERE is_whole")
        return found[0][0] if found else None

    def of(self, word: str) -> Note:
        place, answered, changes, rows, left_out, about = self._ask(f"SELECT {COLUMNS} FROM stores WHERE word = ?", word)[0]
        return Note(place, answered, changes, rows, json.loads(left_out), json.loads(about))

    def begin(self, word: str) -> None:
        """Notes that a store is being made."""
        self._ask("INSERT INTO stores VALUES (?, 0, 0, 0, 0, 0, '[]', '{}')", word)

    def choose(self, word: str, note: Note) -> None:
        """Notes that a store is whole, and forgets all others."""
        with self._lock:
            self._do("BEGIN IMMEDIATE")
            self._do("DELETE FROM stores")
            self._do("INSERT INTO stores VALUES (?, 1, ?, ?, ?, ?, ?, ?)", word, *texts_of(note))
            self._do("COMMIT")

    def put(self, word: str, note: Note) -> None:
        """Notes how far a store is."""
        self._ask(f"UPDATE stores SET ({COLUMNS}) = (?, ?, ?, ?, ?, ?) WHERE word = ?", *texts_of(note), word)

    def forget(self) -> None:
        """Forgets that a store is whole: none is to be gone on with."""
        self._ask("UPDATE stores SET is_whole = 0")

    def close(self) -> None:
        with self._lock, contextlib.suppress(sqlite3.Error):
            self._connection.close()

    def _ask(self, statement: str, *values: object) -> List[Any]:
        with self._lock:
            return self._do(statement, *values)

    def _do(self, statement: str, *values: object) -> List[Any]:
        try:
            return self._connection.execute(statement, values).fetchall()
        except sqlite3.Error as why:
            raise self._failed(why) from None

    def _failed(self, why: Exception) -> CantFollow:
        if "locked" in str(why):
            return CantFollow(f"another follower has the notes {self._path} open: end it, or take another store")
        return CantFollow(f"the notes {self._path} can't be read or written: {why}")


def texts_of(note: Note) -> List[object]:
    return [*note[:4], json.dumps(note.left_out), json.dumps(note.about)]
