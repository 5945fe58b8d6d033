"""The stores of a follower at a path: the one that it goes on with, and one that is made beside it and takes its place."""
from __future__ import annotations

import contextlib
import glob
import os
import re
import secrets
import threading
import time
from typing import Callable, Optional

from .._errors import Ended, Failure
from .._live import Live
from .._program import DONE, Path
from .._schema import Schema
from ._errors import BeginAnew, CantFollow
from ._mirror import Mirror, anew_where_full
from ._notes import Note, Notes
from ._work import Work

BEHIND_STORE, LOG = "-notes", "-wal"
WORD = re.compile(r"[0-9a-f]{16}")
# (how long the program of a follower that was killed may still have its store, which it ends well)
SECONDS_IN_USE, SECONDS_BETWEEN_TRIES = 120.0, 0.1
# (a store isn't there, isn't one or is damaged, has a gap, is of another schema or has a row that was changed)
UNFIT = ("D2", "D3", "D4", "D5", "D9")


class StoredSession(Live):
    """A session over a store, which is known by a word; its schema's file begins with that, so that the program takes no other one."""

    def __init__(self, schema: Schema, path: str, word: str, changes: int = 0) -> None:
        self.path, self.word, self.changes = path, word, changes
        super().__init__(schema.remarked(word), store=path)


class Store:
    """The stores at a path, and what is noted of them. The one that is gone on with has the path itself, or, where it was made while
    another had that, the path with its word behind; then it takes the path when the follower ends well. One process at a time."""

    def __init__(self, path: Path, schema: Schema) -> None:
        self.path, self._schema = os.path.abspath(os.fspath(path)), schema
        is_there = os.path.lexists(self.path)
        self.notes = Notes(self.path + BEHIND_STORE)
        if is_there and not self.notes.words():
            self.notes.close()
            raise CantFollow(f"{self.path} is there, and no notes of a follower beside it: it is left alone. Name another store")

    def noted(self) -> Optional[Note]:
        """What is noted of the store that is to be gone on with, where there is one; what else a follower left is removed."""
        word = self.notes.whole()
        self._clean(self._path_of(word) if word else None)
        return self.notes.of(word) if word else None

    def open(self, note: Note, ending: threading.Event) -> StoredSession:
        """A session over the store that is gone on with, which the program of an earlier follower may have yet; an event ends the wait
        for that. Raises `BeginAnew` where it isn't what is noted."""
        word = self.notes.whole()
        assert word is not None
        path, end = self._path_of(word), time.monotonic() + SECONDS_IN_USE
        if not os.path.exists(path):
            raise BeginAnew(f"the store {path} isn't there")
        while True:
            try:
                return StoredSession(self._schema, path, word, note.changes)
            except Failure as why:
                code = why.line.partition(" ")[0]
                if code in UNFIT:
                    raise BeginAnew(f"the store {path} isn't the one that was noted, or is damaged ({why.line})") from None
                if code != "D1" or time.monotonic() > end or ending.wait(SECONDS_BETWEEN_TRIES):
                    raise

    def begin(self) -> StoredSession:
        """A session over an empty store, at the path where nothing is, else beside it."""
        word = secrets.token_hex(8)
        path = self.path if not os.path.lexists(self.path) else f"{self.path}-{word}"
        self.notes.begin(word)
        return StoredSession(self._schema, path, word)

    def choose(self, session: StoredSession, note: Note) -> None:
        """From here on the store of a session is gone on with, of which all changes are certain."""
        sync_folder(self.path)
        self.notes.choose(session.word, note)

    def clean(self, session: StoredSession) -> None:
        """Removes all stores but that of a session. The sessions over them are over."""
        self._clean(session.path)

    def discard(self, session: StoredSession) -> None:
        """Ends a session at once, and removes its store, which was made beside the one that is gone on with."""
        session.kill()
        if session.path != self.path:
            for it in (session.path, session.path + LOG):
                remove(it)

    def end(self, session: StoredSession) -> None:
        """Ends a session well, and gives its store the path."""
        with contextlib.suppress(Ended):
            session.close()
        if session.status in DONE and session.path != self.path:
            # (a log is of the file that had the path; that of a session that ended well has nothing left)
            remove(self.path + LOG)
            os.replace(session.path, self.path)
            sync_folder(self.path)
            remove(session.path + LOG)

    def close(self) -> None:
        self.notes.close()

    def _path_of(self, word: str) -> str:
        beside = f"{self.path}-{word}"
        return beside if os.path.exists(beside) else self.path

    def _clean(self, kept: Optional[str]) -> None:
        paths = [it for it in glob.glob(glob.escape(self.path) + "-*") if WORD.fullmatch(it[len(self.path) + 1 :].partition("-")[0])]
        kept_paths = () if kept is None else (kept, kept + LOG)
        for it in [*paths, self.path + LOG, self.path]:
            if it not in kept_paths:
                remove(it)


class StoredMirror(Mirror):
    """A mirror over a store, which may be the one that is gone on with (`is_chosen`). All until `certain` is certain in it, and noted.
    `note` gives what is noted, by an LSN and a number of changes."""

    may_come_twice = True

    def __init__(self, session: StoredSession, schema: Schema, lsn: int, store: Store, note: Callable[[int, int], Note], is_chosen: bool = False) -> None:
        super().__init__(session, schema, lsn)
        self._store, self._note = store, note
        self.is_chosen, self.certain = is_chosen, lsn if is_chosen else 0

    @property
    def session(self) -> StoredSession:
        assert isinstance(self._live, StoredSession)
        return self._live

    def close(self) -> None:
        self.session.kill()

    def discard(self) -> None:
        """Ends it, and removes its store, where another one is gone on with."""
        self._store.discard(self.session)

    def finish(self, is_whole: bool) -> None:
        if is_whole:
            self.keep()
        self._store.end(self.session)

    def choose(self) -> None:
        """From here on the store is the one that is gone on with."""
        self._keep(self.session, self.lsn)
        self.is_chosen, self.certain = True, self.lsn

    def clean(self) -> None:
        """Removes all stores but this one."""
        self._store.clean(self.session)

    def keep(self) -> None:
        """Makes all until here certain, and notes it."""
        if self.certain < self.lsn:
            lsn = self.lsn
            with anew_where_full():
                self.session.sync()
            self._store.notes.put(self.session.word, self._note(lsn, self.session.changes))
            self.certain = lsn

    def _empty(self) -> Live:
        return self._store.begin()

    def _send(self, live: Live, work: Work) -> None:
        super()._send(live, work)
        assert isinstance(live, StoredSession)
        live.changes += work.records

    def _keep(self, live: Live, lsn: int) -> None:
        assert isinstance(live, StoredSession)
        live.sync()
        self._store.choose(live, self._note(lsn, live.changes))

    def _end(self, old: Live) -> None:
        assert isinstance(old, StoredSession)
        old.kill()
        self.clean()


def remove(path: str) -> None:
    with contextlib.suppress(FileNotFoundError):
        os.unlink(path)


def sync_folder(path: str) -> None:
    """Makes certain which files the folder of a path has."""
    folder = os.open(os.path.dirname(path), os.O_RDONLY)
    try:
        os.fsync(folder)
    finally:
        os.close(folder)
