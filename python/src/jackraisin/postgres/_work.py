"""What a transaction changes of a session, as the records that say it."""
from __future__ import annotations

import csv
import io
import tempfile
from typing import IO, Final, Optional

from .._live import Live

SOURCE: Final = "1"
# (what a field of an update says where the value is kept)
KEPT: Final = "\\="
# (what an id ends with in a store, where it may be that of a longer one too: a record that is cut off when the follower is killed is taken
# all the same, and one that removes a fact has nothing behind the id. No key that isn't of texts has it)
END: Final = ";"
IN_MEMORY = 16 * 2**20


class Work:
    """What a transaction changes: whether it begins with an empty session, and the records that follow; those of a long transaction
    lie in a file. `count` is the number of its changes. Where it may come twice, facts are put and removed whatever is present; an
    update that keeps a value stays one, since a put says all of a fact."""

    def __init__(self, may_come_twice: bool) -> None:
        self._may_come_twice = may_come_twice
        self.count = self.records = 0
        self.is_anew = False
        self._file: Optional[IO[str]]
        self._clear()

    def _clear(self) -> None:
        self._text, self._file, self.records = io.StringIO(newline=""), None, 0
        self._writer = csv.writer(self._text)

    def insert(self, id: str, *fields: str) -> None:
        self._put("P" if self._may_come_twice else "I", id, *fields)

    def update(self, id: str, *fields: str) -> None:
        self._put("P" if self._may_come_twice and KEPT not in fields else "U", id, *fields)

    def delete(self, id: str) -> None:
        self._put("R" if self._may_come_twice else "D", id)

    def truncate(self) -> None:
        """Nothing is left of what was there, nor of the records until now."""
        self._clear()
        self.is_anew = True

    def send(self, session: Live) -> None:
        """Sends the records, from the first one."""
        text = self._moved() if self._file else self._text
        text.seek(0)
        session.send(text)

    def _put(self, op: str, id: str, *fields: str) -> None:
        self._writer.writerow([SOURCE, op, id, *fields])
        self.records += 1
        if self._text.tell() > IN_MEMORY:
            self._file = self._moved()

    def _moved(self) -> IO[str]:
        """The file, with what is in memory at its end."""
        file = self._file or tempfile.TemporaryFile("w+", encoding="utf-8", newline="", prefix="datacube-")
        file.write(self._text.getvalue())
        self._text.seek(0)
        self._text.truncate()
        return file
