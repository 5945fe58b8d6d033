"""What is done in a snapshot of the database, of which the place in the log is known."""
from __future__ import annotations

import abc
import contextlib
import secrets
import threading
from typing import TYPE_CHECKING, List, Optional

import psycopg2

from ._slot import PREFIX, AnyConnection, connect, connect_to_replicate, make_slot

if TYPE_CHECKING:
    from psycopg2.extensions import connection as Connection

MOST_JOINS, SECONDS_TO_JOIN = 20, 0.1


class InSnapshot(abc.ABC):
    """Works in the snapshot of a slot that lasts as long, in a thread of its own. `lsn` is where the snapshot is in the log, once it
    `has_begun`; where it failed `failure` says why."""

    def __init__(self, dsn: str, name: str) -> None:
        self._dsn, self._name = dsn, name
        self._connections: List["Connection"] = []
        self.lsn: Optional[int] = None
        self.failure: Optional[str] = None
        self._is_given_up = False
        self.has_begun, self.has_ended = threading.Event(), threading.Event()
        self._thread = threading.Thread(target=self._run, name=f"datacube {name}", daemon=True)
        self._thread.start()

    @abc.abstractmethod
    def work(self, connection: "Connection", snapshot: str) -> None:
        """What is done."""

    def close(self) -> None:
        """Ends it, whatever it is at. One that is still connecting ends once it is connected, or can't be, and isn't waited for."""
        self._is_given_up = True
        for _ in range(MOST_JOINS):
            for it in list(self._connections):
                with contextlib.suppress(psycopg2.Error):
                    it.cancel()
            self._thread.join(SECONDS_TO_JOIN)
            if not self._thread.is_alive():
                return

    def _run(self) -> None:
        try:
            with contextlib.closing(self._kept(connect_to_replicate(self._dsn))) as replication:
                self.lsn, snapshot = make_slot(replication, f"{PREFIX}{self._name}_{secrets.token_hex(8)}", is_temporary=True)
                self.has_begun.set()
                with contextlib.closing(self._kept(connect(self._dsn))) as connection:
                    self.work(connection, snapshot)
        except Exception as why:
            self.failure = " ".join(str(why).split())
        finally:
            self.has_ended.set()
            self.has_begun.set()

    def _kept(self, connection: AnyConnection) -> AnyConnection:
        """A connection whose work `close` may cut short."""
        self._connections.append(connection)
        if self._is_given_up:
            raise psycopg2.InterfaceError("it was given up")
        return connection
