"""A thread that takes what comes, while more of it is read and others ask."""
from __future__ import annotations

import threading
import time
from collections import deque
from typing import Callable, Deque, Final, Generic, Optional, Tuple, TypeVar, Union

T = TypeVar("T")
# (so much waits at most: in number, and in bytes of the changes, unless one alone has more)
MOST_WAITING, MOST_BYTES = 10_000, 64 * 2**20
SECONDS_TO_WAIT: Final = 0.2


class Taker(Generic[T]):
    """Takes what is put, in its order, in a thread of its own: transactions, and LSNs before which there is none that wasn't put.
    Every so many seconds it calls something else between two. What either call raises ends it, and `check` raises that."""

    def __init__(self, take: Callable[[Union[T, int]], None], between: Callable[[], None], seconds: float) -> None:
        self._take, self._between, self._seconds = take, between, seconds
        self._changed = threading.Condition()
        self._waiting: Deque[Tuple[Union[T, int], int]] = deque()
        self._bytes = 0
        self._is_ending = False
        self._failure: Optional[BaseException] = None
        self._thread = threading.Thread(target=self._run, name="datacube taker", daemon=True)
        self._thread.start()

    def put(self, transaction: T, size: int, seconds: float) -> bool:
        """Puts a transaction whose changes have so many bytes, and says whether there was room for it within some seconds."""
        with self._changed:
            if not self._changed.wait_for(lambda: self._has_room(size) or self._failure, seconds) or self._failure:
                return False
            self._add(transaction, size)
            return True

    def reach(self, lsn: int) -> None:
        """Puts an LSN; one that waits behind all transactions isn't needed any more."""
        with self._changed:
            if self._waiting and isinstance(self._waiting[-1][0], int):
                self._waiting.pop()
            self._add(lsn, 0)

    def check(self) -> None:
        """Raises what ended it."""
        if self._failure is not None:
            raise self._failure

    def close(self) -> None:
        """Ends it when what it is at is done; what waits is left."""
        with self._changed:
            self._is_ending = True
            self._changed.notify_all()
        self._thread.join()

    def _has_room(self, size: int) -> bool:
        return not self._waiting or (len(self._waiting) < MOST_WAITING and self._bytes + size <= MOST_BYTES)

    def _add(self, it: Union[T, int], size: int) -> None:
        self._waiting.append((it, size))
        self._bytes += size
        self._changed.notify_all()

    def _next(self) -> Optional[Union[T, int]]:
        with self._changed:
            if not self._changed.wait_for(lambda: self._waiting or self._is_ending, SECONDS_TO_WAIT) or self._is_ending:
                return None
            it, size = self._waiting.popleft()
            self._bytes -= size
            self._changed.notify_all()
            return it

    def _run(self) -> None:
        last = time.monotonic()
        try:
            while not self._is_ending:
                it = self._next()
                if it is not None:
                    self._take(it)
                if time.monotonic() >= last + self._seconds:
                    self._between()
                    last = time.monotonic()
        except BaseException as why:
            with self._changed:
                self._failure = why
                self._changed.notify_all()
