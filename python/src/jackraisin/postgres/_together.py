"""Questions that are asked at the same time: those that are the same are answered once, and short ones first."""
from __future__ import annotations

import contextlib
import threading
from concurrent.futures import Future
from typing import Callable, Dict, Final, Generic, Hashable, Iterator, TypeVar

T = TypeVar("T")
# (so many short ones go before a long one that waits)
MOST_BEFORE: Final = 100


class Turns:
    """Lets one ask at a time, and who asks for little before who asks for much, so that a cell is told between two whole cubes."""

    def __init__(self) -> None:
        self._lock = threading.RLock()
        self._changed = threading.Condition(self._lock)
        self._is_taken = False
        self._short = self._since = 0

    @contextlib.contextmanager
    def turn(self, is_long: bool) -> Iterator[None]:
        """The turn of one who asks."""
        with self._lock:
            self._short += not is_long
            try:
                self._changed.wait_for(lambda: not self._is_taken and (not is_long or not self._short or self._since >= MOST_BEFORE))
                self._is_taken = True
            finally:
                self._short -= not is_long
            self._since = 0 if is_long else self._since + 1
        try:
            yield
        finally:
            with self._lock:
                self._is_taken = False
                self._changed.notify_all()


class Together(Generic[T]):
    """Lets all who ask the same thing, before anybody began to answer it, have one answer."""

    def __init__(self) -> None:
        self._lock = threading.Lock()
        self._waiting: Dict[Hashable, "Future[T]"] = {}

    def ask(self, what: Hashable, answer: Callable[[Callable[[], None]], T]) -> T:
        """The answer; `answer` calls what it is given when it begins, so that nobody who comes later has one that is older."""
        with self._lock:
            found = self._waiting.get(what)
            future = found or self._waiting.setdefault(what, Future())
        if found is None:
            try:
                future.set_result(answer(lambda: self._begin(what, future)))
            except BaseException as why:
                future.set_exception(why)
            finally:
                self._begin(what, future)
        return future.result()

    def _begin(self, what: Hashable, future: "Future[T]") -> None:
        with self._lock:
            if self._waiting.get(what) is future:
                del self._waiting[what]
