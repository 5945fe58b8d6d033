"""Where a follower is, and who asks it."""
from __future__ import annotations

import threading
import time
from dataclasses import dataclass, replace
from typing import Any, Callable, Final, Optional, Tuple

from .._errors import Ended
from .._questions import Questions
from ._errors import BeginAnew, NotCaughtUp
from ._lsn import lsn_text
from ._mirror import Mirror, Replaced
from ._together import Together, Turns

# (the question whose answer is long)
WHOLE: Final = "print"


@dataclass(frozen=True)
class State:
    """How far a follower is. All that was committed before `lsn` is in the cube, and nothing after it; `behind` is by how
    many bytes of log the server was ahead at the last look, once a second. Before `looked` the table wasn't changed in a way
    that its log doesn't tell. `last_commit` is when the last transaction that was taken was committed, by the server's clock, in
    seconds since 1970 began. `is_verified` says whether the cube had the table's totals when they were compared last, and
    `differences` how often it hadn't; `copies` is how often the table was copied, and `remade` how often a store was made anew beside
    the one that went on. All that was committed until `as_of`, a time of `time.monotonic`, is in the cube. `version` changes
    where the cube does."""

    is_caught_up: bool = False
    is_connected: bool = False
    lsn: int = 0
    looked: int = 0
    behind: int = 0
    copies: int = 0
    remade: int = 0
    rows_copied: int = 0
    transactions: int = 0
    changes: int = 0
    skipped: int = 0
    differences: int = 0
    is_verified: Optional[bool] = None
    last_commit: Optional[float] = None
    as_of: Optional[float] = None
    failure: Optional[BaseException] = None

    @property
    def lsn_text(self) -> str:
        return lsn_text(self.lsn)

    @property
    def behind_seconds(self) -> Optional[float]:
        """How long ago the moment is whose commits are all in the cube: it is behind by so many seconds at most, also where the
        connection is lost. None before the follower has caught up for the first time."""
        return None if self.as_of is None else time.monotonic() - self.as_of

    @property
    def version(self) -> Tuple[int, int]:
        return self.copies, self.transactions


class Asked(Questions):
    """What is asked of a table: a mirror, which takes changes meanwhile, and the state that each answer is of. Any thread may ask."""

    def __init__(self, name: str) -> None:
        self.name = name
        # (what is held is the lock itself: Ctrl-C may come between the begin of a condition's own release and its end)
        self._lock = threading.RLock()
        self._changed = threading.Condition(self._lock)
        self._ending = threading.Event()
        self._state = State()
        # (none before it has come to where it has to be; and the place of the furthest answer)
        self._served: Optional[Mirror] = None
        self._answered = 0
        self._together: Together[Tuple[State, str]] = Together()
        self._turns = Turns()

    @property
    def state(self) -> State:
        return self._state

    def check(self) -> None:
        """Raises why the follower stopped, where it did."""
        if self._state.failure:
            raise self._state.failure

    def wait(self, seconds: Optional[float] = None) -> State:
        """Waits until the follower has caught up with the table."""
        return self._wait(lambda it: it.is_caught_up, seconds)

    def wait_for(self, lsn: int, seconds: Optional[float] = None) -> State:
        """Waits until all that was committed before an LSN is in the cube."""
        return self._wait(lambda it: it.is_caught_up and it.lsn >= lsn, seconds)

    def ask(self, question: str, *fields: str) -> str:
        """The text that answers a question of a session: `print`, or `slice` with a field for each dimension."""
        return self.ask_with_state(question, *fields)[1]

    def ask_with_state(self, question: str, *fields: str) -> Tuple[State, str]:
        """The same, and the state that it is an answer of. Changes go on being taken while it is answered; those who ask the same
        while another question is answered have one answer."""
        return self._together.ask((question, *fields), lambda begun: self._asked(begun, question, *fields))

    def _asked(self, begun: Callable[[], None], question: str, *fields: str) -> Tuple[State, str]:
        while True:
            mirror = self._to_ask()
            try:
                with self._turns.turn(question == WHOLE):
                    state, text = mirror.ask_at(lambda: self._state_of(mirror, begun), question, *fields)
            except BeginAnew as why:
                raise NotCaughtUp(f"{why}: table {self.name} is copied again") from None
            except (Ended, Replaced):
                if self._served is mirror:
                    raise
                continue
            return state, text

    def _to_ask(self) -> Mirror:
        with self._lock:
            self.check()
            if self._served is None:
                raise NotCaughtUp(f"the follower hasn't caught up with table {self.name}")
            return self._served

    def _state_of(self, mirror: Mirror, begun: Callable[[], None]) -> State:
        """The state at which a mirror is asked, where it is the one to be asked."""
        with self._lock:
            if self._served is not mirror:
                raise Replaced
            self._answered = max(self._answered, self._state.lsn)
            begun()
            return self._state

    def _wait(self, is_there: Callable[[State], bool], seconds: Optional[float]) -> State:
        with self._lock:
            self._changed.wait_for(lambda: self._state.failure or self._ending.is_set() or is_there(self._state), seconds)
            self.check()
            if not is_there(self._state):
                raise NotCaughtUp(f"the follower hasn't caught up with table {self.name}: it is at {self._state.lsn_text}")
            return self._state

    def _set(self, **what: Any) -> None:
        with self._lock:
            self._state = replace(self._state, **what)
            self._changed.notify_all()
