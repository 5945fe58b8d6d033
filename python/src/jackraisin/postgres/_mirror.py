"""A session that has the facts of a table, whatever source they come from."""
from __future__ import annotations

import contextlib
from typing import Callable, Final, Iterator, List, Sequence, Tuple, TypeVar

from .._cube import Refusal
from .._errors import Ended
from .._live import Live
from .._schema import Schema
from ._errors import BeginAnew, CantFollow
from ._work import Work

T = TypeVar("T")
# (the code of an update of a fact that is absent, under version 2 of feeds)
ABSENT: Final = 8


class Replaced(Exception):
    """Another session was put in place of the one that was to be asked."""


class Mirror:
    """The rows of a table in a session, under their keys as ids, until an LSN. One thread makes whole transactions, and any may ask
    between them."""

    may_come_twice = False

    def __init__(self, session: Live, schema: Schema, lsn: int) -> None:
        self._live, self._schema, self.lsn = session, schema, lsn
        self._excused = 0

    def ask(self, question: str, *fields: str) -> str:
        return self.ask_at(lambda: None, question, *fields)[1]

    def ask_at(self, at: Callable[[], T], question: str, *fields: str) -> Tuple[T, str]:
        """The answer to a question, and what a call gives that is made between the transactions before it and those behind it."""
        while True:
            live = self._live
            try:
                with anew_where_full():
                    return live.ask_at(lambda: self._found(live, at), question, *fields)
            except (Ended, Replaced):
                if self._live is live:
                    raise

    def is_answering(self) -> bool:
        """Whether a question is under way, for whose answer another one waits."""
        return self._live.is_answering()

    def _found(self, live: Live, at: Callable[[], T]) -> T:
        if self._live is not live:
            raise Replaced
        return at()

    def close(self) -> None:
        with contextlib.suppress(Ended):
            self._live.close()

    def discard(self) -> None:
        """Ends it, where another one is gone on with."""
        self.close()

    def apply(self, work: Work, lsn: int, then: Callable[[], None]) -> None:
        """Makes the changes of a transaction, in the order in which they were prepared, and a call behind them, both between two
        questions; the mirror has all until an LSN then. Where that is broken off, the session isn't to be asked any more."""
        if work.is_anew:
            self._apply_anew(work, lsn, then)
            return
        with anew_where_full(), self._live.held():
            self._send(self._live, work)
            self.lsn = lsn
            then()

    def _apply_anew(self, work: Work, lsn: int, then: Callable[[], None]) -> None:
        """The same, in an empty session, which takes the place of the one that is there."""
        live, old = self._empty(), self._live
        try:
            with anew_where_full():
                self._send(live, work)
                self._keep(live, lsn)
        except BaseException:
            live.kill()
            raise
        with old.held(), live.held():
            self._live, self.lsn, self._excused = live, lsn, 0
            then()
        self._end(old)

    def _empty(self) -> Live:
        return Live(self._schema)

    def _send(self, live: Live, work: Work) -> None:
        work.send(live)

    def _keep(self, live: Live, lsn: int) -> None:
        """Sees that a session that is to take the place of another is certain."""

    def _end(self, old: Live) -> None:
        """Ends a session in whose place there is another one."""
        with contextlib.suppress(Ended):
            old.close()

    def check(self) -> None:
        """Raises where the session refused a row or a change, which none of a table's is."""
        self._check(self._refused())

    def excuse(self, may_be_cut: bool) -> None:
        """Takes note of what was refused until now. Of what is in a store that may be a record which was cut off when the follower was
        killed that sent it (`may_be_cut`); of what comes again, an update of a fact that was there then and isn't any more."""
        refused = self._refused()
        if not may_be_cut:
            self._check([it for it in refused if it.code != ABSENT])
        self._excused = max((it.record for it in refused), default=self._excused)

    def _refused(self) -> List[Refusal]:
        with anew_where_full():
            return self._live.refusals(1, self._excused) if self._excused else self._live.refusals()

    def _check(self, refused: Sequence[Refusal]) -> None:
        if refused:
            raise CantFollow(
                f"change {refused[0].record} was refused with code {refused[0].code}, so the cube isn't the table's any more. This is a fault "
                "of the follower: report it, and start it again"
            )


@contextlib.contextmanager
def anew_where_full() -> Iterator[None]:
    """Turns the end of a session that has taken as many records as it may into `BeginAnew`."""
    try:
        yield
    except Ended as why:
        if why.line.endswith("F4"):
            raise BeginAnew("the session has taken as many changes as it can") from None
        raise
