"""A follower's cube that is served."""
from __future__ import annotations

import asyncio
from typing import Any, Dict, Iterator, Mapping, Optional, Tuple
from urllib.parse import quote

from .._errors import Ended, Failure
from ..serve._errors import CantServe
from ..serve._query import OWN_WORDS, Question
from ..serve._served import ServedCube
from ._follower import Follower, State
from ._metrics import families_of

# (how soon what listens is told of a commit)
SECONDS_BETWEEN_LOOKS = 0.1
# (what a header may have of a name; the rest is spelled as in an address)
SAFE = " !\"#$&'()*+,-./:;<=>?@[\\]^_`{|}~"


class FollowedCube(ServedCube):
    """The cube of a follower, which takes its changes from the table alone, and refuses none of them. Its state is the follower's
    version. `run` goes on until `end`; a follower that has stopped is told of until then."""

    questions = tuple(it for it in OWN_WORDS if it != "refusals")
    is_escaped = True

    def __init__(self, follower: Follower) -> None:
        super().__init__(follower.schema)
        self._follower = follower
        self.name = self.subject = follower.name

    @property
    def state(self) -> Optional[str]:
        state = self._follower.state
        return version_of(state) if state.is_caught_up and state.failure is None else None

    def check(self) -> None:
        self.check_running()
        if not self._follower.state.is_caught_up:
            raise CantServe("The table is being copied, or what was written meanwhile is being taken.")

    def check_running(self) -> None:
        failure = self._follower.state.failure
        if failure is not None:
            raise CantServe(str(failure))

    def news(self) -> Dict[str, object]:
        state = self._follower.state
        try:
            self.check()
        except CantServe as why:
            return {"state": None, "why": str(why)}
        return {"state": version_of(state), "connected": state.is_connected, "skipped": state.skipped, "verified": state.is_verified}

    def headers(self) -> Mapping[str, str]:
        state = self._follower.state
        # (a table may have any name)
        said = {"Datacube-Table": quote(self.name, safe=SAFE), "Datacube-Connected": str(int(state.is_connected)), "Datacube-Skipped": str(state.skipped)}
        return said if state.is_verified is None else {**said, "Datacube-Verified": str(int(state.is_verified))}

    def families(self, left_out: int) -> Iterator[Any]:
        return families_of(self.name, self._follower.state, left_out)

    async def run(self) -> None:
        """Serves until the end."""
        watching = asyncio.ensure_future(self._watch())
        try:
            await self._serve()
        finally:
            watching.cancel()
            self._end_thread()

    async def _watch(self) -> None:
        """Looks for news, and tells of it."""
        told = self.news()
        while True:
            await asyncio.sleep(SECONDS_BETWEEN_LOOKS)
            news = self.news()
            if news != told:
                told = news
                self._move()

    def _text(self, question: Question) -> Tuple[str, str]:
        try:
            state, text = self._follower.ask_with_state(*question)
        except Exception as why:
            if isinstance(why, Failure) and not isinstance(why, Ended):
                raise
            raise CantServe(str(why)) from None
        return version_of(state), text


def version_of(state: State) -> str:
    return "-".join(map(str, state.version))
