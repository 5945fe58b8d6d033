"""A session over a store that is served: changes of many go in together."""
from __future__ import annotations

import asyncio
from typing import Any, Callable, Iterator, List, Optional, Tuple, Union

from prometheus_client.core import CounterMetricFamily, GaugeMetricFamily

from .._errors import DatacubeError
from .._schema import Schema
from ._errors import CantServe
from ._making import Body, Made, make_all
from ._query import Question
from ._served import ServedCube, State
from ._stored import StoredSession

# (so many changes go in together, and more wait)
MOST_CHANGES = 20_000


class Post:
    """A body of changes that waits for its turn."""

    def __init__(self, body: Body) -> None:
        self.body = body
        self.made: "asyncio.Future[Union[Made, DatacubeError]]" = asyncio.get_running_loop().create_future()


class SessionCube(ServedCube):
    """A session over a store, which also takes changes. Its state is the number of changes in the store. `run` goes on until `end`, or
    until the session ends."""

    def __init__(self, schema: Schema, begin: Callable[[], StoredSession]) -> None:
        super().__init__(schema)
        self._number: Optional[int] = None
        self._begin = begin
        self._session: Optional[StoredSession] = None
        self._posts: List[Post] = []
        self._taken = self._refused = 0

    @property
    def state(self) -> Optional[int]:
        return self._number

    def check(self) -> None:
        if self._number is None:
            raise CantServe("the session isn't there: it is still reading, or it has ended")

    async def make(self, body: Body) -> Made:
        """Makes the changes of a body; they are certain when it returns."""
        self.check()
        post = Post(body)
        self._posts.append(post)
        self._wake.set()
        made = await asyncio.shield(post.made)
        if isinstance(made, DatacubeError):
            raise type(made)(*made.args)
        self._taken += made.taken
        self._refused += len(made.refused)
        return made

    def families(self, left_out: int) -> Iterator[Any]:
        yield GaugeMetricFamily("datacube_serve_state", "How many changes the store has.", self._number or 0)
        changes = CounterMetricFamily("datacube_serve_changes", "Changes that came.", labels=["outcome"])
        changes.add_metric(["taken"], self._taken)
        changes.add_metric(["refused"], self._refused)
        yield changes
        yield GaugeMetricFamily("datacube_serve_series_left_out", "Rows of the slice past --max-series.", left_out)

    async def run(self, ready: Callable[[StoredSession], None]) -> int:
        """Begins the session, serves until the end, and gives its status; where the session ends by itself, that is raised."""
        session = self._session = await self._in_thread(self._begin)
        try:
            self._set_number(session.number)
            ready(session)
            await self._serve()
            return await self._in_thread(session.close)
        finally:
            self._number = None
            await self._in_thread(session.stop)
            self._end_thread()

    def _has_work(self) -> bool:
        return bool(self._posts) or super()._has_work()

    async def _turn(self) -> None:
        if self._posts:
            await self._make()
        await self._answer()
        if self._posts:
            self._wake.set()

    async def _make(self) -> None:
        """Makes the changes of the bodies that wait, with one commit."""
        assert self._session is not None
        session, posts = self._session, self._next_posts()
        try:
            made = await self._in_thread(lambda: make_all(session, [it.body for it in posts]))
        except Exception:
            self._posts = posts + self._posts
            raise
        if session.number != self._number:
            self._set_number(session.number)
        for post, it in zip(posts, made):
            post.made.set_result(it)

    def _set_number(self, number: Optional[int]) -> None:
        self._number = number
        self._forget()
        self._move()

    def _next_posts(self) -> List[Post]:
        count = 0
        posts: List[Post] = []
        while self._posts and (not posts or count + len(self._posts[0].body.records) <= MOST_CHANGES):
            posts.append(self._posts.pop(0))
            count += len(posts[-1].body.records)
        return posts

    def _text(self, question: Question) -> Tuple[State, str]:
        assert self._session is not None
        # (changes are made between two turns, so the state is that of the whole turn)
        return self._session.number, self._session.ask(*question)

    def _give_up(self, why: CantServe) -> None:
        self._number = None
        for post in self._posts:
            post.made.set_result(why)
        self._posts = []
        super()._give_up(why)
