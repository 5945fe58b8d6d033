"""Server-sent events: a line for each state that questions can see."""
from __future__ import annotations

import asyncio
import contextlib
import json
from typing import Awaitable, Callable, Mapping

from ._served import ServedCube

KIND = "text/event-stream"
# (so that what stands between doesn't take the connection for dead, and one that is dead is noticed)
SECONDS_OF_SILENCE = 15.0
NOTHING = b":\n\n"


async def tell_states(cube: ServedCube, write: Callable[[bytes], Awaitable[None]], ended: "asyncio.Future[None]") -> None:
    """Tells of the state that is there and of each that comes, until the end. Who reads slowly is told of the latest one."""
    told = None
    while not ended.done():
        news = cube.news()
        if news is not None and news != told:
            await write(event_of(news))
            told = news
            continue
        moved = asyncio.ensure_future(cube.moved())
        with contextlib.suppress(asyncio.CancelledError):
            done, _ = await asyncio.wait({moved, ended}, timeout=SECONDS_OF_SILENCE, return_when=asyncio.FIRST_COMPLETED)
            if not done:
                await write(NOTHING)
        moved.cancel()


def event_of(news: Mapping[str, object]) -> bytes:
    """The event that tells of news. (A line end within a text is spelled, so an event has one line.)"""
    state = news.get("state")
    number = "" if state is None else f"id: {state}\n"
    return f"{number}data: {json.dumps(news)}\n\n".encode("ascii")
