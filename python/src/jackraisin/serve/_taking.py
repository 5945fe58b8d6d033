"""The path by which a session takes changes."""
from __future__ import annotations

from hashlib import sha256
from typing import Callable, Dict

from aiohttp import web

from ._making import Body, Made
from ._reading import Room, key_of, reader_of
from ._replies import Reply, json_reply
from ._served import LONG, beside
from ._session import SessionCube


class Taking:
    """Takes bodies of changes for a session's cube; a body may have so many bytes, and all that are read at a time so many. What the
    code of a refused change means is said by `meaning`."""

    def __init__(self, cube: SessionCube, meaning: Callable[[int], str], body: int, bodies: int) -> None:
        self._cube, self._meaning, self._room = cube, meaning, Room(body, bodies)

    async def reply(self, request: web.BaseRequest) -> Reply:
        """Makes the changes of a body, and says what became of each."""
        read, key = reader_of(request.headers), key_of(request)
        self._cube.check()
        with self._room.held(request):
            data = await self._room.read(request)
            made = await self._cube.make(await beside(len(data), lambda: Body(read(data, self._cube.schema), sha256(data).digest(), key)))
            return json_reply(await beside(LONG if made.refused else 0, lambda: self._told_of(made)))

    def _told_of(self, made: Made) -> Dict[str, object]:
        """What became of changes, as it is told."""
        refused = [{**it._asdict(), "means": self._meaning(it.code)} for it in made.refused]
        return {"taken": made.taken, "refused": refused, "state": made.state}
