"""A follower that is served over HTTP, by what serves a session too."""
from __future__ import annotations

import asyncio
import contextlib
import threading
from typing import Optional, Sequence

from ..serve._errors import CantServe
from ..serve._listening import Address, listen, tls_of
from ..serve._needs import lack
from ..serve._words import MOST_SERIES, Reach
from ._errors import CantFollow
from ._follower import Follower
from ._running import Running

THIS_MACHINE = "127.0.0.1"


class Server(Running):
    """Serves a follower's cube with the paths of `jackraisin.serve`, but those that take changes, in a thread of its own between
    `start` and `close`, or in a `with` block: on a port of 127.0.0.1 for whoever is on this machine, where 0 is any free one, or
    where `reach` says. The slice that metrics show is given by its fields, as `datacube slice` takes them; without them it is of each
    value of the first dimension. Of its rows so many have samples at most. It needs aiohttp and prometheus-client."""

    def __init__(
        self, follower: Follower, port: int = 0, slice: Optional[Sequence[str]] = None, max_series: int = MOST_SERIES, *, reach: Optional[Reach] = None
    ) -> None:
        if lack():
            raise CantFollow(f"to serve, {lack()}")
        count = len(follower.schema.dimensions)
        fields = list(slice) if slice is not None else ["?"] + ["\\A"] * (count - 1)
        if len(fields) != count:
            raise CantFollow(f"the slice for metrics has {len(fields)} fields, and the schema {count} dimensions")
        self._follower, self._shown, self._max_series = follower, ("slice", *fields), max_series
        self._reach = reach or here(port)
        self._tls = tls_of(self._reach.certificate, self._reach.key)
        self._end, self._where = listen(self._reach.address)
        self._loop: Optional[asyncio.AbstractEventLoop] = None
        self._ended: Optional[asyncio.Event] = None
        self._has_begun = threading.Event()
        self._failure: Optional[BaseException] = None
        self._thread = threading.Thread(target=self._run, name="datacube server", daemon=True)

    @property
    def port(self) -> int:
        return self._where.port

    @property
    def address(self) -> str:
        """The address of the page, with the token where one was drawn."""
        from ..serve._serving import shown_address

        return shown_address(self._reach, self._where)

    def start(self) -> None:
        self._thread.start()
        self._has_begun.wait()
        self.check()

    def check(self) -> None:
        """Raises why it ended, where it did by itself."""
        if self._failure:
            raise self._failure

    def close(self) -> None:
        """Listens no more, and answers what came."""
        if self._thread.ident is None:
            self._end.close()
            return
        if self._loop is not None and self._ended is not None:
            # (it may have ended by itself)
            with contextlib.suppress(RuntimeError):
                self._loop.call_soon_threadsafe(self._ended.set)
        self._thread.join()

    def _run(self) -> None:
        try:
            asyncio.run(self._serve())
        except BaseException as why:
            self._failure = why
        finally:
            self._has_begun.set()
            self._end.close()

    async def _serve(self) -> None:
        # (what isn't there everywhere is wanted by those alone who serve)
        from ..serve._serving import serve_until, site_of
        from ._followed import FollowedCube

        self._loop, self._ended = asyncio.get_running_loop(), asyncio.Event()
        cube = FollowedCube(self._follower)
        site = site_of(cube, self._reach, self._where, self._shown, self._max_series)
        self._has_begun.set()
        await serve_until(site, self._end, self._where, self._tls, asyncio.ensure_future(cube.run()), self._ended)


def here(port: int) -> Reach:
    """A port of this machine, for whoever is on it."""
    if not 0 <= port <= 65535:
        raise CantServe(f"{port} is no port")
    return Reach(Address(host=THIS_MACHINE, port=port))
