"""The serving of a site, from its socket to its end."""
from __future__ import annotations

import asyncio
import os
import socket
import ssl
from typing import Any, Callable, Optional, Set, TypeVar

from ._access import Cookie
from ._browsers import Browsers
from ._http import Limits, Site
from ._listening import Address
from ._query import TOKEN, Question
from ._served import ServedCube
from ._taking import Taking
from ._words import Reach

T = TypeVar("T")

# (what was asked before the end is answered in this time)
SECONDS_TO_END = 30.0
THIS_MACHINE = ("127.0.0.1", "localhost", "[::1]")


def site_of(cube: ServedCube, reach: Reach, address: Address, shown: Question, series: int, taking: Optional[Taking] = None) -> Site:
    """A site over a cube for those who may reach it, at an address that has its port."""
    cookie = Cookie(f"jackraisin-{address.port}", reach.has_tls or reach.is_behind_tls)
    return Site(cube, reach.tokens, cookie, browsers_of(reach), shown, Limits(reach.connections, series), taking)


async def serve_until(
    site: Site, end: socket.socket, address: Address, tls: Optional[ssl.SSLContext], running: "asyncio.Future[T]", ended: asyncio.Event,
    stopping: Callable[[], None] = lambda: None,
) -> T:
    """Serves at a socket that listens, until what runs below a site ends by itself, or until an end is wanted: then it listens no
    more, answers what came, and lets that end. Gives what that gives."""
    loop = asyncio.get_running_loop()
    if address.path is not None:
        server = await loop.create_unix_server(site.connections, sock=end, ssl=tls)
    else:
        server = await loop.create_server(site.connections, sock=end, ssl=tls)
    wanted = asyncio.ensure_future(ended.wait())
    either: "Set[asyncio.Future[Any]]" = {running, wanted}
    try:
        await asyncio.wait(either, return_when=asyncio.FIRST_COMPLETED)
        wanted.cancel()
        stopping()
        server.close()
        await site.end(SECONDS_TO_END)
    finally:
        site.cube.end()
        if address.path is not None:
            os.unlink(address.path)
    return await running


def browsers_of(reach: Reach) -> Browsers:
    """What browsers may do: at an address of this machine it is asked under the names of that alone, so that no page of elsewhere
    is led here by a name of its own."""
    address = reach.address
    is_named = address.path is None and (address.is_local or bool(reach.hosts))
    own = THIS_MACHINE if address.is_local else ()
    hosts = frozenset(it.lower() for it in (*own, *reach.hosts, address.name)) if is_named else None
    return Browsers(hosts, frozenset(reach.origins))


def shown_address(reach: Reach, address: Address) -> str:
    """The address as it is shown to whoever began the server, with the token that was drawn."""
    query = f"?{TOKEN}={reach.token}" if reach.token else ""
    if address.path is not None:
        return f"unix:{address.path}{query}"
    return f"{'https' if reach.has_tls else 'http'}://{address.authority}/{query}"
