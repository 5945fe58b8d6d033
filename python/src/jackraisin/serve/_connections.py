"""The connections of a server: how many there may be, and how long one may take."""
from __future__ import annotations

import asyncio
from typing import Any, Callable, Dict, Optional

# (for the head of a request, a while longer than aiohttp keeps a connection that rests)
SECONDS_FOR_A_HEAD, SECONDS_OF_REST = 30.0, 25.0
TOO_MANY = (
    b"HTTP/1.1 503 Service Unavailable\r\nContent-Type: text/plain; charset=utf-8\r\nContent-Length: 31\r\n"
    b"Retry-After: 1\r\nConnection: close\r\n\r\nThere are too many connections\n"
)


class Connections:
    """The connections that there are, each with the handler that reads its requests."""

    def __init__(self, handlers: Callable[[], Any], most: int) -> None:
        self._handlers, self._most = handlers, most
        self._open: Dict[Any, "Connection"] = {}

    def __len__(self) -> int:
        return len(self._open)

    def __call__(self) -> asyncio.Protocol:
        """What takes the next connection."""
        return Connection(self, self._handlers()) if len(self._open) < self._most else TooMany()

    def add(self, connection: "Connection") -> None:
        self._open[connection.handler] = connection

    def discard(self, connection: "Connection") -> None:
        self._open.pop(connection.handler, None)

    def of(self, handler: Any) -> "Connection":
        """The connection of a handler; one that was lost meanwhile stands for itself."""
        return self._open.get(handler) or Connection(self, handler)


class Connection(asyncio.Protocol):
    """A connection, which is cut where the next request doesn't come whole in time, or the last answer isn't taken."""

    def __init__(self, connections: Connections, handler: Any) -> None:
        self.handler = handler
        self._connections = connections
        self._transport: Optional[asyncio.Transport] = None
        self._watch: Optional[asyncio.TimerHandle] = None

    def begin(self) -> None:
        """A request has come, which takes its own time."""
        if self._watch is not None:
            self._watch.cancel()
            self._watch = None

    def rest(self) -> None:
        """The request is answered, and the next one may come."""
        self.begin()
        if self._transport is not None and not self._transport.is_closing():
            self._watch = asyncio.get_running_loop().call_later(SECONDS_FOR_A_HEAD, self.cut)

    def cut(self) -> None:
        if self._transport is not None:
            self._transport.abort()

    def connection_made(self, transport: asyncio.BaseTransport) -> None:
        assert isinstance(transport, asyncio.Transport)
        self._transport = transport
        self._connections.add(self)
        self.rest()
        self.handler.connection_made(transport)

    def connection_lost(self, why: Optional[Exception]) -> None:
        self.begin()
        self._connections.discard(self)
        self.handler.connection_lost(why)

    def data_received(self, data: bytes) -> None:
        self.handler.data_received(data)

    def eof_received(self) -> Optional[bool]:
        self.handler.eof_received()
        return None

    def pause_writing(self) -> None:
        self.handler.pause_writing()

    def resume_writing(self) -> None:
        self.handler.resume_writing()


class TooMany(asyncio.Protocol):
    """A connection that is one too many."""

    def connection_made(self, transport: asyncio.BaseTransport) -> None:
        assert isinstance(transport, asyncio.Transport)
        transport.write(TOO_MANY)
        transport.close()
