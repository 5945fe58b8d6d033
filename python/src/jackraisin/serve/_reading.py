"""The bodies of requests: of which type they are, how long they may be, and how long they may take."""
from __future__ import annotations

import asyncio
import contextlib
import re
from email.message import Message
from http import HTTPStatus
from typing import Callable, Iterator, List, Mapping, Optional

from aiohttp import web

from .._schema import Schema
from ._bodies import READERS, Record
from ._replies import Refusal, not_yet

SECONDS_FOR_A_BODY = 60.0
CONTINUE = b"HTTP/1.1 100 Continue\r\n\r\n"
KEY = re.compile(r"[ -~]{1,64}")
UTF_8 = ("utf-8", "utf8", "us-ascii")


class Room:
    """The memory for bodies: one may have so many bytes, and all that are held at a time so many."""

    def __init__(self, most: int, all_together: int) -> None:
        self._most, self._left = most, all_together

    @contextlib.contextmanager
    def held(self, request: web.BaseRequest) -> Iterator[None]:
        """Room for the body of a request, for as long as it is entered."""
        size = self._most if request.content_length is None else request.content_length
        if size > self._most:
            raise self._too_large()
        if size > self._left:
            raise not_yet("there are too many bodies at a time")
        self._left -= size
        try:
            yield
        finally:
            self._left += size

    async def read(self, request: web.BaseRequest) -> bytes:
        """The body of a request, to its end."""
        try:
            return await asyncio.wait_for(self._read(request), SECONDS_FOR_A_BODY)
        except asyncio.TimeoutError:
            raise Refusal(HTTPStatus.REQUEST_TIMEOUT, f"the body didn't come within {SECONDS_FOR_A_BODY:.0f} seconds", {"Connection": "close"}) from None

    async def _read(self, request: web.BaseRequest) -> bytes:
        if request.headers.get("Expect", "").lower() == "100-continue":
            await request.writer.write(CONTINUE)
        parts, size = [], 0
        async for part in request.content.iter_any():
            parts.append(part)
            size += len(part)
            if size > self._most:
                raise self._too_large()
        return b"".join(parts)

    def _too_large(self) -> Refusal:
        return Refusal(HTTPStatus.REQUEST_ENTITY_TOO_LARGE, f"a body has at most {self._most} bytes", {"Connection": "close"})


def reader_of(headers: Mapping[str, str]) -> Callable[[bytes, Schema], List[Record]]:
    """What reads a body of the type that the headers say."""
    said = Message()
    said["Content-Type"] = headers.get("Content-Type", "")
    kind, charset = said.get_content_type(), str(said.get_param("charset", "utf-8")).lower()
    if not headers.get("Content-Type") or kind not in READERS or charset not in UTF_8:
        kinds = ", ".join(READERS)
        raise Refusal(HTTPStatus.UNSUPPORTED_MEDIA_TYPE, f"a body is {kinds}, in UTF-8: its Content-Type says which", {"Accept-Post": kinds})
    if headers.get("Content-Encoding", "identity").lower() != "identity":
        raise Refusal(HTTPStatus.UNSUPPORTED_MEDIA_TYPE, "a body isn't packed", {"Accept-Encoding": "identity"})
    return READERS[kind]


def key_of(request: web.BaseRequest) -> Optional[str]:
    """The `Idempotency-Key` that a request comes under."""
    keys: List[str] = request.headers.getall("Idempotency-Key", [])
    if len(keys) > 1 or any(not KEY.fullmatch(it) for it in keys):
        raise Refusal(HTTPStatus.BAD_REQUEST, "an Idempotency-Key is one text of 1 to 64 printable characters of ASCII")
    return keys[0] if keys else None
