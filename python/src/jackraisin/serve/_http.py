"""The paths of the server: what each answers, and to whom."""
from __future__ import annotations

import asyncio
import contextlib
import logging
import time
from http import HTTPStatus
from typing import Awaitable, Callable, Dict, Mapping, NamedTuple, Optional, Sequence, Union
from urllib.parse import unquote

from aiohttp import HttpVersion10, HttpVersion11, web

from .._errors import Failure
from ._access import Cookie, Right, Tokens, token_of_header
from ._browsers import HEADERS, Browsers, is_asked_before, may_ask
from ._connections import SECONDS_OF_REST, Connections
from ._errors import BadBody, BadQuery, CantServe, OtherBody
from ._events import KIND, tell_states
from ._forms import SUFFIXES, form_accepted
from ._metrics import Metrics
from ._page import page_of
from ._query import TOKEN, Question, Words, question_of, view_of, words_of
from ._replies import Refusal, Reply, not_yet
from ._served import LONG, Answer, ServedCube, State, beside
from ._taking import Taking
from ._versions import SHORT, Tags, takes_gzip
from ._words import MOST_CONNECTIONS, MOST_SERIES

TOLD = logging.getLogger("jackraisin.serve")
# (what isn't HTTP is answered by 400, and anyone may send it)
NOT_TOLD = logging.getLogger("jackraisin.serve.requests")
NOT_TOLD.propagate = False
NOT_TOLD.addHandler(logging.NullHandler())

SECONDS_FOR_A_PART = 30.0
PART = 2**16
READS = ("GET", "HEAD")
# (what reads requests takes any other as one of these)
VERSIONS = (HttpVersion10, HttpVersion11)
PAGE, HTML = "page", "text/html; charset=utf-8"
# (a client may keep what has a tag, and asks each time whether it still holds)
KEPT = {"Cache-Control": "private, no-cache", "Vary": "Accept, Accept-Encoding"}


class Limits(NamedTuple):
    """The number of connections, and of rows in metrics."""

    connections: int = MOST_CONNECTIONS
    series: int = MOST_SERIES


class Path(NamedTuple):
    """What answers at a path: its methods, the right that it wants, and its work, which may also answer by itself."""

    methods: Sequence[str]
    right: Optional[Right]
    work: "Callable[[Asked], Awaitable[Union[Reply, web.StreamResponse]]]"


class Asked(NamedTuple):
    """A request: what came, its path and the words of its query."""

    request: web.BaseRequest
    path: str
    words: Words

    @property
    def headers(self) -> Mapping[str, str]:
        headers: Mapping[str, str] = self.request.headers
        return headers


class Site:
    """Answers requests over a served cube. A token is wanted where there are tokens; the metrics are of what a question asks. Changes
    are taken by what takes them, where there is that."""

    def __init__(
        self,
        cube: ServedCube,
        tokens: Optional[Tokens],
        cookie: Cookie,
        browsers: Browsers,
        shown: Question,
        limits: Limits = Limits(),
        taking: Optional[Taking] = None,
    ) -> None:
        self.cube, self.limits = cube, limits
        self._taking, self._tokens, self._cookie, self._browsers, self._shown = taking, tokens, cookie, browsers, shown
        self._page_of_cube = Answer(PAGE, "", cube.schema), page_of(cube.name, cube.is_escaped)
        self._tags, self._metrics = Tags(), Metrics(cube, limits.series)
        self._ended: "asyncio.Future[None]" = asyncio.get_running_loop().create_future()
        self._busy = 0
        self._rest = asyncio.Event()
        self.is_ending = False
        handlers = web.Server(self._answer, keepalive_timeout=SECONDS_OF_REST, access_log=None, auto_decompress=False, logger=NOT_TOLD)
        self._handlers = handlers
        self.connections = Connections(handlers, limits.connections)
        self._paths = self._all_paths()

    def _all_paths(self) -> Dict[str, Path]:
        paths = {
            "/": Path(READS, Right.READ, self._page),
            "/events": Path(["GET"], Right.READ, self._events),
            "/metrics": Path(READS, Right.READ, self._measured),
            "/healthz": Path(READS, None, self._health),
            "/readyz": Path(READS, None, self._readiness),
        }
        if self._taking is not None:
            paths["/changes"] = Path(["POST"], Right.CHANGE, self._changes)
        for name in self.cube.questions:
            for suffix in ("", *(f".{it}" for it in SUFFIXES)):
                paths[f"/{name}{suffix}"] = Path(READS, Right.READ, self._question)
        return paths

    async def end(self, seconds: float) -> None:
        """Waits until the requests that came are answered, for so long at most, and closes all connections."""
        self.is_ending = True
        self._ended.set_result(None)
        self._rest.clear()
        if self._busy:
            try:
                await asyncio.wait_for(self._rest.wait(), seconds)
            except asyncio.TimeoutError:
                TOLD.warning("%d requests weren't answered in time", self._busy)
        await self._handlers.shutdown(1.0)

    # Requests and replies.

    async def _answer(self, request: web.BaseRequest) -> web.StreamResponse:
        connection, start = self.connections.of(request.protocol), time.perf_counter()
        connection.begin()
        self._busy += 1
        try:
            reply = await self._reply(request)
            response = await self._sent(request, reply) if isinstance(reply, Reply) else reply
            self._metrics.request(self._counted(request), response.status, time.perf_counter() - start)
            return response
        finally:
            connection.rest()
            self._busy -= 1
            if not self._busy:
                self._rest.set()

    def _counted(self, request: web.BaseRequest) -> str:
        """The path under which a request is counted, of which there are few."""
        path = unquote(request.raw_path.partition("?")[0])
        return path if path in self._paths else "other"

    async def _reply(self, request: web.BaseRequest) -> Union[Reply, web.StreamResponse]:
        try:
            return await self._replied(request)
        except Refusal as why:
            return why.reply
        except (BadBody, BadQuery) as why:
            return Refusal(HTTPStatus.BAD_REQUEST, str(why)).reply
        except OtherBody as why:
            return Refusal(HTTPStatus.UNPROCESSABLE_ENTITY, str(why)).reply
        except CantServe as why:
            return not_yet(str(why)).reply
        except Failure as why:
            return Refusal(HTTPStatus.BAD_REQUEST, told_of(why)).reply
        except (asyncio.CancelledError, ConnectionError):
            raise
        except Exception:
            TOLD.exception("a request failed")
            return Refusal(HTTPStatus.INTERNAL_SERVER_ERROR, "the server failed at this request").reply

    async def _replied(self, request: web.BaseRequest) -> Union[Reply, web.StreamResponse]:
        if request.version not in VERSIONS:
            raise Refusal(HTTPStatus.HTTP_VERSION_NOT_SUPPORTED, "this is HTTP/1.1", {"Connection": "close"})
        self._browsers.check(request.headers)
        if is_asked_before(request.method, request.headers):
            return may_ask()
        raw, _, query = request.raw_path.partition("?")
        name = unquote(raw)
        path = self._paths.get(name)
        words = words_of(query)
        self._check_right(request, words, path.right if path else Right.READ)
        if path is None:
            raise Refusal(HTTPStatus.NOT_FOUND, f"there are {', '.join(sorted(it for it in self._paths if '.' not in it))}")
        if request.method not in path.methods:
            raise Refusal(HTTPStatus.METHOD_NOT_ALLOWED, f"{name} takes {' and '.join(path.methods)}", {"Allow": ", ".join(path.methods)})
        if self.is_ending and path.right is not None:
            raise not_yet("the server is ending")
        return await path.work(Asked(request, name, words))

    def _check_right(self, request: web.BaseRequest, words: Words, wanted: Optional[Right]) -> None:
        if wanted is None or self._tokens is None:
            return
        token = token_of_header(request.headers.get("Authorization", "")) or words.own.get(TOKEN) or self._cookie.token(request.headers)
        if token is None:
            raise Refusal(HTTPStatus.UNAUTHORIZED, "a token is wanted: Authorization: Bearer TOKEN", {"WWW-Authenticate": "Bearer"})
        right = self._tokens.right_of(token)
        if right is None:
            raise Refusal(HTTPStatus.UNAUTHORIZED, "the token isn't known", {"WWW-Authenticate": 'Bearer error="invalid_token"'})
        if not right.allows(wanted):
            raise Refusal(HTTPStatus.FORBIDDEN, "the token may read, and not change")

    async def _sent(self, request: web.BaseRequest, reply: Reply) -> web.StreamResponse:
        """A reply as it goes out: a long one in parts, each of which has its time, so that a slow reader costs no memory, and one
        that stands still is cut off."""
        headers = self._headers_of(request, reply)
        if len(reply.body) <= PART or request.method == "HEAD":
            return web.Response(status=reply.status.value, body=reply.body, headers=headers)
        response = web.StreamResponse(status=reply.status.value, headers=headers)
        response.content_length = len(reply.body)
        # (who goes away before the end is nothing to be told of)
        with contextlib.suppress(ConnectionError):
            await response.prepare(request)
            for at in range(0, len(reply.body), PART):
                await self._write(request, response, reply.body[at : at + PART])
        return response

    async def _write(self, request: web.BaseRequest, response: web.StreamResponse, part: bytes) -> None:
        """Writes a part of an answer; where it isn't taken in time the connection is cut."""
        try:
            await asyncio.wait_for(response.write(part), SECONDS_FOR_A_PART)
        except asyncio.TimeoutError:
            self.connections.of(request.protocol).cut()
            raise ConnectionResetError("the answer wasn't taken in time") from None

    def _headers_of(self, request: web.BaseRequest, reply: Reply) -> Dict[str, str]:
        headers = {**HEADERS, "Content-Type": reply.kind, "Cache-Control": "no-store", **reply.headers}
        for name, value in self._browsers.headers_for(request.headers).items():
            headers[name] = f"{headers[name]}, {value}" if name in headers else value
        if self.is_ending:
            headers["Connection"] = "close"
        return headers

    # What the paths do.

    async def _question(self, asked: Asked) -> Reply:
        name, _, suffix = asked.path[1:].partition(".")
        question, view = question_of(name, asked.words, self.cube.schema, self.cube.is_escaped), view_of(asked.words.own, self.cube.schema)
        form = SUFFIXES[suffix] if suffix else form_accepted(asked.headers.get("Accept", ""))
        state = self._ready_state()
        if self._tags.has(asked.headers, state, form.name):
            return self._not_modified(state, form.name, form.value, self.cube.headers())
        answer = await (self.cube.ask(question) if view is None else self.cube.ask_in_view(question, view))
        headers = {"Datacube-State": str(answer.state), **self.cube.headers()}
        return await self._versioned(asked, answer, form.name, Reply(HTTPStatus.OK, await answer.form(form), form.value, headers))

    async def _page(self, asked: Asked) -> Reply:
        """The explorer. A token of the address becomes a cookie, so that it doesn't stay there."""
        if TOKEN in asked.words.own:
            return Reply(HTTPStatus.SEE_OTHER, b"", headers={"Location": "/", "Set-Cookie": self._cookie.said(asked.words.own[TOKEN])})
        answer, page = self._page_of_cube
        # (with a page that it has a browser keeps the policy of the last reply)
        policy = {"Content-Security-Policy": page.policy}
        if self._tags.has(asked.headers, answer.state, PAGE):
            return self._not_modified(answer.state, PAGE, HTML, policy)
        return await self._versioned(asked, answer, PAGE, Reply(HTTPStatus.OK, page.body, HTML, policy))

    def _not_modified(self, state: State, form: str, kind: str, headers: Mapping[str, str] = {}) -> Reply:
        return Reply(HTTPStatus.NOT_MODIFIED, b"", kind, {**KEPT, **headers, "ETag": self._tags.of(state, form, False)})

    async def _versioned(self, asked: Asked, answer: Answer, form: str, reply: Reply) -> Reply:
        """A reply of a state with its tag, packed where it may be."""
        body, is_packed = reply.body, len(reply.body) > SHORT and takes_gzip(asked.headers)
        headers = {**KEPT, **reply.headers, "ETag": self._tags.of(answer.state, form, is_packed)}
        if is_packed:
            body, headers["Content-Encoding"] = await answer.packed(form, body), "gzip"
        return Reply(reply.status, body, reply.kind, headers)

    async def _changes(self, asked: Asked) -> Reply:
        assert self._taking is not None
        return await self._taking.reply(asked.request)

    async def _events(self, asked: Asked) -> web.StreamResponse:
        self.cube.check_running()
        response = web.StreamResponse(headers=self._headers_of(asked.request, Reply(HTTPStatus.OK, b"", KIND)))
        with contextlib.suppress(ConnectionError):
            await response.prepare(asked.request)
            await tell_states(self.cube, lambda part: self._write(asked.request, response, part), self._ended)
        return response

    async def _measured(self, asked: Asked) -> Reply:
        """The metrics; before there are answers those of the source and the server alone. A source that has stopped has none, so that
        monitors see it."""
        text = None
        with contextlib.suppress(CantServe):
            text = (await self.cube.ask(self._shown)).text
        self.cube.check_running()
        size = LONG if text is not None and len(text) > SHORT else 0
        accept = asked.headers.get("Accept", "")
        body, kind = await beside(size, lambda: self._metrics.text(accept, text, len(self.connections)))
        return Reply(HTTPStatus.OK, body, kind)

    async def _health(self, asked: Asked) -> Reply:
        self.cube.check_running()
        return Reply(HTTPStatus.OK, b"ok\n")

    async def _readiness(self, asked: Asked) -> Reply:
        self._ready_state()
        if self.is_ending:
            raise not_yet("the server is ending")
        return Reply(HTTPStatus.OK, b"ok\n")

    def _ready_state(self) -> State:
        """The state that questions see."""
        self.cube.check()
        state = self.cube.state
        if state is None:
            raise CantServe("there is no answer now")
        return state


def told_of(why: Failure) -> str:
    """A code, and what it means in the program's words."""
    means = [it.partition(":")[2].strip() for it in why.meaning.splitlines() if it.strip().startswith("means:")]
    return f"{why.line}: {means[0]}" if means else why.line
