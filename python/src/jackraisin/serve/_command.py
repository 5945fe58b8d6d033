"""The command: it begins the session, listens, and ends well at a signal."""
from __future__ import annotations

import asyncio
import functools
import signal
import sys
import time
from typing import Optional, Sequence

from .._errors import DatacubeError, Ended
from .._records import lift_limit
from .._schema import schema_of
from ._errors import CantCount
from ._http import TOLD
from ._listening import listen, tls_of
from ._log import JsonLines, log_to_standard_error
from ._notify import tell_systemd
from ._query import question_of, words_of
from ._serving import serve_until, shown_address, site_of
from ._session import SessionCube
from ._stored import SECONDS_IN_USE, StoredSession, meaning_of_refusal
from ._taking import Taking
from ._words import Given, given_by

ENDING = (signal.SIGTERM, signal.SIGINT, signal.SIGHUP)
SECONDS_BETWEEN_TRIES = 0.2
BODIES_AT_A_TIME, LEAST_OF_BODIES = 8, 64 * 2**20
# (the session's thread has little to do between two waits, and would stand behind the loop for 5 milliseconds each time)
SECONDS_OF_A_THREAD = 0.0005
IN_USE = "D1"


def begin_session(given: Given) -> StoredSession:
    """The session. A store that another process has is waited for: the program of a server that was killed may be at its end yet."""
    last, was_counted = time.monotonic() + SECONDS_IN_USE, True
    while True:
        try:
            return StoredSession(given.schema, given.feeds, given.store, wary=given.wary, threads=given.threads)
        except CantCount:
            # (one whose making was cut short is a store only since the session has gone on with it)
            if not was_counted:
                raise
            was_counted = False
        except Ended as why:
            if why.code != IN_USE or time.monotonic() > last:
                raise
            time.sleep(SECONDS_BETWEEN_TRIES)


async def serve(given: Given) -> int:
    """Serves until a signal, or until the session ends; gives the status of the session."""
    schema, reach = schema_of(given.schema), given.reach
    cube = SessionCube(schema, functools.partial(begin_session, given))
    meaning = functools.lru_cache(maxsize=None)(functools.partial(meaning_of_refusal, version=schema.version))
    taking = Taking(cube, meaning, given.body, max(BODIES_AT_A_TIME * given.body, LEAST_OF_BODIES))
    shown = question_of("slice", words_of(given.shown), schema)
    socket, address = listen(reach.address)
    tls = tls_of(reach.certificate, reach.key)
    site = site_of(cube, reach, address, shown, given.series, taking)
    loop, ending = asyncio.get_running_loop(), asyncio.Event()
    for it in ENDING:
        # (one that is ignored, as under nohup, stays so)
        if signal.getsignal(it) != signal.SIG_IGN:
            loop.add_signal_handler(it, ending.set)
    print(shown_address(reach, address), flush=True)
    running = asyncio.ensure_future(cube.run(functools.partial(is_ready, given)))
    return await serve_until(site, socket, address, tls, running, ending, lambda: tell_systemd("STOPPING=1"))


def is_ready(given: Given, session: StoredSession) -> None:
    if session.refused_lines:
        TOLD.warning("lines of the feeds are refused, %d of them: /refusals shows them", session.refused_lines)
    TOLD.info("ready, with %d changes in %s", session.number, given.store)
    tell_systemd("READY=1")


def main(words: Optional[Sequence[str]] = None) -> int:
    handler = log_to_standard_error("jackraisin.serve")
    lift_limit()
    sys.setswitchinterval(SECONDS_OF_A_THREAD)
    try:
        given = given_by(words)
        if given.reach.is_json_log:
            handler.setFormatter(JsonLines())
        asyncio.run(serve(given))
    except (DatacubeError, OSError) as why:
        TOLD.error("%s", why)
        return 1
    return 0
