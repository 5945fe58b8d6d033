"""Follows a table of PostgreSQL, and answers questions over its cube.

Without --serve, questions are read from standard input as `datacube live` reads them (print, slice, drill, rollup), and
answered so, after the follower has caught up; the end of the input ends it. Every answer is over all transactions until
some commit. In both a text that begins with a backslash has one more, so that \\N is null alone. With --serve there is a page at
http://127.0.0.1:PORT/, with the paths of `python -m jackraisin.serve` and no token, until it is interrupted; --listen serves
elsewhere, and for those who have a token.
"""
from __future__ import annotations

import argparse
import contextlib
import csv
import math
import os
import select
import signal
import sys
import time
from contextlib import closing
from typing import TYPE_CHECKING, Iterator, List, NoReturn, Optional, Sequence, Tuple

import psycopg2

from .._errors import DatacubeError, Ended, Failure, Unsayable
from .._records import lift_limit
from ..serve._log import JsonLines, log_to_standard_error
from ..serve._needs import lack
from ..serve._notify import tell_systemd
from ..serve._words import MOST_SERIES, Reach, add_reach, reach_of
from . import CantFollow, Follower, NotCaughtUp, Server, drop_slot, slot_name
from ._publication import drop_publication
from ._server import here
from ._slot import PREFIX, TOLD, connect
from ._table import find

if TYPE_CHECKING:
    from psycopg2.extensions import connection as Connection

SECONDS_BETWEEN_LOOKS, SECONDS_OF_A_THREAD = 0.2, 0.0005
SKIPPING = "always", "never"
WITH_LISTEN = "token-file", "no-token", "tls-cert", "tls-key", "behind-tls", "host", "allow-origin"
ENDING = signal.SIGTERM, signal.SIGHUP


def parser() -> argparse.ArgumentParser:
    asks = argparse.ArgumentParser(prog="python -m jackraisin.postgres", description=__doc__, formatter_class=argparse.RawDescriptionHelpFormatter)
    asks.add_argument("--dsn", default="", help="the database, as libpq takes it; what is left out comes from PGHOST and the like")
    asks.add_argument("--table", required=True, help="the table, as in SQL")
    asks.add_argument("--schema", metavar="FILE", help="the schema of the cube, a TOML file")
    asks.add_argument("--dimensions", type=names, metavar="NAMES", help="its columns for the dimensions of the schema, by default those of the same names")
    asks.add_argument("--measures", type=names, metavar="NAMES", help="its columns for the measures of the schema, likewise")
    asks.add_argument("--scale", type=scale, action="append", default=[], metavar="COLUMN=N", help="take N decimals of a numeric: 3.50 is 350 by 2")
    asks.add_argument(
        "--skip", nargs="?", choices=SKIPPING, const=SKIPPING[0], default=SKIPPING[0],
        help="whether rows with a measure that can't be said, as NaN, are left out, counted and told, or end it; always by default"
    )
    asks.add_argument(
        "--verify", type=seconds, metavar="SECONDS", default=600,
        help="compare totals of the cube with the table's own each so many seconds, by default 600, or never by 0; where they differ the "
        "table is copied again, and the status is 1 in the end",
    )
    asks.add_argument("--slot", metavar="NAME", help=f"the replication slot, and the publication, by default {PREFIX}TABLE_OID; one of another prefix is never dropped")
    asks.add_argument("--publication", metavar="NAME", help="a publication that names the table, where the role may not make one")
    asks.add_argument(
        "--store", metavar="FILE",
        help="keep the cube in a file, and the slot when it ends: a start with the same words goes on where the last one ended, and copies nothing",
    )
    asks.add_argument("--drop", action="store_true", help="drop the slot and the publication of a follower that was killed, or that has a store, and end")
    serving = asks.add_argument_group("serving", "With --serve or --listen the page, questions and metrics are served; tokens and TLS go with --listen.")
    serving.add_argument("--serve", type=int, metavar="PORT", help="serve on this port of 127.0.0.1, without a token; 0 is any free one")
    add_reach(serving, None)
    serving.add_argument("--slice", type=names, metavar="PATTERN", help="what /metrics shows, as `datacube slice` takes it; by default each value of the first dimension")
    serving.add_argument("--max-series", type=int, metavar="N", default=MOST_SERIES, help=f"the most rows of it that /metrics shows: {MOST_SERIES} by default")
    return asks


def names(text: str) -> List[str]:
    """Names with commas between them, which may be quoted as in CSV."""
    return next(csv.reader([text]), [])


def seconds(text: str) -> float:
    found = float(text)
    if not 0 <= found < math.inf:
        raise ValueError(text)
    return found


def scale(text: str) -> Tuple[str, int]:
    column, _, digits = text.rpartition("=")
    return column, int(digits)


def follower_of(given: argparse.Namespace) -> Follower:
    return Follower(
        given.dsn, given.table, given.schema, dimensions=given.dimensions, measures=given.measures, scale=dict(given.scale),
        slot=given.slot, skip=given.skip == SKIPPING[0], publication=given.publication, verify=given.verify, store=given.store,
    )


def lines(follower: Follower) -> Iterator[str]:
    """The lines of standard input, for as long as the follower follows."""
    rest = b""
    while True:
        follower.check()
        if select.select([0], [], [], SECONDS_BETWEEN_LOOKS)[0]:
            data = os.read(0, 65536)
            *whole, rest = (rest + data).split(b"\n") if data else (rest, b"")
            yield from (it.decode("utf-8", "replace") + "\n" for it in whole)
            if not data:
                return


def answer(follower: Follower) -> None:
    """Answers the questions of standard input."""
    follower.wait()
    for record in csv.reader(lines(follower)):
        if record:
            sys.stdout.buffer.write(reply(follower, record))
            sys.stdout.buffer.flush()


def reply(follower: Follower, record: Sequence[str]) -> bytes:
    """The answer to a question as a session writes it; one that comes while the table is copied again waits for that."""
    while True:
        follower.wait()
        try:
            text = follower.ask(*record).encode("utf-8")
        except NotCaughtUp:
            continue
        except Unsayable:
            return b"Q1\n"
        except Failure as why:
            if isinstance(why, Ended):
                raise
            return f"{why.line}\n".encode("utf-8")
        return b"ok %d\n%s" % (len(text), text)


def served_by(given: argparse.Namespace, asks: argparse.ArgumentParser) -> Optional[Reach]:
    """Where the follower is served, if it is."""
    if given.serve is not None and given.listen is not None:
        asks.error("--serve and --listen don't go together")
    of_listen = [it for it in WITH_LISTEN if getattr(given, it.replace("-", "_"))]
    if given.listen is None and of_listen:
        asks.error(f"--{of_listen[0]} goes with --listen")
    if given.serve is None and given.listen is None:
        return None
    if lack():
        raise CantFollow(f"to serve, {lack()}")
    return reach_of(given) if given.listen is not None else here(given.serve)._replace(connections=given.max_connections)


def serve(follower: Follower, reach: Reach, slice: Optional[Sequence[str]], max_series: int) -> None:
    """Serves until the follower ends."""
    # (the follower's thread has little to do between two waits, and would stand behind those that serve each time)
    sys.setswitchinterval(SECONDS_OF_A_THREAD)
    with Server(follower, slice=slice, max_series=max_series, reach=reach) as server:
        print(server.address, flush=True)
        try:
            follower.wait()
            tell_systemd("READY=1")
            while True:
                follower.check()
                server.check()
                time.sleep(SECONDS_BETWEEN_LOOKS)
        finally:
            tell_systemd("STOPPING=1")


def drop(dsn: str, table: str, slot: Optional[str], store: Optional[str]) -> None:
    """Drops what a follower that was killed, or that has a store, has left in the server."""
    with closing(connect(dsn)) as connection:
        name = slot or slot_of(connection, table)
        print(f"the slot {name} was dropped" if drop_slot(connection, name) else f"there is no slot {name}")
        if name.startswith(PREFIX):
            drop_publication(connection, name)
    if store is not None:
        print(f"the store {store} stays; a follower that is started with it copies the table")


def slot_of(connection: "Connection", table: str) -> str:
    """The name that the slot of a table has where none is given."""
    with connection.cursor() as cursor:
        found = find(cursor, table)
    if found is None:
        raise CantFollow(f"there is no table {table}, whose number its slot has in its name: name the slot by --slot")
    return slot_name(found[1], found[0])


def run(given: argparse.Namespace, reach: Optional[Reach]) -> int:
    """Does what is asked, and gives the status: 1 where the cube was found not to be the table's."""
    if given.drop:
        drop(given.dsn, given.table, given.slot, given.store)
        return 0
    with follower_of(given) as follower, contextlib.suppress(KeyboardInterrupt):
        if reach is None:
            answer(follower)
        else:
            serve(follower, reach, given.slice, given.max_series)
    return int(follower.state.differences > 0)


def take_signals() -> None:
    """Lets SIGTERM and SIGHUP end the command as Ctrl-C does; one that is ignored, as under nohup, stays so."""
    for it in ENDING:
        if signal.getsignal(it) != signal.SIG_IGN:
            signal.signal(it, interrupted)


def interrupted(*_: object) -> NoReturn:
    # (a terminal that closes sends SIGHUP twice, and the slot is dropped all the same)
    for it in ENDING:
        signal.signal(it, lambda *_: None)
    raise KeyboardInterrupt


def main(words: Optional[Sequence[str]] = None) -> int:
    asks = parser()
    given = asks.parse_args(words)
    if not given.drop and given.schema is None:
        asks.error("the following arguments are required: --schema")
    lift_limit()
    handler = log_to_standard_error("jackraisin.postgres")
    if given.log_format == "json":
        handler.setFormatter(JsonLines())
    take_signals()
    try:
        return run(given, served_by(given, asks))
    except KeyboardInterrupt:
        return 0
    except (DatacubeError, OSError, OverflowError, psycopg2.Error) as why:
        TOLD.error("%s", why)
        return 1


if __name__ == "__main__":
    sys.exit(main())
