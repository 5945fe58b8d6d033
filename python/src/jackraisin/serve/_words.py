"""The words of the command, and what they come to."""
from __future__ import annotations

import argparse
import re
from typing import List, NamedTuple, Optional, Sequence

from ._access import Tokens, drawn_token
from ._errors import CantServe
from ._listening import Address, address_of

SIZE = re.compile(r"([1-9][0-9]{0,8})([KMG]?)")
UNITS = {"": 1, "K": 2**10, "M": 2**20, "G": 2**30}
LISTEN = "127.0.0.1:8000"
MOST_CONNECTIONS, MOST_SERIES = 1000, 1000

DESCRIPTION = """Serves one cube over HTTP, and takes changes of it: a session of `datacube live` over a store, so that each change
that was acknowledged is on the disk."""


class Reach(NamedTuple):
    """Where a server is reached, by whom, and how it tells what happens."""

    address: Address
    tokens: Optional[Tokens] = None
    token: Optional[str] = None
    certificate: Optional[str] = None
    key: Optional[str] = None
    is_behind_tls: bool = False
    hosts: Sequence[str] = ()
    origins: Sequence[str] = ()
    connections: int = MOST_CONNECTIONS
    is_json_log: bool = False

    @property
    def has_tls(self) -> bool:
        return self.certificate is not None


class Given(NamedTuple):
    """What the words say."""

    schema: str
    feeds: List[str]
    store: str
    wary: bool
    threads: Optional[int]
    reach: Reach
    shown: str
    body: int
    series: int


def parser() -> argparse.ArgumentParser:
    asks = argparse.ArgumentParser(prog="python -m jackraisin.serve", description=DESCRIPTION)
    asks.add_argument("schema", metavar="SCHEMA", help="the schema of the cube, a TOML file")
    asks.add_argument("feeds", metavar="FEED", nargs="*", help="feeds that come before the changes of the store")
    asks.add_argument("--store", metavar="FILE", required=True, help="the SQLite file that keeps the changes; it is made where it isn't there")
    asks.add_argument("--wary", action="store_true", help="suppose nothing of what a torn write leaves in the store")
    asks.add_argument("--threads", type=int, metavar="N", help="how many threads keep the cube")
    asks.add_argument("--metrics", metavar="QUERY", default="", help="the slice that /metrics shows, as /slice takes it: city=*; by default the grand total")
    asks.add_argument("--max-series", metavar="N", type=int, default=MOST_SERIES, help=f"the most rows that /metrics shows: {MOST_SERIES} by default")
    asks.add_argument("--max-body", metavar="SIZE", type=size, default=8 * 2**20, help="the most bytes of a body: 8M by default")
    add_reach(asks, LISTEN)
    return asks


def add_reach(asks: argparse._ActionsContainer, listen: Optional[str]) -> None:
    """Adds the words that say where a server is reached, with the address by default."""
    default = f"{listen} by default; " if listen else ""
    asks.add_argument(
        "--listen", metavar="ADDRESS", default=listen,
        help=f"unix:PATH, 127.0.0.1:PORT ({default}port 0 is any free one), or another address with --token-file and TLS",
    )
    asks.add_argument("--token-file", metavar="FILE", help="the tokens, `read TOKEN` or `change TOKEN` on each line; without it one is drawn and shown")
    asks.add_argument("--no-token", action="store_true", help="want no token, at a Unix socket")
    asks.add_argument("--tls-cert", metavar="FILE", help="the certificate for TLS, with those above it")
    asks.add_argument("--tls-key", metavar="FILE", help="its key")
    asks.add_argument("--behind-tls", action="store_true", help="what stands before the server has TLS")
    asks.add_argument("--host", metavar="NAME", action="append", default=[], help="a name under which the server is asked too, as what stands before it passes it on")
    asks.add_argument("--allow-origin", metavar="ORIGIN", action="append", default=[], help="an origin, as https://board.example.org, whose pages may ask from a browser")
    asks.add_argument(
        "--max-connections", metavar="N", type=int, default=MOST_CONNECTIONS, help=f"the most connections at a time: {MOST_CONNECTIONS} by default"
    )
    asks.add_argument("--log-format", choices=["text", "json"], default="text", help="how lines are written to standard error")


def size(text: str) -> int:
    found = SIZE.fullmatch(text)
    if not found:
        raise argparse.ArgumentTypeError(f"{text} is no size: 512K, 8M or 1G is one")
    return int(found[1]) * UNITS[found[2]]


def given_by(words: Optional[Sequence[str]]) -> Given:
    """What the words say, where they go together."""
    given = parser().parse_args(words)
    reach = reach_of(given)
    return Given(given.schema, given.feeds, given.store, given.wary, given.threads, reach, given.metrics, given.max_body, given.max_series)


def reach_of(given: argparse.Namespace) -> Reach:
    """Where a server is reached, as the words of `add_reach` say, where they go together."""
    address = address_of(given.listen)
    check_reach(given, address)
    tokens, token = None, None
    if given.token_file is not None:
        tokens = Tokens.read(given.token_file)
    elif not given.no_token:
        token = drawn_token()
        tokens = Tokens.of_one(token)
    return Reach(
        address, tokens, token, given.tls_cert, given.tls_key, given.behind_tls, given.host, given.allow_origin, given.max_connections,
        given.log_format == "json",
    )


def check_reach(given: argparse.Namespace, address: Address) -> None:
    """Sees that what others can reach is kept by tokens that were chosen, and by TLS."""
    if (given.tls_cert is None) != (given.tls_key is None):
        raise CantServe("--tls-cert and --tls-key go together")
    if given.no_token and address.path is None:
        raise CantServe("--no-token is for a Unix socket: whoever can reach a port is stopped by a token alone")
    if given.no_token and given.token_file is not None:
        raise CantServe("--no-token and --token-file don't go together")
    if address.is_local:
        return
    if given.token_file is None:
        raise CantServe(f"{given.listen} can be reached from elsewhere, and wants --token-file")
    if given.tls_cert is None and not given.behind_tls:
        raise CantServe(f"{given.listen} can be reached from elsewhere, and wants --tls-cert and --tls-key, or --behind-tls")
