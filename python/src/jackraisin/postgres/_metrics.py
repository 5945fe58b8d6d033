"""How far a follower is, as metrics of Prometheus."""
from __future__ import annotations

from typing import Any, Iterator, Mapping, Optional, Tuple

from prometheus_client.core import CounterMetricFamily, GaugeMetricFamily

from .. import __version__
from ._follower import State

OF_FOLLOWER = "datacube_follower_"


def families_of(table: str, state: State, left_out: int) -> Iterator[Any]:
    """The metrics of a follower, of whose slice so many rows have none. What isn't known has no sample."""
    build = GaugeMetricFamily(f"{OF_FOLLOWER}build_info", "1; its label says the version of the follower and its program.", labels=["version"])
    build.add_metric([__version__], 1)
    yield build
    for metrics, kind in ((gauges(state, left_out), GaugeMetricFamily), (counters(state), CounterMetricFamily)):
        for name, (text, value) in metrics.items():
            family: Any = kind(OF_FOLLOWER + name, text, labels=["table"])
            if value is not None:
                family.add_metric([table], value)
            yield family


def gauges(state: State, left_out: int) -> Mapping[str, Tuple[str, Optional[float]]]:
    """What each says, and its value."""
    verified = None if state.is_verified is None else int(state.is_verified)
    commit = "When the last transaction that was taken was committed, by the server's clock, in seconds since 1970."
    return {
        "caught_up": ("1 where the cube is that of a commit, 0 where the table is still being copied.", int(state.is_caught_up)),
        "connected": ("1 where the follower has its connection to the database.", int(state.is_connected)),
        "behind_bytes": ("By how many bytes of log the server was ahead at the last look.", state.behind),
        "behind_seconds": ("All that was committed so many seconds ago is in the cube.", seconds(state.behind_seconds)),
        "last_commit_time": (commit, seconds(state.last_commit)),
        "verified": ("1 where the totals of the cube were the table's when they were compared last, else 0.", verified),
        "skipped": ("Rows of the table that are left out, since a measure of theirs can't be said.", state.skipped),
        "series_left_out": ("Rows of the slice past --max-series.", left_out),
    }


def counters(state: State) -> Mapping[str, Tuple[str, Optional[float]]]:
    """The same of what only grows. (What writes them adds `_total` to their names.)"""
    return {
        "transactions": ("Transactions that were taken.", state.transactions),
        "changes": ("Changes of rows that were taken.", state.changes),
        "differences": ("Comparisons in which the totals of the cube weren't the table's.", state.differences),
        "copies": ("Copies of the table that were taken, one at the start.", state.copies),
    }


def seconds(value: Optional[float]) -> Optional[float]:
    """A time to the millisecond."""
    return None if value is None else round(value, 3)
