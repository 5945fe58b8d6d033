"""A session over a store, in which the place of each change is known, and so what became of it."""
from __future__ import annotations

import contextlib
import os
import sqlite3
from typing import Any, Dict, Iterable, List, Mapping, Optional, Sequence, Tuple, Union

from .._ask import answer, refusals
from .._cube import Cube
from .._errors import Ended
from .._live import Live
from .._program import UNLIMITED, Path, explain
from .._schema import Schema
from ._bodies import Record
from ._errors import CantCount
from ._keys import KeyNotes
from ._places import Place

# (how long a process that ends may still have the store)
SECONDS_IN_USE = 10.0
COUNTED = "SELECT source, count(*) FROM changes GROUP BY source"


class StoredSession(Live):
    """A session over a store, which any SQLite could count before it began. `number` is how many changes the store has, `keys` what
    is noted beside it, and `refused_lines` how many lines of the feeds are refused."""

    def __init__(self, schema: Path, feeds: Sequence[Path], store: Path, *, wary: bool = False, threads: Optional[int] = None) -> None:
        counts = stored_counts(store)
        super().__init__(schema, feeds, store=store, wary=wary, threads=threads)
        try:
            self._last = {source: records_in(feed, self.schema) for source, feed in enumerate(feeds, 1)}
            self.refused_lines = sum(it.record <= last for source, last in self._last.items() for it in self.refusals(source))
            if counts is None:
                raise CantCount(f"the changes of {os.fspath(store)} couldn't be counted")
            self.number = sum(counts.values())
            self.keys = KeyNotes(store, self.number)
        except BaseException:
            self._kill()
            raise
        for source, count in counts.items():
            self._last[source] = self._last.get(source, 0) + count

    def stop(self) -> None:
        """Ends it well, where it isn't over."""
        self.keys.close()
        if self.status is None:
            with contextlib.suppress(Ended):
                self.close()

    def place(self, records: Sequence[Record], begin: int = 0) -> Place:
        """The place of the changes of a body from one on, which are the next that are sent."""
        sources = [int(it[0]) for it in records[begin:]]
        place = Place(begin, len(sources), self.number + 1, {it: self._last.get(it, 0) for it in set(sources)})
        self.number += len(sources)
        for it in sources:
            self._last[it] = self._last.get(it, 0) + 1
        return place

    def make(self, records: Sequence[Record]) -> None:
        """Sends changes; the next answer makes them certain."""
        self._send(records, True)

    def codes_at(self, places: Iterable[Place]) -> Dict[Tuple[int, int], int]:
        """The codes of all refusals from some places on, by source and record. Every change is certain then."""
        after: Dict[int, int] = {}
        for place in places:
            for source, last in place.before.items():
                after[source] = min(last, after.get(source, last))
        found = [it for source, last in after.items() for it in self.refusals(source, last)]
        if not after:
            self.sync()
        return {(it.source, it.record): it.code for it in found}


def stored_counts(store: Path) -> Optional[Dict[int, int]]:
    """How many changes a store has of each source; None where SQLite can't say, and the program will say why it can't either."""
    if not os.path.exists(store) or os.path.getsize(store) == 0:
        return {}
    try:
        # (it is opened to be written to, so that the log of a session that was killed is taken into it)
        address = f"file:{quoted_path(os.path.abspath(os.fspath(store)))}?mode=rw"
        with contextlib.closing(sqlite3.connect(address, uri=True, timeout=SECONDS_IN_USE)) as connection:
            if not connection.execute("SELECT 1 FROM sqlite_master WHERE name = 'changes'").fetchall():
                return {}
            rows: List[Any] = connection.execute(COUNTED).fetchall()
            return {int(source): int(count) for source, count in rows}
    except (sqlite3.Error, ValueError, TypeError):
        return None


def quoted_path(path: str) -> str:
    return path.replace("%", "%25").replace("?", "%3f").replace("#", "%23")


def records_in(feed: Path, schema: Schema) -> int:
    """How many data records a feed has, as the program counts them: those of which each is an insert under its own number, and
    those that have another width."""
    given = schema.feed
    column: Union[str, Mapping[str, Any]] = "op"
    if given is not None:
        name = schema.dimensions[0]
        column = given.get("columns", {}).get(name, name)
    table = {"null": [], "delimiter": (given or {}).get("delimiter", ","), "columns": {"it": column}}
    counting = Schema(["it"], [], ["count(*)"], grouping=[[]], feed=table)
    status, text = answer("print", counting, feed, [], [], UNLIMITED)
    count = Cube(text).at({})["count(*)"]
    assert isinstance(count, int)
    return count + (len(refusals(counting, feed)) if status == 4 else 0)


def meaning_of_refusal(code: int, version: int) -> str:
    """What the program says that the code of a refused line means, under a version of feeds."""
    lines = explain(str(code)).splitlines()
    for head, means in zip(lines, lines[1:]):
        if head.startswith(f"{code}: ") and ("version" not in head or head.endswith(f"version {version}")):
            return means.partition(":")[2].strip()
    return ""
