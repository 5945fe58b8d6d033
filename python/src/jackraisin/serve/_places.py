"""Where the changes of bodies stand in the store, and what became of them."""
from __future__ import annotations

from typing import List, Mapping, NamedTuple, Sequence, Tuple

from ._bodies import Record


class Place(NamedTuple):
    """Where changes of a body stand: which of them, so many from the one at `begin` on, the number that the store has of the first
    one, and of each source the last record before them."""

    begin: int
    length: int
    first: int
    before: Mapping[int, int]


class Refused(NamedTuple):
    """A refused change of a body: its number there, from 1, and its source, record and code, as a session notes it."""

    change: int
    source: int
    record: int
    code: int


def refused_at(place: Place, records: Sequence[Record], codes: Mapping[Tuple[int, int], int]) -> List[Refused]:
    """Those of a place's changes that were refused."""
    last, found = dict(place.before), []
    for at in range(place.begin, place.begin + place.length):
        source = int(records[at][0])
        last[source] += 1
        code = codes.get((source, last[source]))
        if code is not None:
            found.append(Refused(at + 1, source, last[source], code))
    return found
