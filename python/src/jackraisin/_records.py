"""The records of printed texts, and the names of a printed cube's columns."""
from __future__ import annotations

import contextlib
import csv
import io
import re
import threading
from typing import Dict, Iterator, List, Sequence, Tuple

from ._errors import Unreadable

NULL = "\\N"
# (what a measure holds, and a column of a frame)
LEAST, GREATEST = -(2**63), 2**63 - 1
PLAIN = "count|sum|min|max|avg|sum_of_squares|var_pop|var_samp|values"
AGGREGATE = re.compile(rf"(({PLAIN})\(|percentile_disc\((0|1|0\.[0-9]{{1,4}}|1\.0{{1,4}}),).*\)", re.DOTALL)
# (those that say fractions, those that can be added up over cells, and the one that is no number)
FRACTIONS = "avg(", "var_pop(", "var_samp("
ADDED = "count(", "sum(", "sum_of_squares("
VALUES = "values("
# (texts may be longer than what csv takes at first, whose limit is one for the whole process)
LONGEST = 2**31 - 1
LIMIT = threading.RLock()
# (what has happened in this process for good)
LIFTED = threading.Event()


def escaped(text: str) -> str:
    """A text in a cube whose texts are escaped: one that begins with a backslash has one more, so that none is what means null, or
    that a value is kept."""
    return "\\" + text if text.startswith("\\") else text


def unescaped(text: str) -> str:
    """The text that is so escaped."""
    return text[1:] if text.startswith("\\") else text


class Columns:
    """The names of a printed cube's columns, and whether its texts are escaped."""

    def __init__(self, head: Sequence[str], is_escaped: bool = False) -> None:
        self.is_escaped = is_escaped
        count = dimensions_in(head)
        self.width = len(head)
        self.dimensions: Tuple[str, ...] = tuple(head[:count])
        self.aggregates: Tuple[str, ...] = tuple(head[2 * count :])
        self.places: Dict[str, int] = {}
        for place, name in enumerate([*self.dimensions, *self.aggregates]):
            self.places.setdefault(name, place)

    def checked(self, record: List[str]) -> List[str]:
        """A record, whose fields are as many as there are columns."""
        if len(record) != self.width:
            raise unreadable(f"a line has {len(record)} fields")
        return record


def dimensions_in(head: Sequence[str]) -> int:
    """How many dimensions a header has: so many names, as many GROUPING columns for them, and then aggregates alone."""
    for count in range(1, len(head) // 2 + 1):
        marks = [f"grouping({it})" for it in head[:count]]
        if list(head[count : 2 * count]) == marks and all(map(AGGREGATE.fullmatch, head[2 * count :])):
            return count
    raise unreadable("its first line isn't a header")


def unreadable(why: object) -> Unreadable:
    return Unreadable(f"the text is no printed cube: {why}")


def lift_limit() -> None:
    """Has `csv` read fields of any length for good, in a process that is a command's own: its threads don't wait for one another then."""
    csv.field_size_limit(LONGEST)
    LIFTED.set()


@contextlib.contextmanager
def long_fields() -> Iterator[None]:
    """For as long as it is entered, `csv` reads fields of any length; the limit is the caller's own again behind that."""
    try:
        with contextlib.nullcontext() if LIFTED.is_set() else limit_lifted():
            yield
    except csv.Error as why:
        raise Unreadable(f"this Python's csv can't read the text: {why}") from None


@contextlib.contextmanager
def limit_lifted() -> Iterator[None]:
    """The same in a process that has a limit of its own, one thread after the other."""
    with LIMIT:
        limit = csv.field_size_limit()
        csv.field_size_limit(max(limit, LONGEST))
        try:
            yield
        finally:
            csv.field_size_limit(limit)


@contextlib.contextmanager
def records_of(text: str) -> Iterator[Iterator[List[str]]]:
    """The records of a printed text, one after the other, with fields of any length."""
    with long_fields():
        yield csv.reader(io.StringIO(text, newline=""))


def lines_of(text: str) -> List[str]:
    """The records of a printed text as they stand in it, the first one too, each with the end of its line."""
    stream, ends = io.StringIO(text, newline=""), [0]
    with long_fields():
        ends += [stream.tell() for _ in csv.reader(stream)]
    lines = [text[start:end] for start, end in zip(ends, ends[1:])]
    return [it if it.endswith("\n") else it + "\n" for it in lines]


def head_of(text: str) -> Tuple[List[str], int]:
    """The first record of a text, and where it ends; no more of the text is read."""
    ends = [0]
    with long_fields():
        return next(csv.reader(lines_behind(text, ends)), []), ends[-1]


def lines_behind(text: str, ends: List[int]) -> Iterator[str]:
    """The lines of a text behind the last end that is known, each of whose ends is put to them; no more is read than is asked for."""
    while ends[-1] < len(text):
        ends.append(text.find("\n", ends[-1]) + 1 or len(text))
        yield text[ends[-2] : ends[-1]]
