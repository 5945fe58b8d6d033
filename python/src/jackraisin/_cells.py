"""Coordinates, cells and patterns, and how they are spelled."""
from __future__ import annotations

import csv
import enum
import io
from typing import Final, Iterable, List, Literal, Mapping, Sequence, Tuple, TypeVar, Union

from ._errors import Unsayable
from ._records import escaped

T = TypeVar("T")


class Mark(enum.Enum):
    """What stands where no value does."""

    ALL = "ALL"
    ANY = "ANY"
    KEEP = "KEEP"

    def __repr__(self) -> str:
        return self.name

    __str__ = __repr__


ALL: Final = Mark.ALL
ANY: Final = Mark.ANY
KEEP: Final = Mark.KEEP

MARKS: Final[Mapping[object, str]] = {None: "\\N", ALL: "\\A", ANY: "?"}

Coordinate = Union[str, None, Literal[Mark.ALL]]
Wanted = Union[str, None, Literal[Mark.ALL], Literal[Mark.ANY]]
Cell = Union[Mapping[str, Coordinate], Sequence[Coordinate]]
Pattern = Union[Mapping[str, Wanted], Sequence[Wanted]]
Key = Tuple[Coordinate, ...]
Named = Union[Mapping[str, T], Sequence[T]]


def in_order(names: Sequence[str], values: Named[T], others: Sequence[T], what: str) -> List[T]:
    """Values in the order of names. One that a mapping lacks is the first of the others, and missing where there is none."""
    if isinstance(values, (str, bytes)):
        raise TypeError(f"the {what}s are a mapping or a sequence, and {values!r} is a text")
    if not isinstance(values, Mapping):
        if len(values) != len(names):
            raise Unsayable(f"{len(names)} {what}s are wanted, and {len(values)} are given")
        return list(values)
    strangers = [it for it in values if it not in names]
    if strangers:
        raise Unsayable(f"no {what} is named {strangers[0]!r}: they are {', '.join(names)}")
    missing = [it for it in names if it not in values]
    if missing and not others:
        raise Unsayable(f"{what} {missing[0]} is missing")
    return [values[it] if it in values else others[0] for it in names]


def text_of(value: object, what: str) -> str:
    """A text that UTF-8 can say."""
    if not isinstance(value, str):
        raise TypeError(f"{what}: {value!r} is no text")
    try:
        value.encode("utf-8")
    except UnicodeEncodeError:
        raise Unsayable(f"{what}: {value!r} can't be said in UTF-8") from None
    return value


def fields_of(dimensions: Sequence[str], pattern: Pattern, is_escaped: bool = False) -> List[str]:
    """The fields that spell a pattern or a cell, of a cube whose texts may be escaped; ALL stands where a mapping has no name."""
    others: List[Wanted] = [ALL]
    return [field_of(*it, is_escaped) for it in zip(dimensions, in_order(dimensions, pattern, others, "dimension"))]


def field_of(name: str, wanted: Wanted, is_escaped: bool = False) -> str:
    """The field that spells a coordinate that is wanted of a dimension."""
    if wanted in MARKS:
        return MARKS[wanted]
    text = text_of(wanted, f"dimension {name}")
    return "=" + (escaped(text) if is_escaped else text)


def word_of(fields: Iterable[str]) -> bytes:
    """Fields as a word of the command line, which is UTF-8 whatever the locale."""
    out = io.StringIO(newline="")
    csv.writer(out, lineterminator="\r\n").writerow(fields)
    return out.getvalue()[:-2].encode("utf-8")
