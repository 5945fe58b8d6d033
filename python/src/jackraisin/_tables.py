"""Printed cubes as tables of pyarrow and frames of polars, for whoever has these packages."""
from __future__ import annotations

import enum
import importlib
from decimal import Decimal
from typing import Any, Iterator, List, NamedTuple, Optional, Sequence, Union

from . import _columns
from ._numbers import Number, shown
from ._records import NULL, Columns, unescaped

# (how many digits the decimals of both packages have, and those of pyarrow that are twice as wide)
DIGITS, MOST_DIGITS = 38, 76


class Kind(enum.Enum):
    """What the values of a column are."""

    TEXT, MARK, WHOLE, DECIMAL = range(4)


class Column(NamedTuple):
    """A column of a printed cube: its name, what its values are, None where they are null, and of decimals how many digits there are in
    all and behind the point."""

    name: str
    kind: Kind
    values: Sequence[Union[str, int, Decimal, None]]
    digits: int = 0
    scale: int = 0


def columns_of(text: str, columns: Columns) -> Iterator[Column]:
    """The columns of a printed cube, under its names. ALL and null are both null in a dimension; its GROUPING column tells them apart. A
    mean and a variance are the text of their fraction, and values are as they are printed."""
    fields, count = _columns.texts_of(text, columns), len(columns.dimensions)
    read = unescaped if columns.is_escaped else lambda text: text
    for name, texts, marks in zip(columns.dimensions, fields, fields[count:]):
        yield Column(name, Kind.TEXT, [None if mark == "1" or it == NULL else read(it) for it, mark in zip(texts, marks)])
    for name, marks in zip(columns.dimensions, fields[count:]):
        yield Column(f"grouping({name})", Kind.MARK, [int(it) for it in marks])
    for name, texts in zip(columns.aggregates, fields[2 * count :]):
        if _columns.is_of_texts(name):
            yield Column(name, Kind.TEXT, [None if it == NULL else it for it in texts])
        else:
            yield column_of_numbers(name, _columns.numbers_of(name, texts))


def column_of_numbers(name: str, numbers: List[Optional[Number]]) -> Column:
    """A column of numbers: whole ones where all are, and fit 64 bits, else decimals."""
    if _columns.fit(numbers):
        return Column(name, Kind.WHOLE, [None if it is None else int(it) for it in numbers])
    exact = [None if it is None else Decimal(it) for it in numbers]
    parts = [it.as_tuple() for it in exact if it is not None]
    scale = max((-it.exponent for it in parts if isinstance(it.exponent, int)), default=0)
    digits = max((max(len(it.digits), scale) for it in parts), default=1)
    return Column(name, Kind.DECIMAL, exact, digits, scale)


def arrow_table(text: str, columns: Columns) -> Any:
    """A table of pyarrow."""
    arrow = module("pyarrow")
    types = {Kind.TEXT: arrow.string, Kind.MARK: arrow.int8, Kind.WHOLE: arrow.int64}
    names, made = [], []
    for it in columns_of(text, columns):
        if it.kind is not Kind.DECIMAL:
            kind = types[it.kind]()
        else:
            kind = arrow.decimal128(DIGITS, it.scale) if it.digits <= DIGITS else arrow.decimal256(MOST_DIGITS, it.scale)
        names.append(it.name)
        made.append(arrow.array(it.values, type=kind))
    # (a dimension may have the name of an aggregate)
    return arrow.Table.from_arrays(made, names=names)


def polars_frame(text: str, columns: Columns) -> Any:
    """A frame of polars. Numbers of more digits than its decimals have are texts there, and a name that an earlier column has gets a `_`."""
    polars = module("polars")
    types = {Kind.TEXT: polars.Utf8, Kind.MARK: polars.Int8, Kind.WHOLE: polars.Int64}
    made = {}
    for it in columns_of(text, columns):
        name, values = it.name, it.values
        while name in made:
            name += "_"
        if it.kind is not Kind.DECIMAL:
            kind = types[it.kind]
        elif it.digits <= DIGITS:
            kind = polars.Decimal(DIGITS, it.scale)
        else:
            kind, values = polars.Utf8, [None if value is None else shown(value) for value in values]
        made[name] = polars.Series(name, values, dtype=kind)
    return polars.DataFrame(list(made.values()))


def arrow_stream(text: str, columns: Columns, requested_schema: object) -> Any:
    """A stream of Arrow's, in a capsule of Python's, which pyarrow makes, or else polars."""
    for make in (arrow_table, polars_frame):
        try:
            return make(text, columns).__arrow_c_stream__(requested_schema)
        except ImportError:
            continue
    raise ImportError("a stream of Arrow takes pyarrow or polars, and neither is installed")


def module(name: str) -> Any:
    """A package that this one doesn't need otherwise."""
    try:
        return importlib.import_module(name)
    except ImportError as why:
        raise ImportError(f"this takes the package {name}, which isn't installed ({why})") from None
