"""Rows as facts: ids, dimensions and measures."""
from __future__ import annotations

import json
import re
from fractions import Fraction
from typing import Final, Iterable, List, Mapping, Optional, Sequence, Set

from .._numbers import spelled
from .._records import GREATEST, LEAST, NULL, escaped
from .._schema import Schema
from ._errors import CantFollow, RowUnsayable
from ._table import TEXTS, Column, Table
from ._work import KEPT

# (values as the server writes them; one that the log leaves out, since it is long and didn't change, isn't there)
Values = Mapping[str, Optional[str]]

LONGEST_SHOWN: Final = 100
BOOLS: Final = {"t": "true", "f": "false"}
ESCAPE = re.compile(r"\\(.)", re.DOTALL)
ESCAPES: Final = {"b": "\b", "f": "\f", "n": "\n", "r": "\r", "t": "\t", "v": "\v"}


class Rows:
    """How the rows of a table are said: which columns are the dimensions and measures of a schema, in its order, by
    which power of ten a measure is taken, how many decimals it has, and whether it is a text, which is counted. An id that is the text of a key alone has an `end` behind it."""

    def __init__(
        self, table: Table, schema: Schema, dimensions: Optional[Sequence[str]], measures: Optional[Sequence[str]], scale: Mapping[str, int],
        end: str = "",
    ) -> None:
        self.table, self._end = table, end
        self.dimensions = columns_of(table, "dimension", schema.dimensions, dimensions)
        self.measures = columns_of(table, "measure", schema.measures, measures)
        self.are_texts = [it in schema.texts for it in schema.measures]
        self.factors = factors_of([it for it, is_text in zip(self.measures, self.are_texts) if not is_text], self.measures, scale)
        self.places = [schema.decimals.get(it, 0) for it in schema.measures]
        for column in self.dimensions:
            check_exact(table, column, "is no dimension")
        for column, is_text in zip(self.measures, self.are_texts):
            if is_text:
                check_exact(table, column, "isn't counted")
            else:
                check_measure(table, column)
        self._key = [table.columns[it] for it in table.key]
        self._is_bare = len(self._key) == 1 and self._key[0].base not in TEXTS
        for column in [*self._key, *self.dimensions, *self.measures]:
            check_sent(table, column)
        for column in self._key:
            if not column.is_exact and column.base != "numeric":
                raise CantFollow(f"table {table} has a key with column {column.name} of type {column.type}, which can't name rows here")

    @property
    def names(self) -> List[str]:
        """The columns that are taken, each once."""
        return list(dict.fromkeys([*self.table.key, *(it.name for it in [*self.dimensions, *self.measures])]))

    def id_of(self, values: Values) -> str:
        """The id of a row: the text of its key, or a list of texts where one alone could be empty or mean two keys."""
        texts = [self._key_text(column, values) for column in self._key]
        return texts[0] + self._end if self._is_bare else json.dumps(texts, ensure_ascii=False)

    def _key_text(self, column: Column, values: Values) -> str:
        text = text_of(column, values.get(column.name))
        if text is None:
            raise CantFollow(f"table {self.table}: a change doesn't tell column {column.name} of its key")
        return text

    def key_of(self, values: Values) -> str:
        """The key of a row as errors say it."""
        said = [shown(it, text_of(it, values.get(it.name))) for it in self._key]
        return f"({', '.join(it.name for it in self._key)})=({', '.join(said)})"

    def fields_of(self, values: Values) -> List[str]:
        """The fields of a row's dimensions and measures as a feed has them, KEPT where the row doesn't tell one; raises
        `RowUnsayable` where no feed can say it."""
        fields = [self._text(it, values) for it in self.dimensions]
        for column, is_text, factor, places in zip(self.measures, self.are_texts, self.factors, self.places):
            fields.append(self._text(column, values) if is_text else self._number(column, factor, places, values))
        return fields

    def _text(self, column: Column, values: Values) -> str:
        if column.name not in values:
            return KEPT
        text = text_of(column, values[column.name])
        return NULL if text is None else escaped(text)

    def _number(self, column: Column, factor: int, places: int, values: Values) -> str:
        if column.name not in values:
            return KEPT
        value = values[column.name]
        if value is None:
            return NULL
        try:
            units = int(value) * 10**places if factor == 1 and column.is_whole else whole(value, factor * 10**places)
        except ValueError:
            raise self._unsayable(column, factor, values, f"is no {kind_of(places)}") from None
        if not LEAST <= units <= GREATEST:
            raise self._unsayable(column, factor, values, f"doesn't fit 64 bits{f' with {places} decimals' if places else ''}")
        return spelled(units, places)

    def _unsayable(self, column: Column, factor: int, values: Values, why: str) -> RowUnsayable:
        said = shown(column, values[column.name]) + (f", times {factor}," if factor != 1 else "")
        return RowUnsayable(str(self.table), self.key_of(values), column.name, f"{said} {why}")


class Skipped:
    """The ids of the rows that are left out, since they can't be said, and why the last one is, until that is told."""

    def __init__(self, ids: Iterable[str] = ()) -> None:
        self.ids: Set[str] = set(ids)
        self.last: Optional[RowUnsayable] = None

    def add(self, id: str, why: RowUnsayable) -> None:
        self.ids.add(id)
        self.last = why

    def taken(self) -> Optional[RowUnsayable]:
        """Why the last one is left out, where that wasn't told yet."""
        why, self.last = self.last, None
        return why


def kind_of(places: int) -> str:
    """What numbers a measure with so many decimals takes."""
    return f"number with {places} decimals" if places else "whole number"


def columns_of(table: Table, what: str, wanted: Sequence[str], given: Optional[Sequence[str]]) -> List[Column]:
    """The columns of the dimensions or of the measures of a schema: those that are given, or those of the same names."""
    names = list(wanted if given is None else given)
    if len(names) != len(wanted):
        raise CantFollow(f"the schema has {len(wanted)} {what}s, {', '.join(wanted)}, and {len(names)} columns are given for them")
    return [table.column(it, what) for it in names]


def factors_of(numbers: Sequence[Column], measures: Sequence[Column], scale: Mapping[str, int]) -> List[int]:
    """The power of ten that each measure is taken by; those that are numbers may have a scale."""
    for name, digits in scale.items():
        if name not in [it.name for it in numbers]:
            raise CantFollow(f"a scale is given for {name}, which is no column of a measure that is a number")
        if not 0 <= digits <= 18:
            raise CantFollow(f"the scale of {name} is a number of decimals from 0 to 18, and {digits} isn't")
    return [10 ** scale.get(it.name, 0) for it in measures]


def check_sent(table: Table, column: Column) -> None:
    if column.is_generated:
        raise CantFollow(
            f"column {column.name} of table {table} is generated, and the server sends no such columns: follow one that a trigger fills"
        )


def check_exact(table: Table, column: Column, told: str) -> None:
    if not column.is_exact:
        raise CantFollow(
            f"column {column.name} of table {table} is of type {column.type}, of which equal values may have different texts, so it "
            f"{told}: follow a column of type text or numeric(P,S) that a trigger fills"
        )


def check_measure(table: Table, column: Column) -> None:
    if not column.is_whole and column.base != "numeric":
        raise CantFollow(f"column {column.name} of table {table} is of type {column.type}: a measure is a whole number or a numeric")


def text_of(column: Column, value: Optional[str]) -> Optional[str]:
    """A value as SQL casts it to text."""
    return BOOLS[value] if column.is_bool and value is not None else value


def shown(column: Column, text: Optional[str]) -> str:
    """A value as errors and logs say it: a text in quotes, and no more of it than a line has."""
    if text is None:
        return "null"
    start = text if len(text) <= LONGEST_SHOWN else text[:LONGEST_SHOWN] + ".."
    return start if column.is_whole or column.base == "numeric" else repr(start)


def whole(text: str, factor: int) -> int:
    """A decimal number times a factor, exactly; raises `ValueError` where that isn't whole."""
    number = Fraction(text) * factor
    if number.denominator != 1:
        raise ValueError(text)
    return number.numerator


def row_of(line: str) -> List[Optional[str]]:
    """The fields of a line of COPY in its text format."""
    return [field_of(it) for it in line.split("\t")]


def field_of(text: str) -> Optional[str]:
    if "\\" not in text:
        return text
    return None if text == "\\N" else ESCAPE.sub(lambda it: ESCAPES.get(it[1], it[1]), text)
