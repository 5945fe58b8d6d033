"""Changes of facts, as the records of a session."""
from __future__ import annotations

import operator
from decimal import Decimal
from typing import List, Literal, Sequence, Union

from ._cells import KEEP, Mark, Named, in_order, text_of
from ._errors import Unsayable
from ._numbers import measure_text
from ._records import NULL
from ._schema import Schema

Keep = Literal[Mark.KEEP]
Texts = Named[Union[str, None, Keep]]
# (a measure with decimals takes whole numbers and decimal ones, one that is a text takes texts, any other whole numbers alone)
Measure = Union[int, Decimal, str, None]
Numbers = Named[Union[int, Decimal, str, None, Keep]]
SOURCES = 64


def change_record(schema: Schema, source: int, op: str, id: str, dims: Texts = (), measures: Numbers = ()) -> List[str]:
    """The record of a change: `I`, `U` or `P` of a fact, `D` or `R` of an id alone. What a mapping doesn't name is kept by an
    update under version 2, and missing elsewhere. What no record can say is `Unsayable`."""
    if op in ("P", "R") and schema.feed is None:
        raise Unsayable("what is put or removed whether or not its id is present is for a schema with `feed`")
    if not 1 <= operator.index(source) <= SOURCES:
        raise Unsayable(f"a source is a number from 1 to {SOURCES}, and {source} isn't")
    if not text_of(id, "the id"):
        raise Unsayable("an id isn't empty")
    begin = [str(operator.index(source)), op, id]
    if op in ("D", "R"):
        return begin
    can_keep = op == "U" and schema.version == 2
    rest: List[Keep] = [KEEP] if can_keep else []
    texts: List[Union[str, None, Keep]] = in_order(schema.dimensions, dims, rest, "dimension")
    numbers: List[Union[Measure, Keep]] = in_order(schema.measures, measures, rest, "measure")
    return [*begin, *texts_of(schema, texts, can_keep), *numbers_of(schema, numbers, can_keep)]


def texts_of(schema: Schema, values: Sequence[Union[str, None, Keep]], can_keep: bool) -> List[str]:
    """The fields of the dimensions, in their order."""
    return [text_field(schema, f"dimension {name}", it, can_keep) for name, it in zip(schema.dimensions, values)]


def text_field(schema: Schema, what: str, value: object, can_keep: bool) -> str:
    """The field of a dimension, or of a measure that is a text."""
    if value is None or isinstance(value, Mark):
        return mark(what, value, can_keep)
    text = text_of(value, what)
    if text == "\\=" and schema.version == 2:
        raise Unsayable(f"{what}: a feed can't say the text {text}, which means KEEP")
    if text in schema.nulls():
        raise Unsayable(f"{what}: a feed can't say the text {text}, which means null")
    return text


def numbers_of(schema: Schema, values: Sequence[Union[Measure, Keep]], can_keep: bool) -> List[str]:
    """The fields of the measures, in their order."""
    return [measure_field(schema, name, it, can_keep) for name, it in zip(schema.measures, values)]


def measure_field(schema: Schema, name: str, value: Union[Measure, Keep], can_keep: bool) -> str:
    if name in schema.texts:
        return text_field(schema, f"measure {name}", value, can_keep)
    text = number(name, value, can_keep, schema.decimals.get(name, 0))
    if not isinstance(value, (Mark, type(None))) and text in schema.nulls():
        raise Unsayable(f"measure {name}: a feed of this schema can't say the number {text}, which means null")
    return text


def mark(what: str, value: Union[None, Mark], can_keep: bool) -> str:
    """The field of null, or of a value that is kept."""
    if value is None:
        return NULL
    if value is not KEEP:
        raise Unsayable(f"{what}: a fact has no {value}")
    if not can_keep:
        raise Unsayable(f"{what}: KEEP is for an update, under a schema of version 2")
    return "\\="


def number(name: str, value: Union[Measure, Keep], can_keep: bool, places: int = 0) -> str:
    """The field of a measure with so many decimals."""
    if value is None or isinstance(value, Mark):
        return mark(f"measure {name}", value, can_keep)
    if isinstance(value, str):
        raise TypeError(f"measure {name}: {value!r} is {'neither whole nor a Decimal' if places else 'no whole number'}")
    return measure_text(name, value, places)
