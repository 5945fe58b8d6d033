"""Cubes of facts that are at hand."""
from __future__ import annotations

import csv
import datetime
import operator
import os
import tempfile
from decimal import Decimal
from typing import TYPE_CHECKING, Any, Iterable, Iterator, List, Mapping, Optional, Sequence, Tuple, Union

from ._ask import cube
from ._cells import text_of
from ._changes import number
from ._cube import Cube
from ._errors import Unsayable
from ._records import NULL
from ._schema import Schema

if TYPE_CHECKING:
    import pandas

Facts = Union["pandas.DataFrame", Iterable[Mapping[str, object]]]
# (each whole number up to it is a float, and no float below it stands for two)
EXACT = 2**53


def cube_of(
    facts: Facts,
    *,
    by: Sequence[str],
    of: Mapping[str, Union[str, Sequence[str]]] = {},
    decimals: Mapping[str, int] = {},
    texts: Sequence[str] = (),
    timeout: Optional[float] = None,
    max_memory: Optional[int] = None,
) -> Cube:
    """The whole cube of a frame, or of rows that are mappings: by its dimensions, `count(*)`, and of each measure the aggregates
    that are named, as in `of={"cents": ["sum", "avg", "var_samp", "count(distinct)", "percentile_disc(0.5)"]}`. A dimension is a text, a
    whole number or a date, which become texts; a measure is a whole number of 64 bits, also as a float below 2^53. One that `decimals` names takes a `Decimal` too, with so many
    decimals at most, and a float is then the number that Python shows of it. One that `texts` names is a text, as a dimension is, of which
    `count` and `count(distinct)` may be asked. What is missing (None, NaN, NA) is null."""
    for what, names in (("dimensions", by), ("texts", texts)):
        if isinstance(names, str):
            raise TypeError(f"the {what} are a sequence of names, and {names!r} is a text")
    for name in [*by, *of, *decimals, *texts]:
        text_of(name, "a name")
    measures = list(of) or [next(it for it in ("measure", *(f"measure {at}" for at in range(9))) if it not in by)]
    kinds = {name: [it] if isinstance(it, str) else it for name, it in of.items()}
    aggregates = [spelled(kind, name) for name, each in kinds.items() for kind in each]
    schema = Schema(by, measures, ["count(*)", *aggregates], decimals=decimals, texts=texts)
    with tempfile.TemporaryDirectory(prefix="datacube-") as folder:
        path = os.path.join(folder, "facts.csv")
        with open(path, "w", encoding="utf-8", newline="") as file:
            out = csv.writer(file)
            out.writerow(["op", "id", *by, *measures])
            out.writerows(inserts_of(facts, schema, list(of)))
        return cube(schema, path, timeout=timeout, max_memory=max_memory)


def spelled(kind: str, name: str) -> str:
    """An aggregate of a measure as a schema spells it: `count(distinct cents)` is named `count(distinct)`."""
    call, bracket, rest = kind.partition("(")
    if not bracket:
        return f"{kind}({name})"
    between = " " if rest == "distinct)" else ","
    return f"{call}({rest[:-1]}{between}{name})"


def inserts_of(facts: Facts, schema: Schema, measures: Sequence[str]) -> Iterator[List[str]]:
    """A record for each fact, with null for a measure of the schema that nobody asks for."""
    by, unused = schema.dimensions, [NULL] * (len(schema.measures) - len(measures))
    for at, values in enumerate(values_of(facts, [*by, *measures])):
        texts = [field_of_text(f"dimension {name}", it) for name, it in zip(by, values)]
        yield ["I", str(at), *texts, *(measure_field(schema, *it) for it in zip(measures, values[len(by) :])), *unused]


def values_of(facts: Facts, names: Sequence[str]) -> Iterator[Tuple[object, ...]]:
    """The values of each fact in the order of names."""
    try:
        if hasattr(facts, "columns"):
            frame: Any = facts
            yield from zip(*(frame[name] for name in names))
        else:
            yield from (tuple(row[name] for name in names) for row in facts)
    except KeyError as why:
        raise Unsayable(f"no column is named {why.args[0]!r}") from None


def is_missing(value: object) -> bool:
    return value is None or isinstance(value, float) and value != value or type(value).__name__ in ("NAType", "NaTType")


def field_of_text(what: str, value: object) -> str:
    """The field of a dimension, or of a measure that is a text."""
    if is_missing(value):
        return NULL
    if isinstance(value, datetime.date) and not isinstance(value, datetime.datetime):
        return value.isoformat()
    if hasattr(value, "__index__") and not isinstance(value, bool):
        return str(int(operator.index(value)))
    text = text_of(value, what)
    if text == NULL:
        raise Unsayable(f"{what}: a feed can't say the text {NULL}, which means null")
    return text


def measure_field(schema: Schema, name: str, value: object) -> str:
    """The field of a measure."""
    if name in schema.texts:
        return field_of_text(f"measure {name}", value)
    return number_text(name, value, schema.decimals.get(name, 0))


def number_text(name: str, value: object, places: int) -> str:
    """The field of a measure with so many decimals."""
    if is_missing(value):
        return NULL
    if isinstance(value, float) and abs(value) * 10**places < EXACT:
        if places:
            value = Decimal(repr(float(value)))
        elif value.is_integer():
            value = int(value)
    return number(name, value, False, places)  # type: ignore[arg-type]
