"""Bodies of changes, CSV or JSON lines, as the records of a session."""
from __future__ import annotations

import csv
import io
import json
import re
from decimal import Decimal
from typing import Any, Callable, Dict, List, Mapping, NoReturn, Sequence, Tuple, Union

from .._changes import SOURCES, change_record
from .._errors import Unsayable
from .._schema import Schema
from ._errors import BadBody

Record = List[str]

SOURCE = re.compile(r"[1-9][0-9]?")
NUMBER = re.compile(r"[+-]?[0-9]+(\.[0-9]+)?")
OPERATIONS = ("I", "U", "P", "D", "R")
SHOWN = 40


def records_of_csv(data: bytes, schema: Schema) -> List[Record]:
    """The records of a body whose lines are those of a session: the source, and then what a line of a feed says. What they say
    of facts is left to the session, which refuses a line by its code."""
    records: List[Record] = []
    try:
        for record in csv.reader(io.StringIO(text_of_body(data), newline=""), strict=True):
            if record:
                records.append(of_a_source(record, len(records) + 1))
    except csv.Error as why:
        raise BadBody(f"record {len(records) + 1}: {why}") from None
    return records


def of_a_source(record: Record, number: int) -> Record:
    if not SOURCE.fullmatch(record[0]) or int(record[0]) > SOURCES:
        raise BadBody(f"record {number}: it begins with {shortened(record[0])}, and not with a source from 1 to {SOURCES}")
    return record


def records_of_json(data: bytes, schema: Schema) -> List[Record]:
    """The records of a body that has an object on each line."""
    key = source_key(schema)
    lines = [it for it in text_of_body(data).split("\n") if it.strip()]
    return [record_of_line(line, number, key, schema) for number, line in enumerate(lines, 1)]


def record_of_line(line: str, number: int, key: str, schema: Schema) -> Record:
    try:
        found = json.loads(line, object_pairs_hook=once_each, parse_float=no_number, parse_constant=no_number)
        if not isinstance(found, dict):
            raise BadBody("it is no object")
        return record_of_object(found, key, schema)
    except (ValueError, TypeError, RecursionError) as why:
        raise BadBody(f"line {number}: {why if str(why) else 'it is nested too deeply'}") from None


def record_of_object(found: Mapping[str, Any], key: str, schema: Schema) -> Record:
    """The record of an object: a value for each dimension and measure by its name, beside the source, the operation and the id."""
    missing = [it for it in (key, "op", "id") if it not in found]
    if missing:
        raise BadBody(f"{missing[0]!r} is missing")
    source, op = found[key], found["op"]
    if isinstance(source, bool) or not isinstance(source, int):
        raise BadBody(f"{key!r} is a number from 1 to {SOURCES}")
    if op not in OPERATIONS:
        raise BadBody(f"'op' is one of {', '.join(OPERATIONS)}")
    names = [*schema.dimensions, *schema.measures]
    strangers = [it for it in found if it not in (key, "op", "id", *names)]
    if strangers:
        raise BadBody(f"no column is named {shortened(strangers[0])}: they are {', '.join(names)}")
    dimensions = {it: text_in(it, found[it]) for it in schema.dimensions if it in found}
    measures = {it: (text_in if it in schema.texts else number_in)(it, found[it]) for it in schema.measures if it in found}
    return change_record(schema, source, op, text_in("id", found["id"]) or "", dimensions, measures)


def source_key(schema: Schema) -> str:
    """The name that the source has in an object: `source`, with as many `_` before it as no column begins with."""
    key = "source"
    while key in (*schema.dimensions, *schema.measures):
        key = f"_{key}"
    return key


def text_in(name: str, value: object) -> Union[str, None]:
    """The text of a dimension, of an id, or of a measure that is a text: a whole number is its digits."""
    if value is None or isinstance(value, str):
        return value
    if isinstance(value, bool) or not isinstance(value, int):
        raise BadBody(f"{name!r} is a text, a whole number or null")
    return str(value)


def number_in(name: str, value: object) -> Union[int, Decimal, None]:
    """The number of a measure, which may be written as a text, as one with decimals is."""
    if isinstance(value, str):
        if not NUMBER.fullmatch(value):
            raise Unsayable(f"measure {name}: {shortened(value)} is no number")
        return Decimal(value) if "." in value else int(value)
    if value is not None and (isinstance(value, bool) or not isinstance(value, int)):
        raise BadBody(f"{name!r} is a whole number, the text of a number, or null")
    return value


def once_each(pairs: Sequence[Tuple[str, Any]]) -> Dict[str, Any]:
    found = dict(pairs)
    if len(found) < len(pairs):
        raise BadBody("a name stands twice")
    return found


def no_number(text: str) -> NoReturn:
    raise BadBody(f"{text} is no whole number: one with decimals is a text")


def text_of_body(data: bytes) -> str:
    try:
        return data.decode("utf-8-sig")
    except UnicodeDecodeError as why:
        raise BadBody(f"byte {why.start + 1} isn't UTF-8") from None


def shortened(text: str) -> str:
    return repr(text if len(text) <= SHOWN else text[:SHOWN] + "…")


# (what a body says that it is, with what reads it)
READERS: Dict[str, Callable[[bytes, Schema], List[Record]]] = {
    "text/csv": records_of_csv,
    "application/x-ndjson": records_of_json,
    "application/jsonl": records_of_json,
    "application/json": records_of_json,
}
