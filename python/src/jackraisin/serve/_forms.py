"""The forms of an answer: CSV as the program prints it, JSON, and aligned columns for people."""
from __future__ import annotations

import enum
import json
import re
from typing import Callable, Dict, Iterable, List, Sequence

from .._aligned import ROUNDED, aligned, coordinate_shown, rounded
from .._columns import is_mean
from .._records import NULL, dimensions_in, records_of, unescaped
from .._schema import Schema

NUMBER = re.compile(r"-?[0-9]+(\.[0-9]+)?")
# (what the column of shares begins with, which no aggregate does)
SHARE = "percent("


class Form(enum.Enum):
    """A form, with its content type."""

    CSV = "text/csv; charset=utf-8"
    JSON = "application/json"
    ALIGNED = "text/plain; charset=utf-8"


SUFFIXES = {"csv": Form.CSV, "json": Form.JSON, "txt": Form.ALIGNED}
ACCEPTED = {"text/csv": Form.CSV, "application/json": Form.JSON, "text/plain": Form.ALIGNED}


def form_accepted(accept: str) -> Form:
    """The form that a client would rather have, by its `Accept`: the first one with the greatest weight, and else CSV."""
    wanted = [(weight_of(it), ACCEPTED.get(it.partition(";")[0].strip().lower())) for it in accept.split(",")]
    forms = [(weight, form) for weight, form in wanted if form is not None and weight > 0]
    return max(forms, key=lambda it: it[0])[1] if forms else Form.CSV


def weight_of(wanted: str) -> float:
    found = re.search(r";\s*q\s*=\s*([01](?:\.[0-9]*)?)\s*(;|$)", wanted)
    return float(found[1]) if found else 1.0


def text_in_form(text: str, form: Form, schema: Schema, is_escaped: bool = False) -> str:
    """An answer of the program in a form. Texts that are escaped are so in CSV alone, in which null would be one of them else."""
    if form is Form.CSV:
        return text
    with records_of(text) as records:
        # (other threads go on between two of them)
        head, *rows = [it for it in records]
    if head == ["source", "record", "code"]:
        return refusals_json(head, rows) if form is Form.JSON else aligned([head, *rows], 0)
    read: Callable[[str], str] = str
    if is_escaped:
        read = unescaped
    return cube_json(head, rows, read) if form is Form.JSON else cube_aligned(head, rows, schema, read)


def cube_json(head: Sequence[str], rows: Iterable[List[str]], read: Callable[[str], str]) -> str:
    """An array of the objects that `datacube print --json` writes, one on each line."""
    count = dimensions_of(head)
    names, aggregates = head[:count], head[2 * count :]
    return array(
        '{"dimensions":%s,"grouping":%s,"answers":%s}' % (
            members(names, ["null" if it == NULL else quoted(read(it)) for it in row[:count]]),
            members(names, row[count : 2 * count]),
            members(aggregates, [answer_json(it) for it in row[2 * count :]]),
        )
        for row in rows
    )


def refusals_json(head: Sequence[str], rows: Iterable[List[str]]) -> str:
    return array(members(head, it) for it in rows)


def array(lines: Iterable[str]) -> str:
    return "[" + ",\n".join(lines) + "]\n"


def members(names: Sequence[str], values: Sequence[str]) -> str:
    """An object; a name that stands twice stands once, with the same value."""
    found: Dict[str, str] = dict(zip(names, values))
    return "{" + ",".join(f"{quoted(name)}:{it}" for name, it in found.items()) + "}"


def quoted(text: str) -> str:
    return json.dumps(text, ensure_ascii=False)


def answer_json(field: str) -> str:
    """A number as it is printed, so that no digit is lost; a fraction is a text."""
    if field == NULL:
        return "null"
    return field if NUMBER.fullmatch(field) else quoted(field)


def cube_aligned(head: Sequence[str], rows: Sequence[Sequence[str]], schema: Schema, read: Callable[[str], str]) -> str:
    """The columns that `datacube print --aligned` shows."""
    count = dimensions_of(head)
    aggregates = head[2 * count :]
    shown = [answer_shown_of(it, schema) for it in aggregates]
    lines = [[*head[:count], *aggregates]]
    for row in rows:
        coordinates = [coordinate_shown(text, mark, read) for text, mark in zip(row[:count], row[count : 2 * count])]
        answers = ["(null)" if it == NULL else show(it) for it, show in zip(row[2 * count :], shown)]
        lines.append([*coordinates, *answers])
    return aligned(lines, count) + (f"{ROUNDED}\n" if any(map(is_mean, aggregates)) else "")


def dimensions_of(head: Sequence[str]) -> int:
    """How many dimensions a header has, whose last column may be one of shares."""
    return dimensions_in(head[:-1] if head[-1].startswith(SHARE) else head)


def answer_shown_of(aggregate: str, schema: Schema) -> Callable[[str], str]:
    """How an answer of a column is shown: a mean with two digits more than its measure has, a share in hundredths."""
    if is_mean(aggregate):
        digits = schema.decimals.get(aggregate[len("avg(") : -1], 0) + 2
        return lambda field: rounded(field, digits)
    if aggregate.startswith(SHARE):
        return lambda field: rounded(field, 2, 100)
    return str
