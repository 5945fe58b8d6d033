"""The words behind the `?` of an address, as a question of a session."""
from __future__ import annotations

import re
from typing import Dict, List, Mapping, NamedTuple, Optional, Tuple
from urllib.parse import parse_qsl

from .._cells import text_of
from .._errors import Unsayable
from .._records import ADDED, NULL, VALUES, escaped
from .._schema import Schema
from ._errors import BadQuery

Question = Tuple[str, ...]

# (more are no question of a cube with 8 dimensions)
MOST_WORDS = 64
ANY_FIELD, ALL_FIELD = "?", "\\A"
WHOLE = re.compile(r"0|[1-9][0-9]{0,18}")
# (the server's own words that each question takes, beside a token)
VIEWS = ("_top", "_by", "_percent")
OWN_WORDS = {"cube": VIEWS, "slice": VIEWS, "drill": ("_along", *VIEWS), "rollup": ("_along",), "refusals": ("_source", "_after")}
TOKEN = "_token"


class Words(NamedTuple):
    """What was given of dimensions, by their names, and the server's own words."""

    dimensions: Dict[str, str]
    own: Dict[str, str]


class View(NamedTuple):
    """How many lines are wanted, by which aggregate, and of which aggregate the shares."""

    top: Optional[int]
    by: Optional[str]
    percent: Optional[str]


def words_of(query: str) -> Words:
    """The words of a query. The server's own begin with `_`; so a dimension that does has one more."""
    try:
        pairs = parse_qsl(query, keep_blank_values=True, errors="strict", max_num_fields=MOST_WORDS)
    except ValueError as why:
        raise BadQuery(f"the address can't be read: {why}") from None
    found = Words({}, {})
    for name, value in pairs:
        is_own = name.startswith("_") and not name.startswith("__")
        words, name = (found.own, name) if is_own else (found.dimensions, name[1:] if name.startswith("__") else name)
        if name in words:
            raise BadQuery(f"{name} stands twice")
        words[name] = value
    return found


def question_of(name: str, words: Words, schema: Schema, is_escaped: bool = False) -> Question:
    """The question that a path of some name asks, of a cube whose texts may be escaped."""
    strangers = [it for it in words.own if it not in (*OWN_WORDS[name], TOKEN)]
    if strangers:
        raise BadQuery(f"/{name} has no word {strangers[0]}: a dimension of that name is _{strangers[0]}")
    if name in ("cube", "refusals") and words.dimensions:
        raise BadQuery(f"/{name} takes no dimension: /slice does")
    if name == "cube":
        return ("print",)
    if name == "refusals":
        return refusals_question(words.own)
    fields = fields_of_words(words.dimensions, schema, is_escaped)
    if name == "slice":
        return ("slice", *fields)
    if "_along" not in words.own:
        raise BadQuery(f"/{name} goes along a dimension: _along={schema.dimensions[0]}")
    return (name, checked(words.own["_along"], "_along"), *fields)


def refusals_question(own: Mapping[str, str]) -> Question:
    source, after = own.get("_source"), own.get("_after", "0")
    if source is None:
        if "_after" in own:
            raise BadQuery("_after goes with _source")
        return ("refusals",)
    for name, value in (("_source", source), ("_after", after)):
        if not WHOLE.fullmatch(value):
            raise BadQuery(f"{name} is a whole number")
    return ("refusals", source, after)


def view_of(own: Mapping[str, str], schema: Schema) -> Optional[View]:
    """The view that the words want, where they want one."""
    if not any(it in own for it in VIEWS):
        return None
    top, by, percent = (own.get(it) for it in VIEWS)
    if (top is None) != (by is None):
        raise BadQuery("_top goes with _by: _top=10&_by=count(*)")
    if top is not None and not WHOLE.fullmatch(top):
        raise BadQuery("_top is a whole number")
    for name, value in (("_by", by), ("_percent", percent)):
        if value is not None and value not in schema.aggregates:
            raise BadQuery(f"{name}: no aggregate is named {value}: they are {', '.join(schema.aggregates)}")
    if by is not None and by.startswith(VALUES):
        raise BadQuery(f"_by: only numbers are in an order, and {by} is none")
    if percent is not None and not percent.startswith(ADDED):
        raise BadQuery(f"_percent: only counts and sums have shares, and {percent} is neither")
    return View(None if top is None else int(top), by, percent)


def fields_of_words(given: Mapping[str, str], schema: Schema, is_escaped: bool = False) -> List[str]:
    """A field for each dimension, as a session takes it; one that isn't named is ALL."""
    strangers = [it for it in given if it not in schema.dimensions]
    if strangers:
        raise BadQuery(f"no dimension is named {strangers[0]}: they are {', '.join(schema.dimensions)}")
    return [field_of_word(it, given[it], is_escaped) if it in given else ALL_FIELD for it in schema.dimensions]


def field_of_word(name: str, value: str, is_escaped: bool = False) -> str:
    """The field for `*`, which is any coordinate, for `\\N`, which is null, and for a text, which has a `=` before it where it
    begins with `*`, `\\` or `=`."""
    if value == "*":
        return ANY_FIELD
    if value == NULL:
        return NULL
    if value.startswith("="):
        text = value[1:]
        return checked(f"={escaped(text) if is_escaped else text}", name)
    if value.startswith(("*", "\\")):
        raise BadQuery(f"{name}={value}: * is any coordinate and {NULL} is null; a text that begins so has a = before it")
    return checked(f"={value}", name)


def checked(value: str, name: str) -> str:
    try:
        return text_of(value, name)
    except Unsayable as why:
        raise BadQuery(str(why)) from None
