"""What is made of the lines of an answer: the greatest ones, and the share of each."""
from __future__ import annotations

from fractions import Fraction
from typing import Iterable, List, Optional, Sequence

from .. import _views
from .._cells import ALL, Coordinate
from .._cube import Cube
from .._records import NULL, lines_of
from ._forms import SHARE
from ._query import ANY_FIELD, Question, View


def text_in_view(text: str, question: Question, dimensions: Sequence[str], view: View) -> str:
    """What answers a question in a view: the lines that it wants, in its order, and the share of each as one more column. The
    text is the answer to the question `whole_question`, which has the line that shares are of too."""
    head, *lines = lines_of(text)
    cube = Cube(text)
    if view.percent is not None:
        shares = _views.shares(cube, view.percent, whole_cell(question, dimensions))
        lines = [with_field(line, share_text(shares[row.key])) for line, row in zip(lines, cube)]
        head = with_field(head, quoted(f"{SHARE}{view.percent})"))
    places: Iterable[int] = range(len(lines))
    if view.top is not None and view.by is not None:
        places = _views.greatest(cube, view.top, view.by, totals=False)
    if question[0] == "drill":
        along = dimensions.index(question[1])
        places = (it for it in places if cube[it].key[along] is not ALL)
    return "".join([head, *(lines[it] for it in places)])


def share_text(share: Optional[Fraction]) -> str:
    """A share as the program writes a mean."""
    return NULL if share is None else f"{share.numerator}/{share.denominator}"


def with_field(line: str, field: str) -> str:
    return f"{line[:-1]},{field}\n"


def quoted(name: str) -> str:
    """A field of CSV, quoted where it has to be."""
    return '"' + name.replace('"', '""') + '"' if any(it in name for it in ',"\r\n') else name


def whole_question(question: Question, dimensions: Sequence[str]) -> Question:
    """The question whose answer has the lines of another one, and the line that their shares are of: of a drill-down the slice with
    any coordinate along its dimension."""
    if question[0] != "drill":
        return question
    name, *fields = question[1:]
    return ("slice", *(ANY_FIELD if it == name else field for it, field in zip(dimensions, fields)))


def whole_cell(question: Question, dimensions: Sequence[str]) -> List[Coordinate]:
    """The cell that shares are of: with ALL wherever a question has any coordinate."""
    if question[0] == "print":
        return [ALL for _ in dimensions]
    return [coordinate_of(it) for it in question[-len(dimensions) :]]


def coordinate_of(field: str) -> Coordinate:
    """The coordinate that a field of a question wants."""
    if field.startswith("="):
        return field[1:]
    return None if field == NULL else ALL
