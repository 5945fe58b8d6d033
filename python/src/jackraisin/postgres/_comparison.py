"""The cube beside what the database itself says of the table, at the same moment."""
from __future__ import annotations

import io
from collections import Counter
from fractions import Fraction
from typing import TYPE_CHECKING, Dict, Final, List, Optional, Sequence, Set, Tuple, Union

from psycopg2 import sql

from .._cells import ALL, ANY, MARKS, Mark
from .._cube import Answer, Cube, Row
from .._records import GREATEST, LEAST, VALUES
from .._schema import Schema
from ._mirror import Mirror
from ._slot import snapshot_of
from ._snapshot import InSnapshot
from ._table import look
from ._values import Rows, row_of, shown, text_of

if TYPE_CHECKING:
    from psycopg2.extensions import connection as Connection
    from psycopg2.extensions import cursor as Cursor

# (a dimension with more values isn't compared by them; of a measure so many are named in what is told)
MOST_VALUES: Final = 10_000
NAMED: Final = 20
PER_MEASURE: Final = ("count", "sum", "min", "max")
DISTINCT: Final = "count(distinct "
PERCENTILE: Final = "percentile_disc("
# (what a sum of squares asks, and the variances that are made of it)
SQUARES: Final = "sum_of_squares("
VARIANCES: Final = ("var_pop(", "var_samp(")

# (a number, or values with how often each is held)
Exact = Union[Fraction, Dict[Fraction, int], None]
Answers = Tuple[Exact, ...]
# (the answers of the values of a dimension; those of the grand total are under null)
Totals = Dict[Optional[str], Answers]


class Comparison(InSnapshot):
    """Compares the grand total of a cube, and the totals of the values of each dimension, with the database's own, as they are in a
    snapshot; when the cube has come to its place, and no further, its totals are taken."""

    def __init__(self, dsn: str, rows: Rows, schema: Schema, large: Set[int]) -> None:
        self._rows, self._schema, self._large = rows, schema, large
        self._of_table: Dict[Optional[int], Totals] = {}
        self._of_cube: Dict[Optional[int], Totals] = {}
        self.is_taken = False
        super().__init__(dsn, "compared")

    @property
    def is_over(self) -> bool:
        """Whether both totals are there, or there is a failure."""
        return self.has_ended.is_set() and (self.is_taken or self.failure is not None)

    def take(self, mirror: Mirror) -> None:
        """Takes the totals of the cube."""
        for at in self._sets():
            fields = [MARKS[ANY if it == at else ALL] for it in range(len(self._schema.dimensions))]
            rows = Cube(mirror.ask("slice", *fields), is_escaped=True)
            self._of_cube[at] = dict(total_of(it, at) for it in rows if at is None or it.key[at] is not ALL)
        self.is_taken = True

    def difference(self) -> Optional[str]:
        """The first total in which the table and the cube differ, or none."""
        for at in self._sets():
            of_table, of_cube = self._of_table[at], self._of_cube[at]
            for value in {**of_table, **of_cube}:
                if of_table.get(value) != of_cube.get(value):
                    return f"{self._name_of(at, value)}: the table has {self._said(of_table.get(value))}, and the cube {self._said(of_cube.get(value))}"
        return None

    def _name_of(self, at: Optional[int], value: Optional[str]) -> str:
        return "in all" if at is None else f"{self._schema.dimensions[at]} {shown(self._rows.dimensions[at], value)}"

    def _said(self, answers: Optional[Answers]) -> str:
        return "nothing" if answers is None else ", ".join(f"{name} {said(it)}" for name, it in zip(self._schema.aggregates, answers))

    def _sets(self) -> List[Optional[int]]:
        """The dimensions that are compared by their values, and none for the grand total, where the cube has them."""
        kept, names = self._schema.grouping, self._schema.dimensions
        if kept == "rollup":
            found: List[Optional[int]] = [None, 0]
        elif isinstance(kept, str):
            found = [None, *range(len(names))]
        else:
            found = [names.index(it[0]) if it else None for it in kept if len(it) < 2]
        return [it for it in dict.fromkeys(found) if it not in self._large]

    def work(self, connection: "Connection", snapshot: str) -> None:
        """Asks for the table's totals. A snapshot sees no rows that were written anew since, so then there is nothing to compare."""
        oid = self._rows.table.oid
        with snapshot_of(connection, snapshot) as cursor:
            then = look(cursor, oid)
            for at in self._sets():
                self._of_table[at] = self._totals(cursor, at)
                if at is not None and len(self._of_table[at]) > MOST_VALUES:
                    self._large.add(at)
        with connection.cursor() as cursor:
            now = look(cursor, oid)
        if then is None or now is None or (then.file, then.partitions) != (now.file, now.partitions):
            self.failure = "the rows of the table were written anew meanwhile"

    def _totals(self, cursor: "Cursor", at: Optional[int]) -> Totals:
        """The totals of the values of a dimension, or of all rows."""
        out = io.BytesIO()
        cursor.copy_expert(sql.SQL("COPY ({}) TO STDOUT").format(self._query(at)), out)
        records = [row_of(it) for it in out.getvalue().decode("utf-8").split("\n")[:-1]]
        if at is None:
            return {None: self._answers(it) for it in records}
        return {text_of(self._rows.dimensions[at], it[0]): self._answers(it) for it in records}

    def _query(self, at: Optional[int]) -> sql.Composable:
        table = self._rows.table
        value = sql.SQL("NULL") if at is None else sql.Identifier(self._rows.dimensions[at].name)
        measures = [sql.Identifier(it.name) for it in self._rows.measures]
        asked = [of_measure(kind, *it) for it in zip(measures, self._rows.are_texts) for kind in PER_MEASURE]
        asked += [call_of(it).format(measures[at]) for it, at in self._of_values().items()]
        units = [factor * 10**places for factor, places in zip(self._rows.factors, self._rows.places)]
        numbers = [(name, it) for name, it, is_text in zip(measures, units, self._rows.are_texts) if not is_text]
        sayable: List[sql.Composable] = [SAYABLE.format(name=name, units=sql.Literal(it)) for name, it in numbers] or [sql.SQL("true")]
        return sql.SQL("SELECT {value}, count(*){asked} FROM {only}{table} WHERE {sayable}{grouped}").format(
            value=value, asked=sql.SQL("").join(sql.SQL(", ") + it for it in asked), table=sql.Identifier(table.schema, table.name),
            only=sql.SQL("ONLY " if table.partitions is None else ""), sayable=sql.SQL(" AND ").join(sayable),
            grouped=sql.SQL("" if at is None else f" GROUP BY 1 LIMIT {MOST_VALUES + 1}"),
        )

    def _answers(self, record: Sequence[Optional[str]]) -> Answers:
        """The answers to the schema's aggregates that a record of the database says."""
        texts = record[1:]
        numbers = [None if it is None or it.startswith("{") else Fraction(it) for it in texts]
        return tuple(self._held(it, texts) if it.startswith(VALUES) else self._answer(it, numbers) for it in self._schema.aggregates)

    def _of_values(self) -> Dict[str, int]:
        """The aggregates of the schema that are asked one by one, each with the place of its measure: distinct counts, percentiles, values,
        sums of squares, and variances, for which such a sum is asked."""
        names, found = self._schema.measures, {}
        for it in self._schema.aggregates:
            if it.startswith((SQUARES, VALUES, *VARIANCES)):
                found[it] = names.index(it.partition("(")[2][:-1])
            elif it.startswith(PERCENTILE):
                found[it] = names.index(it.partition(",")[2][:-1])
            # (it is the count of a measure that is named so, where there is one)
            elif it.startswith(DISTINCT) and it[len("count(") : -1] not in names:
                found[it] = names.index(it[len(DISTINCT) : -1])
        return found

    def _answer(self, aggregate: str, numbers: Sequence[Optional[Fraction]]) -> Optional[Fraction]:
        if aggregate == "count(*)":
            return numbers[0]
        of_values = self._of_values()
        if aggregate in of_values:
            at = of_values[aggregate]
            number = numbers[self._place_of(aggregate)]
            if number is None or aggregate.startswith(DISTINCT):
                return number
            if aggregate.startswith(PERCENTILE):
                return number * self._rows.factors[at]
            squares = number * self._rows.factors[at] ** 2
            return self._variance(aggregate, at, numbers, squares) if aggregate.startswith(VARIANCES) else squares
        kind, name = aggregate.split("(", 1)
        at = self._schema.measures.index(name[:-1])
        found = self._found(at, numbers)
        if kind == "count":
            return found[kind]
        number, count = found["sum" if kind == "avg" else kind], found["count"]
        if number is None or not count:
            return None
        return number * self._rows.factors[at] / (count if kind == "avg" else 1)

    def _place_of(self, aggregate: str) -> int:
        """The place of an aggregate that is asked by itself, behind the count of all and what is asked of each measure."""
        return 1 + len(PER_MEASURE) * len(self._schema.measures) + list(self._of_values()).index(aggregate)

    def _held(self, aggregate: str, texts: Sequence[Optional[str]]) -> Dict[Fraction, int]:
        """The values of a measure, of the array of all of them that the database says, which is null where there is none."""
        factor, listed = self._rows.factors[self._of_values()[aggregate]], texts[self._place_of(aggregate)]
        return dict(Counter(Fraction(it) * factor for it in listed[1:-1].split(","))) if listed else {}

    def _found(self, at: int, numbers: Sequence[Optional[Fraction]]) -> Dict[str, Optional[Fraction]]:
        """What is asked of each measure, of the one at a place."""
        return dict(zip(PER_MEASURE, numbers[1 + len(PER_MEASURE) * at :]))

    def _variance(self, aggregate: str, at: int, numbers: Sequence[Optional[Fraction]], squares: Fraction) -> Optional[Fraction]:
        """The variance of a measure, by its count, its sum and its sum of squares; the database's own are rounded."""
        found = self._found(at, numbers)
        count, total = found["count"] or Fraction(0), (found["sum"] or 0) * self._rows.factors[at]
        over = count - 1 if aggregate.startswith("var_samp(") else count
        return (count * squares - total**2) / (count * over) if over else None


def of_measure(kind: str, column: sql.Identifier, is_text: bool) -> sql.Composable:
    """What is asked of each measure; of one that is a text its count alone."""
    return sql.SQL("NULL") if is_text and kind != "count" else sql.SQL("{}({})").format(sql.SQL(kind), column)


def call_of(aggregate: str) -> sql.SQL:
    """What an aggregate that is asked by itself is in SQL, over a measure that is to be put in. PostgreSQL multiplies a level as a double,
    which may come out above a whole number; it is asked for a little less where a double isn't the level itself, too little for
    another place among 10^10 values."""
    if aggregate.startswith(DISTINCT):
        return sql.SQL("count(DISTINCT {})")
    if aggregate.startswith((SQUARES, *VARIANCES)):
        return sql.SQL("sum({0}::numeric * {0})")
    if aggregate.startswith(VALUES):
        return sql.SQL("array_agg({0}) FILTER (WHERE {0} IS NOT NULL)")
    level = aggregate[len(PERCENTILE) :].partition(",")[0]
    less = "" if Fraction(float(level)) == Fraction(level) else " - 2e-15"
    return sql.SQL(f"percentile_disc({level}{less}) WITHIN GROUP (ORDER BY {{}})")


def total_of(row: Row, at: Optional[int]) -> Tuple[Optional[str], Answers]:
    """A row of the cube as a value of a dimension and its answers."""
    value = None if at is None else row.key[at]
    assert not isinstance(value, Mark)
    return value, tuple(map(exact_of, row.answers))


def exact_of(answer: Answer) -> Exact:
    """An answer of the cube as the database's are."""
    if isinstance(answer, dict):
        return {Fraction(value): times for value, times in answer.items()}
    return None if answer is None else Fraction(answer)


def said(answer: Exact) -> str:
    """An answer as it is told, of values the least ones alone where they are many."""
    if not isinstance(answer, dict):
        return str(answer)
    named = " ".join(f"{value}*{answer[value]}" for value in sorted(answer)[:NAMED])
    return f"{named} .." if len(answer) > NAMED else named


# (a row with a measure that can't be said isn't in the cube; NaN is more than any number)
SAYABLE: Final = sql.SQL(
    f"({{name}} IS NULL OR {{name}}::numeric * {{units}} BETWEEN {LEAST} AND {GREATEST} "
    "AND {name}::numeric * {units} = trunc({name}::numeric * {units}))"
)
