"""Looks at a printed cube.

    datacube print schema.toml market.csv > cube.csv
    python -m jackraisin show cube.csv --by city --top 10 --percent "sum(cents)"
"""
from __future__ import annotations

import argparse
import os
import sys
from decimal import Decimal
from fractions import Fraction
from typing import Callable, Dict, List, Optional, Sequence

from ._aligned import ROUNDED, aligned, coordinate_shown, rounded
from ._cells import ALL, ANY, Pattern, Wanted
from ._columns import is_mean
from ._cube import Answer, Cube, Row
from ._errors import DatacubeError, Unsayable
from ._numbers import shown
from ._records import NULL
from ._views import whole_of

Show = Callable[[Answer], str]


def main(words: Optional[Sequence[str]] = None) -> int:
    parser = argparse.ArgumentParser(prog="python -m jackraisin", description="Looks at a printed cube.")
    commands = parser.add_subparsers(dest="command", required=True)
    show = commands.add_parser("show", help="shows the rows of a printed cube in aligned columns", description=shown_cube.__doc__)
    show.add_argument("cube", metavar="CUBE", help="the file of a printed cube, or - for standard input")
    show.add_argument("--by", metavar="DIMENSION", action="append", default=[], help="the rows by a dimension; may be given again")
    show.add_argument("--at", metavar="DIMENSION=VALUE", action="append", default=[], help="those with a value, or \\N for null; may be given again")
    show.add_argument("--top", metavar="COUNT", type=int, help="those with the greatest answers alone, and the total")
    show.add_argument("--of", metavar="AGGREGATE", help="the aggregate of --top; by default that of --percent, or the first one")
    show.add_argument("--percent", metavar="AGGREGATE", help="a column more: the percentage of the total, of a count or a sum")
    given = parser.parse_args(words)
    try:
        sys.stdout.write(shown_cube(given.cube, given.by, given.at, given.top, given.of, given.percent))
        sys.stdout.flush()
    except BrokenPipeError:
        # (what is left can't be written at the end either)
        os.dup2(os.open(os.devnull, os.O_WRONLY), 1)
    except (DatacubeError, OSError) as why:
        print(f"jackraisin: {why}", file=sys.stderr)
        return 1
    return 0


def shown_cube(path: str, by: Sequence[str], at: Sequence[str], top: Optional[int], of: Optional[str], percent: Optional[str]) -> str:
    """The rows of a printed cube by some dimensions, or all of them where none is named, at some values of others, and at ALL in
    the rest. A mean is rounded, a share is in percent of the last row."""
    cube = read(path)
    part = cube.where(pattern_of(cube, by, at))
    rows: List[Row] = list(part)
    shares = part.percent(percent) if percent else {}
    if top is not None:
        rows = greatest(part, top, of or percent or cube.aggregates[0])
    shows = [show_of(cube, it) for it in cube.aggregates]
    lines = [[*cube.dimensions, *cube.aggregates, *([f"percent({percent})"] if percent else [])]]
    for row in rows:
        coordinates = [coordinate_shown(NULL if it is None else str(it), "1" if it is ALL else "0", str) for it in row.key]
        answers = ["(null)" if it is None else show(it) for show, it in zip(shows, row.answers)]
        share = shares.get(row.key)
        ends = [] if not percent else ["(null)" if share is None else rounded(f"{share.numerator}/{share.denominator}", 2, 100)]
        lines.append([*coordinates, *answers, *ends])
    return aligned(lines, len(cube.dimensions)) + (f"{ROUNDED}\n" if any(map(is_mean, cube.aggregates)) else "")


def greatest(part: Cube, count: int, by: str) -> List[Row]:
    """The rows with the greatest answers, and behind them their total, where it is none of them."""
    rows, total = list(part.top(count, by)), whole_of(list(part))
    return [*rows, *(it for it in part if it.key == total and it not in rows)]


def read(path: str) -> Cube:
    return Cube.read("/dev/stdin" if path == "-" else path)


def pattern_of(cube: Cube, by: Sequence[str], at: Sequence[str]) -> Pattern:
    """The rows that are wanted: any coordinate of the dimensions that are named, or of each where none is, and the values that are."""
    pattern: Dict[str, Wanted] = {it: ANY for it in by or ([] if at else cube.dimensions)}
    for it in at:
        name, equals, value = it.partition("=")
        if not equals:
            raise Unsayable(f"{it!r} isn't DIMENSION=VALUE")
        pattern[name] = None if value == NULL else value
    return pattern


def show_of(cube: Cube, aggregate: str) -> Show:
    """How an answer of a column is shown: a mean with two digits more than its measure has."""
    if not is_mean(aggregate):
        return shown
    digits = 2 + decimals_of(cube, aggregate[len("avg(") : -1])
    return lambda it: rounded(f"{it.numerator}/{it.denominator}", digits) if isinstance(it, (int, Fraction)) else shown(it)


def decimals_of(cube: Cube, measure: str) -> int:
    """How many decimals the numbers of a measure have, as another aggregate of it shows them: a sum of squares has twice as many, and of
    values each is one."""
    percentiles = [it for it in cube.aggregates if it.startswith("percentile_disc(") and it.partition(",")[2] == f"{measure})"]
    for aggregate in [*(f"{kind}({measure})" for kind in ("sum", "min", "max", "sum_of_squares", "values")), *percentiles]:
        if aggregate in cube.aggregates:
            numbers = (next(iter(it), None) if isinstance(it, dict) else it for it in (row[aggregate] for row in cube))
            found = next((it for it in numbers if it is not None), None)
            exponent = found.as_tuple().exponent if isinstance(found, Decimal) else 0
            digits = -exponent if isinstance(exponent, int) else 0
            return digits // 2 if aggregate.startswith("sum_of_squares(") else digits
    return 0


if __name__ == "__main__":
    sys.exit(main())
