"""How a cube is named in the metrics of Prometheus: its aggregates are metrics, and its columns are labels."""
from __future__ import annotations

import re
from typing import Iterable, List, Sequence

from ._cells import ALL
from ._cube import Row
from ._records import NULL


def metric_names(aggregates: Sequence[str]) -> List[str]:
    """`datacube_sum_cents` of `sum(cents)`, and `datacube_count` of `count(*)`."""
    return unique("datacube_" + re.sub(r"[^A-Za-z0-9_]+", "_", it).strip("_") for it in aggregates)


def label_names(dimensions: Sequence[str], kinds: Sequence[str] = ("", "grouping_")) -> List[str]:
    """The dimensions and their GROUPING columns, and columns of other kinds, as labels are spelled."""
    return unique(label_name(f"{kind}{it}") for kind in kinds for it in dimensions)


def label_name(text: str) -> str:
    name = re.sub(r"[^A-Za-z0-9_]", "_", text)
    return name if re.match(r"[A-Za-z]", name) else f"d_{name}"


def label_values(row: Row) -> List[str]:
    """The printed columns of a row: `\\N` is null, or ALL where GROUPING is 1, since an empty label is none."""
    texts = [it if isinstance(it, str) else NULL for it in row.key]
    return [*texts, *("1" if it is ALL else "0" for it in row.key)]


def unique(names: Iterable[str]) -> List[str]:
    """Names of which none is twice there: a later one gets a number."""
    found: List[str] = []
    for name in names:
        count = 1
        while (name if count == 1 else f"{name}_{count}") in found:
            count += 1
        found.append(name if count == 1 else f"{name}_{count}")
    return found
