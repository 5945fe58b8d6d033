"""Metrics for Prometheus: a slice of the cube, how its source is, and how the server is."""
from __future__ import annotations

import itertools
from typing import Any, Dict, Iterable, Iterator, List, Optional, Tuple

from prometheus_client import CollectorRegistry, Counter, Gauge, Histogram
from prometheus_client.core import GaugeMetricFamily
from prometheus_client.exposition import choose_encoder

from .._cube import Answer, Row, row_of
from .._metric_names import label_names, label_values, metric_names
from .._numbers import number_in
from .._records import NULL, VALUES, Columns, head_of, records_of
from ._served import ServedCube

SECONDS = (0.001, 0.0025, 0.005, 0.01, 0.025, 0.05, 0.1, 0.25, 0.5, 1, 2.5, 5, 10)
# (the columns of a printed cube, and what a text has that would be taken for null)
KINDS = ("", "grouping_", "is_text_")


class Metrics:
    """What is counted while the server runs. Of the rows of a slice so many are shown at most."""

    def __init__(self, source: ServedCube, most: int) -> None:
        self._source, self._most = source, most
        self._registry = CollectorRegistry()
        self._requests = Counter("datacube_serve_requests", "Requests that were answered.", ["path", "status"], registry=self._registry)
        self._seconds = Histogram("datacube_serve_seconds", "From a request's head to its answer.", ["path"], buckets=SECONDS, registry=self._registry)
        self._connections = Gauge("datacube_serve_connections", "Connections that there are.", registry=self._registry)

    def request(self, path: str, status: int, seconds: float) -> None:
        self._requests.labels(path, str(status)).inc()
        self._seconds.labels(path).observe(seconds)

    def text(self, accept: str, text: Optional[str], connections: int) -> Tuple[bytes, str]:
        """All metrics, those of a printed slice among them, in the form that is accepted, with its content type."""
        families, left_out = ([], 0) if text is None else families_of(text, self._source.is_escaped, self._source.subject, self._most)
        self._connections.set(connections)
        encode, kind = choose_encoder(accept)
        all_of_them: Any = Together(self._registry.collect(), self._source.families(left_out), families)
        return encode(all_of_them), kind


class Together:
    """Metrics of several origins, one behind the other, as what writes them takes a registry."""

    def __init__(self, *parts: Iterable[Any]) -> None:
        self._parts = parts

    def collect(self) -> Iterator[Any]:
        for part in self._parts:
            yield from part


def families_of(text: str, is_escaped: bool, subject: str, most: int) -> Tuple[List[Any], int]:
    """A metric for each aggregate of a printed cube but values, which are no number, over its first so many rows, and how many more rows it
    has."""
    columns = Columns(head_of(text)[0], is_escaped)
    with records_of(text) as records:
        next(records, None)
        rows = [row_of(columns, it) for it in itertools.islice(records, most)]
        left_out = sum(1 for _ in records)
    labels = label_names(columns.dimensions, KINDS)
    samples = [(labels_of(labels, row), row.answers) for row in rows]
    named = enumerate(zip(metric_names(columns.aggregates), columns.aggregates))
    shown = [(at, name, it) for at, (name, it) in named if not it.startswith(VALUES)]
    families = [family_of(name, f"{it} of {subject}.", [(its, answers[at]) for its, answers in samples]) for at, name, it in shown]
    return families, left_out


def family_of(name: str, text: str, samples: Iterable[Tuple[Dict[str, str], Answer]]) -> Any:
    """A metric, in which an answer that is null has no sample. Its labels are the columns of the printed cube: `\\N` is null, or ALL
    where GROUPING is 1, or it is that text where IS_TEXT is 1, which nothing else has."""
    family = GaugeMetricFamily(name, text)
    for labels, answer in samples:
        number = number_in(answer)
        if number is not None:
            family.add_sample(name, labels, float(number))
    return family


def labels_of(names: List[str], row: Row) -> Dict[str, str]:
    labels = dict(zip(names, label_values(row)))
    return {**labels, **{name: "1" for name, it in zip(names[len(labels) :], row.key) if it == NULL}}
