"""Schemas: what a cube is over."""
from __future__ import annotations

import contextlib
import copy
import json
import os
import tempfile
from dataclasses import dataclass, field
from typing import Any, Dict, Iterator, List, Mapping, Optional, Sequence, Tuple, Union

from ._errors import DatacubeError, Unsayable
from ._program import Path, run, words_of
from ._records import NULL

Grouping = Union[str, Sequence[Sequence[str]]]
NAMES = "dimensions", "measures", "aggregates", "grouping", "version", "max_records", "feed", "decimals", "texts"


@dataclass(frozen=True, init=False)
class Schema:
    """The names of dimensions and measures, the aggregates as `sum(amount)` or `percentile_disc(0.5,amount)`, and as the schema
    file has them the kept grouping sets, the version of feeds, the most records of a feed, the table `feed`, by which feeds are
    read by the names of their columns, the table `decimals`, which says how many decimals a measure has, and those measures that
    are texts, which are counted. The program checks it where it is used, or `check`."""

    dimensions: Tuple[str, ...]
    measures: Tuple[str, ...]
    aggregates: Tuple[str, ...]
    grouping: Union[str, Tuple[Tuple[str, ...], ...]]
    version: int
    max_records: Optional[int]
    feed: Optional[Mapping[str, Any]] = field(hash=False)
    decimals: Mapping[str, int] = field(hash=False)
    texts: Tuple[str, ...]
    # (the text of the file that it was read from, which a store notes)
    _text: Optional[str] = field(compare=False, repr=False, default=None)

    def __init__(
        self,
        dimensions: Sequence[str],
        measures: Sequence[str],
        aggregates: Sequence[str],
        *,
        grouping: Grouping = "cube",
        version: int = 1,
        max_records: Optional[int] = None,
        feed: Optional[Mapping[str, Any]] = None,
        decimals: Mapping[str, int] = {},
        texts: Sequence[str] = (),
    ) -> None:
        sets = grouping if isinstance(grouping, str) else tuple(tuple(it) for it in grouping)
        names = tuple(dimensions), tuple(measures), tuple(aggregates)
        for name, value in zip(NAMES, (*names, sets, version, max_records, copied(feed), copied(decimals), tuple(texts))):
            object.__setattr__(self, name, value)

    def nulls(self) -> List[str]:
        """The texts that are null in a change of a session."""
        return [NULL, *(self.feed.get("null", ()) if self.feed else ())]

    @classmethod
    def read(cls, path: Path) -> "Schema":
        """The schema of a TOML file, which the program has checked."""
        run(words_of("check", [], [os.fspath(path)]))
        with open(path, "rb") as file:
            text = file.read().decode("utf-8")
        schema = cls(**toml_of(text))
        object.__setattr__(schema, "_text", text)
        return schema

    def check(self) -> None:
        """Raises `Failure` with the code of the schema's first fault, if it has one."""
        with self.file() as path:
            run(words_of("check", [], [path]))

    def toml(self) -> str:
        """The schema as the text of a file: of the one that it was read from, where it was."""
        if self._text is not None:
            return self._text
        lines = [f"{name} = {quoted(getattr(self, name))}" for name in ("dimensions", "measures", "aggregates", "grouping")]
        lines.append(f"version = {self.version}")
        if self.max_records is not None:
            lines.append(f"max_records = {self.max_records}")
        if self.feed is not None:
            lines.append(f"feed = {quoted(self.feed)}")
        if self.decimals:
            lines.append(f"decimals = {quoted(self.decimals)}")
        if self.texts:
            lines.append(f"texts = {quoted(self.texts)}")
        return "\n".join(lines) + "\n"

    def remarked(self, remark: str) -> "Schema":
        """The same schema, whose file begins with a comment: a store that is made with it takes no other file."""
        schema = copy.copy(self)
        object.__setattr__(schema, "_text", f"# {remark}\n{self.toml()}")
        return schema

    @contextlib.contextmanager
    def file(self) -> Iterator[str]:
        """A file with the schema, for as long as it is used."""
        try:
            data = self.toml().encode("utf-8")
        except UnicodeEncodeError:
            raise Unsayable("a name of the schema can't be said in UTF-8") from None
        with tempfile.TemporaryDirectory(prefix="datacube-") as folder:
            path = os.path.join(folder, "schema.toml")
            with open(path, "wb") as out:
                out.write(data)
            yield path


def schema_of(schema: Union[Schema, Path]) -> Schema:
    """A schema that is given as itself or by its path."""
    return schema if isinstance(schema, Schema) else Schema.read(schema)


def copied(value: Any) -> Any:
    """A value of TOML, with lists and dicts in place of other sequences and mappings."""
    if isinstance(value, Mapping):
        return {name: copied(it) for name, it in value.items()}
    return [copied(it) for it in value] if isinstance(value, (list, tuple)) else value


def quoted(value: object) -> str:
    """A text, an array or a table in TOML: its strings are those of JSON, but that DEL is escaped too."""
    if isinstance(value, Mapping):
        return "{ " + ", ".join(f"{quoted(name)} = {quoted(it)}" for name, it in value.items()) + " }"
    if isinstance(value, (list, tuple)):
        return "[" + ", ".join(map(quoted, value)) + "]"
    return json.dumps(value, ensure_ascii=False).replace("\x7f", "\\u007f")


def toml_of(text: str) -> Dict[str, Any]:
    """The table of a TOML document."""
    try:
        import tomllib
    except ImportError:
        try:
            import tomli as tomllib
        except ImportError:
            raise DatacubeError("Python before 3.11 reads no TOML: install tomli, or give the schema by keywords") from None
    table: Dict[str, Any] = tomllib.loads(text)
    return table
