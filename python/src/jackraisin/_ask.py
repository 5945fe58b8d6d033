"""Questions over feeds, and the merging of cubes: each is one run of the program."""
from __future__ import annotations

import os
import tempfile
import warnings
from typing import Iterable, List, Optional, Sequence, Tuple, Union

from ._cells import Cell, Pattern, fields_of, text_of, word_of
from ._cube import Cube, Refusal, refusals_of
from ._errors import RefusedLines
from ._program import Limits, Path, Paths, Word, paths_of, run, run_with_told, words_of
from ._schema import Schema, schema_of

Given = Union[Schema, Path]
Shard = Tuple[int, int]
# (how many bytes: a number, or a text as 64K)
Size = Union[int, str]
Conditions = Union[str, Iterable[str]]
# (the program says no more of them where a store takes part)
REFUSED = "lines or changes were refused. jackraisin.refusals shows all."


def cube(
    schema: Given,
    feeds: Paths,
    *,
    threads: Optional[int] = None,
    shard: Optional[Shard] = None,
    max_record: Optional[Size] = None,
    partial: bool = False,
    store: Optional[Path] = None,
    wary: bool = False,
    where: Conditions = (),
    strict: bool = False,
    max_cells: Optional[int] = None,
    timeout: Optional[float] = None,
    max_memory: Optional[int] = None,
) -> Cube:
    """The whole cube of 1 to 64 feeds, or of one shard of them: the J-th of N, as (J, N). With `partial` each mean has its
    sum and count beside it, so that `merge` makes one cube of several. With a store, the path of the SQLite file of sessions,
    the changes that it keeps come after the feeds, of which there may be none then. With conditions it is the
    cube of the facts of which all of them hold: one as a text, or several, each as `city=York,Leeds` or `cents>=100`
    (docs/FORMATS.md). A record of a feed may have `max_record` bytes, a number or a text as `64K`; a longer one is a `Failure`,
    `F6`. Where it is strict, a refused line is one, `G7`; so is a whole cube of more than `max_cells` cells, `G8`. `partial`
    doesn't go with a store. A program that takes more seconds than `timeout` is killed (`TimedOut`); one that wants more bytes
    of memory than `max_memory` ends by a code (`Failure`)."""
    options = options_of(threads, shard, max_record, store, wary) + chosen(where, strict, max_cells)
    return asked("print", schema, feeds, [], options + ["--partial"] * partial, Limits(timeout, max_memory))


def slice(
    schema: Given,
    feeds: Paths,
    pattern: Pattern,
    *,
    threads: Optional[int] = None,
    shard: Optional[Shard] = None,
    max_record: Optional[Size] = None,
    store: Optional[Path] = None,
    wary: bool = False,
    where: Conditions = (),
    strict: bool = False,
    max_cells: Optional[int] = None,
    timeout: Optional[float] = None,
    max_memory: Optional[int] = None,
) -> Cube:
    """The rows that a pattern matches. A dimension that a mapping doesn't name is ALL: `{"city": ANY}` are the totals of
    each city, and of all. Feeds, shard, store, conditions and limits are those of `cube`, here and below."""
    schema = schema_of(schema)
    options = options_of(threads, shard, max_record, store, wary) + chosen(where, strict, max_cells)
    return asked("slice", schema, feeds, [word_of(fields_of(schema.dimensions, pattern))], options, Limits(timeout, max_memory))


def drill(
    schema: Given,
    feeds: Paths,
    cell: Cell,
    dimension: str,
    *,
    threads: Optional[int] = None,
    shard: Optional[Shard] = None,
    max_record: Optional[Size] = None,
    store: Optional[Path] = None,
    wary: bool = False,
    where: Conditions = (),
    strict: bool = False,
    max_cells: Optional[int] = None,
    timeout: Optional[float] = None,
    max_memory: Optional[int] = None,
) -> Cube:
    """The rows one step below a cell: those with each value of a dimension that is ALL in it."""
    schema = schema_of(schema)
    words = [word_of(fields_of(schema.dimensions, cell)), dimension.encode("utf-8")]
    options = options_of(threads, shard, max_record, store, wary) + chosen(where, strict, max_cells)
    return asked("drill", schema, feeds, words, options, Limits(timeout, max_memory))


def rollup(
    schema: Given,
    feeds: Paths,
    cell: Cell,
    dimension: str,
    *,
    threads: Optional[int] = None,
    shard: Optional[Shard] = None,
    max_record: Optional[Size] = None,
    store: Optional[Path] = None,
    wary: bool = False,
    where: Conditions = (),
    strict: bool = False,
    max_cells: Optional[int] = None,
    timeout: Optional[float] = None,
    max_memory: Optional[int] = None,
) -> Cube:
    """The row one step above a cell: the one with ALL at a dimension, or none where that is no cell of the cube."""
    schema = schema_of(schema)
    words = [word_of(fields_of(schema.dimensions, cell)), dimension.encode("utf-8")]
    options = options_of(threads, shard, max_record, store, wary) + chosen(where, strict, max_cells)
    return asked("rollup", schema, feeds, words, options, Limits(timeout, max_memory))


def refusals(
    schema: Given,
    feeds: Paths,
    *,
    shard: Optional[Shard] = None,
    max_record: Optional[Size] = None,
    store: Optional[Path] = None,
    wary: bool = False,
    timeout: Optional[float] = None,
    max_memory: Optional[int] = None,
) -> List[Refusal]:
    """The refused lines of feeds, or of one shard of them, and the refused changes of a store."""
    options = options_of(None, shard, max_record, store, wary)
    return refusals_of(answer("refusals", schema, feeds, [], options, Limits(timeout, max_memory))[1])


def merge(
    schema: Given,
    cubes: Iterable[Union[Cube, Path]],
    *,
    partial: bool = False,
    timeout: Optional[float] = None,
    max_memory: Optional[int] = None,
) -> Cube:
    """The cube of all the facts of 1 to 64 cubes, each of other facts: partial ones that `cube` or `merge` gave, or the paths
    of files with such. With `partial` it is partial again, so that merges nest."""
    with schema_of(schema).file() as path, tempfile.TemporaryDirectory(prefix="datacube-") as folder:
        paths = [written(it, os.path.join(folder, f"{at}.csv")) for at, it in enumerate(cubes)]
        return Cube(run(words_of("merge", ["--partial"] * partial, [path, *paths]), Limits(timeout, max_memory))[1])


def written(cube: Union[Cube, Path], path: str) -> str:
    """The path of a cube, which is written to this one where it has none."""
    if not isinstance(cube, Cube):
        return os.fspath(cube)
    cube.to_csv(path)
    return path


def options_of(
    threads: Optional[int], shard: Optional[Shard], max_record: Optional[Size], store: Optional[Path], wary: bool
) -> List[Word]:
    """The options of a command with feeds, spelled so that the path of a store isn't taken for one."""
    options: List[Word] = [] if threads is None else ["--threads", str(threads)]
    options += [] if shard is None else ["--shard", f"{shard[0]}/{shard[1]}"]
    options += [] if max_record is None else [f"--max-record={max_record}"]
    return options if store is None else [*options, f"--store={os.fspath(store)}"] + ["--wary"] * wary


def chosen(where: Conditions, strict: bool, max_cells: Optional[int]) -> List[Word]:
    """The options for conditions, of which one may stand alone, for a strict run, and for how many cells there may be; each
    word is UTF-8 whatever the locale."""
    conditions = [text_of(it, "a condition") for it in ([where] if isinstance(where, str) else where)]
    options: List[Word] = [b"--where=" + it.encode("utf-8") for it in conditions]
    options += [] if max_cells is None else [f"--max-cells={max_cells}"]
    return [*options, "--strict"] if strict else options


def asked(command: str, schema: Given, feeds: Paths, words: Sequence[Word], options: Sequence[Word], limits: Limits) -> Cube:
    """The rows that answer a question. Refused lines are warned of."""
    with schema_of(schema).file() as path:
        status, text, told = run_with_told(words_of(command, [*options, "--why"], [path, *words, *paths_of(feeds)]), limits)
    if status == 4:
        warnings.warn(told or REFUSED, RefusedLines, stacklevel=3)
    return Cube(text, status == 4)


def answer(
    command: str, schema: Given, feeds: Paths, words: Sequence[Word], options: Sequence[Word], limits: Limits
) -> Tuple[int, str]:
    """The status and the text of a command over feeds."""
    with schema_of(schema).file() as path:
        return run(words_of(command, options, [path, *words, *paths_of(feeds)]), limits)
