"""Frames of pandas, made of printed cubes, beside what pandas itself takes to read the same text."""
import gc
import io
import os
import random
import sys
import tempfile
import time

from measure import DATACUBE, ROOT, head, row

sys.path.insert(0, f"{ROOT}/python/src")
os.environ.setdefault("DATACUBE", DATACUBE)

CARDS = 400, 60, 25
DIMENSIONS = "city", "product", "day"
PLAIN = ["count(*)", "sum(m)", "min(m)", "max(m)"]
APART = ["count(*)", "sum(m)", "sum(n)", "sum(o)"]
MEANS = ["count(*)", "sum(m)", "avg(m)"]


def plain(name, at):
    return f"{name} {at}"


def accents(name, at):
    return f"{name} Ålesund-Łódź {at}"


def quoted(name, at):
    return f'"{name}, ""the {at}th"""'


# how texts are spelled, how many decimals the measures have, the share of nulls among its numbers, and the aggregates
KINDS = {
    "whole numbers": (plain, 0, 0.0, PLAIN),
    "whole numbers and null": (plain, 0, 0.3, PLAIN),
    "accents": (accents, 0, 0.0, PLAIN),
    "quoted texts": (quoted, 0, 0.0, PLAIN),
    "decimals": (plain, 2, 0.0, PLAIN),
    "decimals and null": (plain, 2, 0.3, PLAIN),
    "decimals of three measures": (plain, 2, 0.0, APART),
    "means of whole numbers": (plain, 0, 0.0, MEANS),
    "means of decimals": (plain, 2, 0.0, MEANS),
    "means and null": (plain, 2, 0.3, MEANS),
}


def printed(folder, kind, rows):
    """The printed cube of a kind, with so many rows."""
    import jackraisin

    spelled, places, nulls, aggregates = KINDS[kind]
    draw = random.Random(kind)
    measures = [it for it in "mno" if f"sum({it})" in aggregates]
    made = lambda units: r"\N" if draw.random() < nulls else f"{units / 100:.2f}" if places else str(units)
    path = f"{folder}/feed.csv"
    with open(path, "w", encoding="utf-8") as file:
        print(",".join(["op", "id", *DIMENSIONS, *measures]), file=file)
        for number in range(rows * 5 // 4):
            texts = [spelled(name, draw.randrange(card)) for name, card in zip(DIMENSIONS, CARDS)]
            values = [made(draw.randrange(-(10**6), 10**8)) for _ in measures]
            print(",".join(["I", str(number), *texts, *values]), file=file)
    schema = jackraisin.Schema(DIMENSIONS, measures, aggregates, decimals=dict.fromkeys(measures, places) if places else {})
    lines = jackraisin.cube(schema, path).text.splitlines(keepends=True)
    if len(lines) <= rows:
        sys.exit(f"{kind}: the cube has {len(lines) - 1} rows alone")
    return "".join(lines[: rows + 1])


def best(calls, runs):
    """The best processor seconds of each call, over so many runs in turn."""
    found = [[] for _ in calls]
    for _ in range(runs):
        for call, seconds in zip(calls, found):
            gc.collect()
            start = time.process_time()
            made = call()
            seconds.append(time.process_time() - start)
            del made
    return list(map(min, found))


def measure(asked):
    """Makes frames of printed cubes by `Cube.to_pandas`, and prints what it took beside `pandas.read_csv` of the same text.

    Each cube is one that the program prints over a feed that is made anew, cut off behind N rows: of whole numbers, of texts with
    accents and in quotes, of decimals, and with means; nearly each number is another. The two calls take turns in one process, and
    the best of N runs of each counts, in processor seconds of one thread, which other work on the machine changes least.
    `pandas.read_csv` has its defaults, and the text in memory, as `Cube.to_pandas` has. The status is 1 where a frame took more than
    `--times` times as long."""
    import pandas

    import jackraisin

    slow = []
    head(f"{asked.rows} rows", "to_pandas, s", "read_csv, s", "times")
    for kind in KINDS:
        with tempfile.TemporaryDirectory() as folder:
            text = printed(folder, kind, asked.rows)
        ours, theirs = best([lambda: jackraisin.Cube(text).to_pandas(), lambda: pandas.read_csv(io.StringIO(text))], asked.runs)
        row(kind, f"{ours:.3f}", f"{theirs:.3f}", f"{ours / theirs:.2f}")
        slow += [kind] * (ours > asked.times * theirs)
    return 1 if slow else 0
