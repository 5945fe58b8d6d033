#!/usr/bin/env python3
"""A cube that stays, from Python: changes go in by a pipe, and rows come out as dictionaries. Needs Python alone.

    examples/live/client.py [PROGRAM]      # a morning in the shop of examples/shop

The package `python/` of this repository has the same with types, threads and clear errors; this is to be read.
"""
import csv
import io
import os
import subprocess
import sys

ANY, ALL, KEEP = object(), object(), object()
csv.field_size_limit(2**31 - 1)


class Wrong(Exception):
    """The code by which a question was refused; `datacube explain CODE` says what it means."""


class Ended(Exception):
    """The program ended by itself: its status, and the line that it said."""


class Cube:
    """A running `datacube live`. None is null, in changes, in cells and in rows; a row's GROUPING columns tell ALL apart."""

    def __init__(self, program, schema, *feeds):
        pipes = dict.fromkeys(("stdin", "stdout", "stderr"), subprocess.PIPE)
        # (in a session of its own, so that Ctrl-C in a terminal is for Python alone)
        self.live = subprocess.Popen([program, "live", schema, *feeds], start_new_session=True, **pipes)
        self.input = io.TextIOWrapper(self.live.stdin, encoding="utf-8", errors="surrogateescape", newline="")
        self.records = csv.writer(self.input)

    def __enter__(self):
        return self

    def __exit__(self, *_):
        self.close()

    def insert(self, source, name, *values):
        self.change(source, "I", name, *values)

    def update(self, source, name, *values):
        """KEEP leaves a value as it is, where the schema says `version = 2`."""
        self.change(source, "U", name, *values)

    def delete(self, source, name):
        self.change(source, "D", name)

    def change(self, source, op, name, *values):
        self.send([source, op, name, *({None: "\\N", KEEP: "\\="}.get(it, it) for it in values)])

    def print(self):
        return self.ask("print")

    def slice(self, *pattern):
        return self.ask("slice", *map(spelled, pattern))

    def drill(self, dimension, *cell):
        return self.ask("drill", dimension, *map(spelled, cell))

    def rollup(self, dimension, *cell):
        return self.ask("rollup", dimension, *map(spelled, cell))

    def refusals(self, *source_and_record):
        """The refused lines of all sources, or those of one after one of its records."""
        return self.ask("refusals", *source_and_record)

    def ask(self, *fields):
        """Asks a question over all changes until now, and gives the rows of its answer."""
        self.send(fields, at_once=True)
        first = self.live.stdout.readline().decode().strip()
        if not first:
            raise self.ended()
        if not first.startswith("ok "):
            raise Wrong(first)
        text = self.live.stdout.read(int(first[3:])).decode()
        rows = csv.DictReader(io.StringIO(text, newline=""))
        return [{name: None if it == "\\N" else it for name, it in row.items()} for row in rows]

    def send(self, fields, at_once=False):
        try:
            self.records.writerow(fields)
            if at_once:
                self.input.flush()
        except BrokenPipeError:
            raise self.ended() from None

    def ended(self):
        status, said = self.close(), self.said
        return Ended(f"status {status}, {said or 'and it said nothing'}")

    def close(self):
        """Ends the session, and gives its status: 4 where a line or a change was refused, else 0."""
        try:
            self.input.close()
        except BrokenPipeError:
            pass
        self.live.stdout.close()
        if not self.live.stderr.closed:
            self.said = self.live.stderr.read().decode().strip()
            self.live.stderr.close()
        return self.live.wait()


def spelled(value):
    """A field of a pattern or a cell."""
    return {ANY: "?", ALL: "\\A", None: "\\N"}.get(value, f"={value}")


if __name__ == "__main__":
    here = os.path.dirname(os.path.realpath(__file__))
    program = sys.argv[1] if len(sys.argv) > 1 else f"{here}/../../datacube"
    with Cube(program, f"{here}/../shop/schema.toml", f"{here}/../shop/market.csv") as cube:
        print([(it["city"], it["count(*)"], it["sum(cents)"]) for it in cube.drill("city", ALL, ALL, ALL)])
        cube.insert(2, "a7", "York", "tea", "card", 2, 700)
        cube.update(1, "1", KEEP, KEEP, "card", KEEP, KEEP)
        cube.delete(1, "2")
        print([(it["city"], it["count(*)"], it["sum(cents)"]) for it in cube.drill("city", ALL, ALL, ALL)])
        print(cube.slice(ALL, ALL, "card"))
        print(cube.refusals())
