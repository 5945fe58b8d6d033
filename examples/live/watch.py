#!/usr/bin/env python3
"""A dashboard in the terminal: follows a growing file of changes, and shows a slice of the cube as it is now.

    examples/live/watch.py [--once] [--every SECONDS] [--program PATH] SCHEMA CELL CHANGES [FEED...]

A line of CHANGES is a change with its source before it, as `datacube live` takes it: `2,I,a7,York,tea,card,2,700`.
CELL is a pattern as `datacube slice` takes it: `'?,\\A,\\A'`. A line is taken once its line end is there, and what
changed since the last look is in bold. Ctrl-C ends it. Needs Python alone.
"""
import argparse
import contextlib
import csv
import fractions
import os
import queue
import re
import shutil
import signal
import sys
import threading
import time

import client

HERE = os.path.dirname(os.path.realpath(__file__))
ENTER, LEAVE, HOME, CLEAR, BOLD, PLAIN = "\x1b[?1049h\x1b[?25l", "\x1b[?25h\x1b[?1049l", "\x1b[H", "\x1b[J", "\x1b[1m", "\x1b[m"
SOURCE = re.compile(r"[1-9]|[1-5][0-9]|6[0-4]")


def lines_of(path, is_whole):
    """The lines of a file, each once its end is there; without end, unless the file is whole as it is."""
    with open(path, "rb") as file:
        line = b""
        while True:
            line += file.readline()
            if line.endswith(b"\n") or is_whole and line:
                yield line.decode("utf-8", "surrogateescape")
                line = b""
            elif is_whole:
                return
            else:
                time.sleep(0.05)


class Tail(threading.Thread):
    """Puts the records of a growing file in a queue, and None or what went wrong at its end."""

    def __init__(self, path, is_whole):
        super().__init__(daemon=True)
        self.lines, self.records = lines_of(path, is_whole), queue.Queue()

    def run(self):
        try:
            for record in csv.reader(self.lines):
                self.records.put(record)
            self.records.put(None)
        except (OSError, csv.Error) as why:
            self.records.put(why)

    def give(self, cube, seconds):
        """Gives the cube what comes in so many seconds, and what is there then: how many changes, and whether more may come."""
        count, until = 0, time.monotonic() + seconds
        while True:
            left = until - time.monotonic()
            try:
                record = self.records.get(left > 0, max(left, 0))
            except queue.Empty:
                return count, True
            if record is None:
                return count, False
            if isinstance(record, Exception):
                raise record
            if record:
                give_one(cube, record)
                count += 1


def give_one(cube, record):
    if not SOURCE.fullmatch(record[0]):
        raise ValueError(f"a line of changes begins with a source from 1 to 64, and {record[0]!r} is none")
    cube.send(record)


def shown(name, row, dimensions):
    """A field as it is shown: ALL and null told apart, a mean or a variance to two digits, and no control characters."""
    value = row[name]
    if value is None:
        return "(all)" if name in dimensions and row[f"grouping({name})"] == "1" else "(null)"
    if name.startswith(("avg(", "var_pop(", "var_samp(")) and name not in dimensions:
        return f"{float(fractions.Fraction(value)):.2f}"
    return "".join(it if it.isprintable() else ascii(it)[1:-1] for it in value)


def table_of(rows):
    """Rows as a table of texts, the names on top."""
    if not rows:
        return [["no such cell"]], 1
    dimensions = [it for it in rows[0] if f"grouping({it})" in rows[0]]
    marks = {f"grouping({it})" for it in dimensions}
    names = [it for it in rows[0] if it not in marks]
    return [names, *([shown(it, row, dimensions) for it in names] for row in rows)], len(dimensions)


def lines_of_table(table, count, before, room):
    """The lines of a table, as many as there is room for; in bold what isn't in the table before, by its first so many texts."""
    widths = [max(map(len, column)) for column in zip(*table)]
    was = {tuple(row[:count]): row for row in before}
    lines = []
    for at, row in enumerate(table[: max(room - 1, 2)]):
        cells = [it.ljust(width) if place < count else it.rjust(width) for place, (it, width) in enumerate(zip(row, widths))]
        old = was.get(tuple(row[:count]), [None] * len(row)) if before and at else row
        lines.append("  ".join(f"{BOLD}{cell}{PLAIN}" if new != it else cell for cell, new, it in zip(cells, row, old)))
    return lines + ([f"and {len(table) - len(lines)} rows more"] if len(lines) < len(table) else [])


@contextlib.contextmanager
def screen(out):
    """The other screen of a terminal, which is left whatever happens."""
    out.write(ENTER)
    try:
        yield
    finally:
        out.write(LEAVE)
        out.flush()


def watch(cube, cell, tail, seconds, out):
    """Shows the slice again and again."""
    before, changes = [], 0
    while True:
        rows, refused = cube.ask("slice", *cell), len(cube.refusals())
        (table, count), size = table_of(rows), shutil.get_terminal_size()
        head = f"{time.strftime('%H:%M:%S')}  {changes} changes, {refused} lines refused; Ctrl-C ends"
        lines = [head, "", *lines_of_table(table, count, before, size.lines - 3)]
        out.write(HOME + "".join(f"{line}\x1b[K\r\n" for line in lines) + CLEAR)
        out.flush()
        before = table
        changes += tail.give(cube, seconds)[0]


def once(cube, cell, tail, out):
    """Takes the changes that are there, and shows the slice without a terminal's marks."""
    is_more = True
    while is_more:
        _, is_more = tail.give(cube, 1)
    table, count = table_of(cube.ask("slice", *cell))
    out.writelines(line.rstrip() + "\n" for line in lines_of_table(table, count, [], len(table) + 1))


def interrupted(*_):
    raise KeyboardInterrupt


def main():
    asks = argparse.ArgumentParser(description=__doc__, formatter_class=argparse.RawDescriptionHelpFormatter)
    asks.add_argument("--once", action="store_true", help="take the changes that are there, show the slice once, and end")
    asks.add_argument("--every", type=float, default=0.5, metavar="SECONDS", help="how long to wait between two looks")
    asks.add_argument("--program", default=f"{HERE}/../../datacube")
    asks.add_argument("schema")
    asks.add_argument("cell")
    asks.add_argument("changes")
    asks.add_argument("feeds", nargs="*", metavar="feed")
    words = asks.parse_args()
    signal.signal(signal.SIGTERM, interrupted)
    cell, tail = next(csv.reader([words.cell])), Tail(words.changes, words.once)
    tail.start()
    cube = client.Cube(words.program, words.schema, *words.feeds)
    try:
        if words.once:
            once(cube, cell, tail, sys.stdout)
        else:
            with screen(sys.stdout):
                watch(cube, cell, tail, words.every, sys.stdout)
    except KeyboardInterrupt:
        cube.close()
        return
    except client.Ended as why:
        sys.exit(f"watch: datacube ended with {why}")
    except (client.Wrong, OSError, ValueError, csv.Error) as why:
        cube.close()
        sys.exit(f"watch: {why}")
    sys.exit(cube.close())


if __name__ == "__main__":
    main()
