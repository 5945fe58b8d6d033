"""Sessions: `live` beside PostgreSQL, and with a store beside C's SQLite by Python on the same disk."""
import os
import random
import sqlite3
import statistics
import subprocess
import sys
import tempfile
import time

import programs
import sql
import workloads
from measure import DATACUBE, run
from oracle import digests_of
from processes import say_times as said

RECORDS, CARDS, MEASURES = workloads.WORKLOADS["tall"][:3]
DIMENSIONS = [f"d{at + 1}" for at in range(len(CARDS))]
TOTAL = ",".join(["\\A"] * len(CARDS))
# What a cell with many values is asked.
AGGREGATES = ("count(*)", "min(m)", "count(distinct m)", "percentile_disc(0.5,m)", "sum_of_squares(m)", "var_samp(m)", "values(m)")


class Session:
    """A running `live`, asked by bytes."""

    def __init__(self, schema, feeds, options, program=None):
        words = [*(program or [DATACUBE]), "live", *options, schema, *feeds]
        self.process = subprocess.Popen(words, stdin=subprocess.PIPE, stdout=subprocess.PIPE)

    def ask(self, records):
        """Sends records of which the last alone is a question; gives its answer, and the seconds until it was there."""
        start = time.perf_counter()
        self.process.stdin.write(records)
        self.process.stdin.flush()
        line = self.process.stdout.readline().split()
        if line[:1] != [b"ok"]:
            sys.exit(f"live answered {line}")
        text = self.process.stdout.read(int(line[1]))
        return text, time.perf_counter() - start

    def most_memory(self):
        """The largest memory until now, in MiB."""
        lines = programs.text_at(f"/proc/{self.process.pid}/status").splitlines()
        return next(int(line.split()[1]) for line in lines if line.startswith("VmHWM")) / 1024

    def end(self):
        self.process.stdin.close()
        return self.process.wait()


class Changes:
    """Changes of source 2, each of an id that fits: 4 inserts, 3 updates and 3 deletes of ten."""

    def __init__(self, seed):
        self.pick, self.present, self.next = random.Random(seed), [], 1

    def one(self):
        kind = self.pick.random()
        if kind < 0.3 and self.present:
            at = self.pick.randrange(len(self.present))
            self.present[at], self.present[-1] = self.present[-1], self.present[at]
            return f"2,D,{self.present.pop()}\n"
        if kind < 0.6 and self.present:
            return f"2,U,{self.pick.choice(self.present)},{self.values()}\n"
        self.present.append(f"change-{self.next}")
        self.next += 1
        return f"2,I,{self.present[-1]},{self.values()}\n"

    def values(self):
        return workloads.values(self.pick, CARDS, MEASURES)

    def batch(self, count):
        return "".join(self.one() for _ in range(count))


def cell_questions(pick, count):
    """Questions of one cell each, of all grouping sets alike, the grand total first."""
    yield f"slice,{TOTAL}\n".encode()
    for _ in range(count - 1):
        cell = [f"=value-{int(card * pick.random() ** 1.5)}" if pick.random() < 0.5 else "\\A" for card in CARDS]
        yield ("slice," + ",".join(cell) + "\n").encode()


def measure(schema, feeds, batches, many, options):
    """Measures a session over these feeds, by these options of `live`."""
    start = time.perf_counter()
    session = Session(schema, feeds, options)
    session.ask(f"slice,{TOTAL}\n".encode())
    print(f"{'until the first answer':44} {time.perf_counter() - start:.2f} s")
    print(f"{'largest memory, MiB':44} {session.most_memory():.0f}; of print {run([DATACUBE, 'print', schema, *feeds])[0].memory:.0f}")
    questions = list(cell_questions(random.Random("cells"), 1000))
    said("a question of one cell", [session.ask(it)[1] for it in questions])
    changes = Changes("changes")
    asks = f"rollup,d1,{TOTAL}\n"
    times = [session.ask((changes.batch(1000) + asks).encode())[1] for _ in range(batches + 1)]
    print(f"{'the first 1,000 changes and an answer':44} {times[0] * 1000:.3f} ms")
    said("1,000 changes and an answer", times[1:])
    said("a question of one cell after them", [session.ask(it)[1] for it in questions])
    said("a slice of one open dimension", [session.ask(b"slice,?,\\A,\\A,\\A\n")[1] for _ in range(50)])
    said("a drill-down from the grand total", [session.ask(f"drill,d1,{TOTAL}\n".encode())[1] for _ in range(50)])
    if many:
        before = session.most_memory()
        seconds = sum(session.ask((changes.batch(10_000) + asks).encode())[1] for _ in range(many // 10_000))
        print(f"{many} changes more: {seconds:.2f} s, {session.most_memory() - before:.0f} MiB")
    session.end()


def measure_cell(program, schema, feed, count):
    """Measures a question of one cell with so many values, at first and after changes of some."""
    session, pick = Session(schema, [feed], [], program), random.Random("updates")
    ask = b"slice,\\A\n"
    update = lambda: b"1,U,%d,,%d\n" % (pick.randrange(count), pick.randrange(-(2**31), 2**31))
    session.ask(ask)
    said("  at first", [session.ask(ask)[1] for _ in range(25)])
    session.ask(b"".join(update() for _ in range(1000)) + ask)
    said("  an update and the question, after 1,000", [session.ask(update() + ask)[1] for _ in range(25)])
    session.end()


def cell(asked):
    """Measures a question of one cell that has many different values of 32 bits, by each aggregate.

    It is timed through the pipe, of a session over a feed of so many facts: before any change, and each time after an update."""
    numbers = random.Random("cell").sample(range(-(2**31), 2**31), asked.values)
    beside = [asked.beside.split()] if asked.beside else []
    with tempfile.TemporaryDirectory() as folder:
        schema, feed = f"{folder}/schema.toml", f"{folder}/feed.csv"
        programs.write(feed, "op,id,k,m\n" + "".join(f"I,{at},,{it}\n" for at, it in enumerate(numbers)))
        for aggregate in AGGREGATES:
            programs.write(schema, f'dimensions = ["k"]\nmeasures = ["m"]\naggregates = ["{aggregate}"]\n')
            for program in [[DATACUBE], *beside]:
                print(aggregate, "of", os.path.relpath(program[0]))
                measure_cell(program, schema, feed, asked.values)
    return 0


def measure_postgres(feeds, runs):
    """Measures PostgreSQL over the same facts."""
    columns = [f"{it} text" for it in DIMENSIONS] + [f"{it} bigint" for it in MEASURES]
    shown = [*DIMENSIONS, *(f"grouping({it}) AS g_{it}" for it in DIMENSIONS), "count(*)"]
    shown += [f"{kind}({it}) AS {kind}_{it}" for it in MEASURES for kind in ("sum", "min", "max", "avg")]
    cube = f"SELECT {', '.join(shown)} FROM facts GROUP BY CUBE ({', '.join(DIMENSIONS)})"
    with tempfile.TemporaryDirectory() as room, sql.Server(sql.newest_server(), room, [*sql.SETTINGS, "shared_buffers=1GB", "work_mem=1GB"]) as server:
        server.ask(f"CREATE UNLOGGED TABLE facts (op text, id text PRIMARY KEY, {', '.join(columns)});".encode())
        for feed in feeds:
            server.ask(b"COPY facts FROM STDIN (FORMAT csv);\n" + programs.read(feed).partition(b"\n")[2] + b"\\.\n")
        server.ask(f"ANALYZE facts; CREATE MATERIALIZED VIEW kept AS {cube};".encode())
        change = "UPDATE facts SET amount = amount + 1 WHERE id IN (SELECT id FROM facts LIMIT 1000);"
        timed = {"PostgreSQL: REFRESH of its CUBE": "REFRESH MATERIALIZED VIEW kept;",
                 "PostgreSQL: GROUP BY CUBE anew": f"SELECT count(*) FROM ({cube}) AS anew;"}
        for name, job in timed.items():
            seconds = []
            for _ in range(runs):
                server.ask(change.encode())
                start = time.perf_counter()
                server.ask(job.encode())
                seconds.append(time.perf_counter() - start)
            said(name, seconds)


def live(asked):
    """Measures `live` beside PostgreSQL: batches of a thousand changes, questions of one cell, and memory.

    The facts are those of the workload `tall`. A batch is 1,000 changes and a question, timed from the first byte to the answer's last. A
    question of one cell is timed so too, through the pipe. Where PostgreSQL is installed, it has the same facts in a table, and refreshes a
    materialized view of the same CUBE, or computes it anew, after each batch."""
    with tempfile.TemporaryDirectory() as folder:
        schema, *feeds = workloads.make(folder, "tall", 1, asked.facts / RECORDS)
        options = ["--threads", str(asked.threads)] if asked.threads != os.cpu_count() else []
        measure(schema, feeds, asked.batches, asked.many, options)
        if sql.newest_server():
            measure_postgres(feeds, 5)
        else:
            print("left out, since it isn't installed: PostgreSQL")


SCHEMA = 'dimensions = ["place", "kind"]\nmeasures = ["amount"]\naggregates = ["count(*)", "sum(amount)"]\nmax_records = 2000000000\n'
ASKS = b"rollup,place,\\A,\\A\n"
TABLE = "CREATE TABLE changes(number INTEGER PRIMARY KEY, source INTEGER NOT NULL, record BLOB NOT NULL, digest BLOB NOT NULL)"


def change(number):
    """The record of a change, as a line: 39 bytes of a record, or so."""
    return f"1,I,change-{number:09},place-{number % 40:03},tea,{number % 1000}\n".encode()


def middle(seconds):
    """The middle of times, in milliseconds."""
    return statistics.median(seconds) * 1000


def sync(folder, times):
    """What a sync takes after 200 bytes more in a file."""
    seconds = []
    with open(f"{folder}/synced", "wb", buffering=0) as file:
        for _ in range(times):
            file.write(bytes(200))
            start = time.perf_counter()
            os.fdatasync(file.fileno())
            seconds.append(time.perf_counter() - start)
    return middle(seconds)


def one_by_one(schema, options, times):
    """What a change and an answer to it take."""
    session = Session(schema, [], options)
    session.ask(ASKS)
    seconds = [session.ask(change(number) + ASKS)[1] for number in range(times)]
    session.end()
    return middle(seconds)


def in_bulk(schema, options, records):
    """The seconds that many changes and one answer behind them take."""
    session = Session(schema, [], options)
    session.ask(ASKS)
    _, seconds = session.ask(records + ASKS)
    session.end()
    return seconds


def until_asked(schema, feeds, options):
    """The seconds from a session's start to its first answer."""
    start = time.perf_counter()
    session = Session(schema, feeds, options)
    session.ask(ASKS)
    seconds = time.perf_counter() - start
    session.end()
    return seconds


def opened(path):
    """A database of SQLite that syncs at each commit."""
    base = sqlite3.connect(path, isolation_level=None)
    base.execute("PRAGMA journal_mode=WAL")
    base.execute("PRAGMA synchronous=FULL")
    base.execute(TABLE)
    return base


def rows_of(count):
    """So many rows as a store has them, with their digests."""
    rows = [(number + 1, 1, change(number)[:-1]) for number in range(count)]
    return [(*row, digest) for row, digest in zip(rows, digests_of(rows))]


def sqlite_one_by_one(path, times):
    """What SQLite takes for a row and a commit."""
    base, seconds = opened(path), []
    for row in rows_of(times):
        start = time.perf_counter()
        base.execute("INSERT INTO changes VALUES (?, ?, ?, ?)", row)
        seconds.append(time.perf_counter() - start)
    base.close()
    return middle(seconds)


def sqlite_in_bulk(path, count):
    """The seconds that SQLite takes for many rows, with a commit after each 10,000."""
    base, rows = opened(path), rows_of(count)
    start = time.perf_counter()
    for first in range(0, count, 10_000):
        base.execute("BEGIN")
        base.executemany("INSERT INTO changes VALUES (?, ?, ?, ?)", rows[first : first + 10_000])
        base.execute("COMMIT")
    seconds = time.perf_counter() - start
    base.close()
    return seconds


def store(asked):
    """Measures `live --store` beside a session without a store, and beside C's SQLite by Python on the same disk.

    One change and one answer are timed from the first byte to the answer's last, over a store without a row; a sync of the disk is timed
    beside it. Changes in bulk come with one question behind them, with a store and without; what they take more with it is what storing them
    takes. A start over as many stored changes is timed until its first answer, beside one that has them in a feed. SQLite has the same rows in
    the same table, with digests that were made before, in a log (WAL) that each commit syncs."""
    with tempfile.TemporaryDirectory(dir=asked.folder) as folder:
        schema, feed, store = f"{folder}/schema.toml", f"{folder}/feed.csv", lambda name: ["--store", f"{folder}/{name}.db"]
        programs.write(schema, SCHEMA)
        print(f"{'a sync':52} {sync(folder, asked.answers):9.3f} ms")
        print(f"{'a change and an answer, no store':52} {one_by_one(schema, [], asked.answers):9.3f} ms")
        print(f"{'a change and an answer, a store':52} {one_by_one(schema, store('one'), asked.answers):9.3f} ms")
        print(f"{'a change and an answer, a wary store':52} {one_by_one(schema, [*store('wary'), '--wary'], asked.answers):9.3f} ms")
        print(f"{'a row and a commit, SQLite by Python':52} {sqlite_one_by_one(f'{folder}/c.db', asked.answers):9.3f} ms", flush=True)
        records = b"".join(map(change, range(asked.changes)))
        plain, kept = in_bulk(schema, [], records), in_bulk(schema, store("bulk"), records)
        each = 1e6 / asked.changes
        print(f"{asked.changes} changes and an answer: {plain:.2f} s, with a store {kept:.2f} s, {(kept - plain) * each:.2f} µs each for storing them")
        print(f"{asked.changes} rows, SQLite by Python: {sqlite_in_bulk(f'{folder}/bulk_c.db', asked.changes) * each:.2f} µs each")
        programs.write(feed, b"op,id,place,kind,amount\n" + b"".join(line[2:] for line in records.splitlines(keepends=True)))
        stored, fed, empty = until_asked(schema, [], store("bulk")), until_asked(schema, [feed], []), until_asked(schema, [], [])
        print(f"until the first answer: {stored:.2f} s over the stored changes, {fed:.2f} s over a feed of the same, {empty:.3f} s over nothing")
        print(f"the store's file: {os.path.getsize(f'{folder}/bulk.db') / asked.changes:.1f} bytes a change")
