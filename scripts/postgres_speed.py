#!/usr/bin/env python3
"""Measures a follower of a PostgreSQL table: what it costs the writers, and how fresh its answers are.

    scripts/postgres_speed.py [--mode MODE] [--seconds N] [--rounds N] [--rows N] [--rate N] [--probes N]

A private server (with the settings of a new one, but wal_level) has a table of N rows (200,000). pgbench has four clients
make transactions of one row each, as fast as they go, in rounds with and without a follower, in turn (6 rounds of 3 seconds):
first with commits that wait for the disk, then with `synchronous_commit = off`, which shows more of the processors' work. Then
it makes 1,000 transactions a second, and a probe commits a sale to a city of its own and asks for that city's cell until
the sale is in it: the time from the end of the commit to the end of the answer, 500 times. Needs Debian's packages
postgresql and python3-psycopg2, which is of Debian's Python; where one isn't there, the status is 77.

`--mode store` measures a start over a store of N rows instead, beside that of the copy; `--mode readers` the time from commit to
answer without readers, and with six that ask for a whole cube of 5 MB again and again.
"""
import contextlib
import functools
import importlib.util
import os
import re
import resource
import statistics
import subprocess
import sys
import tempfile
import threading
import time

sys.dont_write_bytecode = True
import processes
import programs
import sql

ROOT = programs.ROOT
sys.path.insert(0, f"{ROOT}/python/src")
os.environ.setdefault("DATACUBE", programs.datacube())
CLIENTS, CITIES, PRODUCTS = 4, 50, 200
SETTINGS = ["listen_addresses=", "wal_level=logical"]
TABLE = f"""
CREATE TABLE sales (id bigserial PRIMARY KEY, city text, product text, cents bigint);
INSERT INTO sales (city, product, cents)
    SELECT 'city ' || n % {CITIES}, 'product ' || n % {PRODUCTS}, n % 10000 FROM generate_series(1, ROWS) AS n;
ANALYZE sales; CHECKPOINT;
"""
# of ten transactions so many are of a kind
SCRIPTS = {
    5: f"\\set n random(1, 1000000)\nINSERT INTO sales (city, product, cents) VALUES ('city ' || :n % {CITIES}, 'product ' || :n % {PRODUCTS}, :n % 10000);\n",
    4: "\\set id random(1, ROWS)\n\\set n random(1, 10000)\nUPDATE sales SET cents = :n, product = 'product ' || :n % 200 WHERE id = :id;\n",
    1: "\\set id random(1, ROWS)\nDELETE FROM sales WHERE id = :id;\n",
}
TOTALS = b"COPY (SELECT count(*), sum(cents), min(cents), max(cents) FROM sales) TO STDOUT"
MANY_CELLS = "INSERT INTO sales (city, product, cents) SELECT 'a city ' || n / 200, 'product ' || n % 200, n FROM generate_series(1, 100000) AS n;"
READERS = 6
SCHEMA = 'dimensions = ["city", "product"]\nmeasures = ["cents"]\naggregates = ["count(*)", "sum(cents)", "min(cents)", "max(cents)", "avg(cents)"]\n'


class Bench:
    """A private server with the table, and pgbench on it."""

    def __init__(self, server, room, rows, table):
        self.server, self.room = server, room
        self.dsn = f"host={server.room} user=datacube dbname=postgres"
        self.schema = self.write("schema.toml", SCHEMA)
        self.scripts = [f"{self.write(f'{weight}.sql', text.replace('ROWS', str(rows)))}@{weight}" for weight, text in SCRIPTS.items()]
        server.ask(table.replace('ROWS', str(rows)).encode())

    def write(self, name, text):
        programs.write(f"{self.room}/{name}", text)
        return f"{self.room}/{name}"

    def writing(self, seconds, *more, waits=True):
        """pgbench, which writes for so many seconds; each commit waits for the disk, or none does."""
        files = [word for it in self.scripts for word in ("-f", it)]
        words = ["-n", "-c", str(CLIENTS), "-T", str(seconds), *files, *more, "-h", self.server.room, "-U", "datacube", "postgres"]
        env = {**os.environ, "PGOPTIONS": f"-c synchronous_commit={'on' if waits else 'off'}"}
        pipes = {"stdout": subprocess.PIPE, "stderr": subprocess.STDOUT, "text": True, "env": env}
        return subprocess.Popen([f"{self.server.binaries}/pgbench", *words], **pipes)

    def commits(self, seconds, waits):
        """How many transactions a second are committed."""
        said = self.writing(seconds, waits=waits).communicate()[0]
        found = re.search(r"tps = ([0-9.]+) \(without", said)
        return float(found[1]) if found else sys.exit(said)

    @contextlib.contextmanager
    def busy(self, rate):
        """Has pgbench make so many transactions a second while a block runs, two seconds before it begins."""
        writing = self.writing(3600, "-R", str(rate))
        try:
            time.sleep(2)
            yield
        finally:
            writing.terminate()
            writing.wait()

    @contextlib.contextmanager
    def followed(self):
        """A follower that is a process of its own, while a block runs."""
        words = ["-m", "jackraisin.postgres", "--dsn", self.dsn, "--table", "sales", "--schema", self.schema]
        env = {**os.environ, "PYTHONPATH": f"{ROOT}/python/src"}
        pipes = {"stdin": subprocess.PIPE, "stdout": subprocess.PIPE, "stderr": subprocess.DEVNULL}
        process = subprocess.Popen([sys.executable, *words], env=env, **pipes)
        process.stdin.write(b"slice,\\A,\\A\n")
        process.stdin.flush()
        process.stdout.readline()
        yield process
        process.stdin.close()
        process.stdout.read()
        process.wait()


def cost(bench, rounds, seconds, waits):
    """The writers' speed with and without a follower."""
    found = {False: [], True: []}
    bench.commits(seconds, waits)
    for at in range(rounds):
        # (each is the first of two in every other round)
        for has_follower in (at % 2 == 1, at % 2 == 0):
            with bench.followed() if has_follower else contextlib.nullcontext():
                found[has_follower].append(bench.commits(seconds, waits))
    for has_follower, name in ((False, "without a follower"), (True, "with a follower")):
        of_all = ", ".join(f"{it:.0f}" for it in found[has_follower])
        how = "commits" if waits else "commits that don't wait"
        print(f"{f'{how} a second, {name}':56} median {statistics.median(found[has_follower]):.0f} ({of_all})", flush=True)


def freshness(bench, rate, probes, questions):
    """The time from commit to answer, and that of a question, while others write."""
    from jackraisin.postgres import Follower

    start = time.perf_counter()
    with Follower(bench.dsn, "sales", bench.schema) as follower:
        state = follower.wait()
        print(f"{'until the first answer':56} {time.perf_counter() - start:.2f} s, over {state.rows_copied} rows")
        with bench.busy(rate):
            before, start = follower.state.transactions, time.perf_counter()
            said("from commit to answer", list(probed(bench, probes, answers_of(follower))))
            rate = (follower.state.transactions - before) / (time.perf_counter() - start)
            print(f"{'transactions a second meanwhile':56} {rate:.0f}")
            said("a question of one cell", [asked(follower, at) for at in range(questions)])
        long_transaction(bench, follower)


def starts(bench, rows):
    """The seconds of a start without a store, of the one that makes it, and of those over it."""
    from jackraisin.postgres import Follower

    store = f"{bench.room}/sales.db"
    for name, path in (("without a store", None), ("that makes the store", store), ("over the store", store), ("over the store, 10,000 changes behind", store)):
        if "changes" in name:
            bench.server.ask(b"UPDATE sales SET cents = cents + 1 WHERE id <= 10000;")
        start, of_processors = time.perf_counter(), processor_seconds()
        with Follower(bench.dsn, "sales", bench.schema, store=path) as follower:
            state = follower.wait()
            spent = time.perf_counter() - start
            answers, of_sql = follower.slice({})[0].answers[:-1], bench.server.ask(TOTALS).decode().split()
            is_same = [str(it) for it in answers] == of_sql
        copies = f"{state.copies} copies, {'the totals of the table' if is_same else 'OTHER TOTALS THAN THE TABLE'}"
        of_processors = processor_seconds() - of_processors
        print(f"{f'a start {name}':56} {spent:.2f} s ({of_processors:.2f} processor s until its end), over {rows} rows, {copies}", flush=True)
    print(f"{'the store':56} {os.path.getsize(store) / 2**20:.0f} MiB")


def processor_seconds():
    """What this process and its children that have ended, as the program of a session, have used; the server's isn't among it."""
    return sum(it.ru_utime + it.ru_stime for it in map(resource.getrusage, (resource.RUSAGE_SELF, resource.RUSAGE_CHILDREN)))


def beside_readers(bench, rate, probes):
    """The time from commit to answer, without and with six who ask for a whole cube again and again."""
    from jackraisin.postgres import Follower

    bench.server.ask(MANY_CELLS.encode())
    with Follower(bench.dsn, "sales", bench.schema) as follower:
        follower.wait()
        text = follower.ask("print")
        print(f"{'the whole cube':56} {len(text) / 10**6:.1f} MB")
        over = threading.Event()
        readers = [threading.Thread(target=read_again_and_again, args=[follower, over]) for _ in range(READERS)]
        with bench.busy(rate):
            said("from commit to answer, without readers", list(probed(bench, probes, answers_of(follower))))
            for it in readers:
                it.start()
            try:
                said("from commit to answer, beside six readers", list(probed(bench, probes, answers_of(follower))))
                said("from commit to where the follower is, beside them", list(probed(bench, probes, lambda _, lsn: [follower.wait_for(lsn)])))
            finally:
                over.set()
        for it in readers:
            it.join()


def read_again_and_again(follower, over):
    while not over.is_set():
        follower.ask("print")


def long_transaction(bench, follower):
    """One transaction that changes many rows, and questions until it is there."""
    before = follower.catch_up()
    bench.server.ask(b"UPDATE sales SET cents = cents + 1 WHERE id <= 100000;")
    start, asks = time.perf_counter(), []
    while follower.state.transactions == before.transactions:
        asks.append(asked(follower, len(asks)))
    print(f"{'a transaction of many changes, from commit to answer':56} {time.perf_counter() - start:.2f} s, of {follower.state.changes - before.changes}")
    said("a question of one cell until then", asks)


def probed(bench, count, is_there):
    """The seconds from the end of each commit, of a sale to a city of its own, until a call says that it is there: that is told the city
    and where the log was."""
    import psycopg2

    with contextlib.closing(psycopg2.connect(bench.dsn)) as connection, connection.cursor() as cursor:
        for _ in range(count):
            city = f"probe {time.monotonic_ns()}"
            cursor.execute("INSERT INTO sales (city, product, cents) VALUES (%s, 'probe', 1) RETURNING pg_current_wal_insert_lsn() - '0/0'", [city])
            lsn = int(cursor.fetchone()[0])
            connection.commit()
            start = time.perf_counter()
            while not is_there(city, lsn):
                time.sleep(0.0005)
            yield time.perf_counter() - start
            time.sleep(0.01)


def answers_of(follower):
    """What says whether a follower's answer has a sale."""
    return lambda city, _: len(follower.slice({"city": city}))


def asked(follower, at):
    """The seconds of a question of one cell."""
    start = time.perf_counter()
    follower.slice({"city": f"city {at % CITIES}", "product": f"product {at % PRODUCTS}"})
    spent = time.perf_counter() - start
    time.sleep(0.001)
    return spent


said = functools.partial(processes.say_times, wide=56)


@contextlib.contextmanager
def private_bench(rows, table, *modules):
    """A private server with a table, where it and these modules of Python are there; else the script ends with status 77."""
    lacks = [it for it in modules if not importlib.util.find_spec(it)] + ([] if sql.newest_server() else ["postgresql"])
    if lacks:
        print(f"{', '.join(lacks)}: not there for this Python")
        sys.exit(programs.LEFT_OUT)
    folder = lambda: tempfile.TemporaryDirectory(prefix="datacube-speed-")
    with folder() as room, folder() as ours, sql.Server(sql.newest_server(), room, SETTINGS) as server:
        yield Bench(server, ours, rows, table)


def main():
    given = programs.words_of(__doc__, seconds=3, rounds=6, rows=200_000, rate=1000, probes=500,
                              **{"--mode": {"choices": ("writers", "store", "readers"), "default": "writers"}})
    with private_bench(given.rows, TABLE, "psycopg2") as bench:
        if given.mode == "store":
            starts(bench, given.rows)
        elif given.mode == "readers":
            beside_readers(bench, given.rate, given.probes)
        else:
            for waits in (True, False):
                cost(bench, given.rounds, given.seconds, waits)
            freshness(bench, given.rate, given.probes, 1000)
    return 0


if __name__ == "__main__":
    sys.exit(main())
