#!/usr/bin/env python3
"""Measures how much readers of a large cube hold up a follower that is served.

    scripts/readers_speed.py [--rows N] [--rate N] [--probes N] [--readers N] [--rounds N] [--path PATH]

A private PostgreSQL has a table of N rows (300,000), whose cube is printed in about 5 MB; `python -m jackraisin.postgres --serve`
follows it, while pgbench makes 500 transactions a second. A probe commits a sale to a city of its own and asks for that city over
HTTP until the sale is in the answer: the time from the end of the commit to the end of the answer, 200 times in each round, without
readers and with six in turn (3 rounds of each), each of which asks for the whole cube, or for what is at PATH, again as soon as it
has it. RANDOM in PATH is a number below 250, another one each time. Needs Debian's packages postgresql, python3-psycopg2,
python3-aiohttp and python3-prometheus-client; where one isn't there, the status is 77.
"""
import contextlib
import http.client
import multiprocessing
import os
import random
import signal
import statistics
import subprocess
import sys
import threading
import time

sys.dont_write_bytecode = True
import postgres_speed
import programs

ROOT = programs.ROOT
CITIES, PRODUCTS = 250, 500
TABLE = f"""
CREATE TABLE sales (id bigserial PRIMARY KEY, city text, product text, cents bigint);
INSERT INTO sales (city, product, cents)
    SELECT 'city ' || (random() * {CITIES})::int, 'product ' || (random() * {PRODUCTS})::int, n % 10000 FROM generate_series(1, ROWS) AS n;
ANALYZE sales; CHECKPOINT;
"""
MODULES = "psycopg2", "aiohttp", "prometheus_client"


@contextlib.contextmanager
def served(bench):
    """The port of a follower that is served, for as long as a block runs."""
    words = ["-m", "jackraisin.postgres", "--dsn", bench.dsn, "--table", "sales", "--schema", bench.schema, "--serve", "0"]
    env = {**os.environ, "PYTHONPATH": f"{ROOT}/python/src"}
    process = subprocess.Popen([sys.executable, *words], env=env, stdout=subprocess.PIPE, stderr=subprocess.DEVNULL, text=True)
    port = int(process.stdout.readline().rstrip("/\n").rpartition(":")[2])
    while ask(http.client.HTTPConnection("127.0.0.1", port), "/readyz")[0] != 200:
        time.sleep(0.1)
    yield port
    process.send_signal(signal.SIGTERM)
    process.wait()


def ask(connection, path):
    """The status and the bytes of an answer."""
    connection.request("GET", path)
    answer = connection.getresponse()
    return answer.status, answer.read()


def read(port, path, readers, ended, counts):
    """Asks for what is at a path, so many at a time, until the end."""
    def one():
        connection = http.client.HTTPConnection("127.0.0.1", port)
        while not ended.is_set():
            counts.put(len(ask(connection, path.replace("RANDOM", str(random.randrange(CITIES))))[1]))
    threads = [threading.Thread(target=one) for _ in range(readers)]
    for it in threads:
        it.start()
    for it in threads:
        it.join()


def probed(bench, port, count):
    """The seconds from the end of each commit to the end of the answer that has it."""
    connection = http.client.HTTPConnection("127.0.0.1", port)
    path_of = lambda city: f"/slice.csv?city={city.replace(' ', '%20')}"
    return postgres_speed.probed(bench, count, lambda city, _: ask(connection, path_of(city))[1].count(b"\n") > 1)


def with_readers(bench, port, path, probes, readers):
    """The same while others read, with the number of answers that they read in a second."""
    ended, counts = multiprocessing.Event(), multiprocessing.Queue()
    process = multiprocessing.Process(target=read, args=(port, path, readers, ended, counts))
    process.start()
    sizes, start = [], time.perf_counter()
    found = list(probed(bench, port, probes))
    ended.set()
    while process.is_alive() or not counts.empty():
        with contextlib.suppress(Exception):
            sizes.append(counts.get(timeout=0.1))
    process.join()
    print(f"{readers} readers: {len(sizes) / (time.perf_counter() - start):.1f} answers a second, of {max(sizes) / 2**20:.1f} MB", flush=True)
    return found


def main():
    given = programs.words_of(__doc__, rows=300_000, rate=500, probes=200, readers=6, rounds=3, path="/cube.csv")
    without, among = [], []
    with postgres_speed.private_bench(given.rows, TABLE, *MODULES) as bench, served(bench) as port, bench.busy(given.rate):
        for _ in range(given.rounds):
            without += probed(bench, port, given.probes)
            among += with_readers(bench, port, given.path, given.probes, given.readers)
    postgres_speed.said("from commit to answer, without readers", without)
    postgres_speed.said(f"from commit to answer, with {given.readers} readers", among)
    print(f"the median is {(statistics.median(among) - statistics.median(without)) * 1000:.1f} ms later with readers")
    return 0


if __name__ == "__main__":
    sys.exit(main())
