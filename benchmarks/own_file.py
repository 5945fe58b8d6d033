"""The cube of one plain CSV file, by `datacube table` and by its peers."""
import contextlib
import csv
import os
import random
import tempfile

import sql
from measure import DATACUBE, Use, cell, head, row, run_at, run_into
from peers import DataTable

HEADER = "order,when,city,product,price,note,clerk,till,channel,x"
R = """
suppressMessages(library(data.table)); setDTthreads({threads})
d <- fread("{file}", na.strings = "")
d[, month := substr(when, 1, 7)]
r <- suppressWarnings(cube(d, j = .(n = .N, sum = sum(price), min = min(price), max = max(price), avg = mean(price)),
                           by = c("city", "product", "month")))
fwrite(r, "{out}", col.names = FALSE, scipen = 50)
"""
POSTGRES = """
SET work_mem = '4GB'; SET max_parallel_workers_per_gather = {threads}; SET client_min_messages = warning;
DROP TABLE IF EXISTS sales;
CREATE UNLOGGED TABLE sales ("order" int, "when" text, city text, product text, price numeric(10, 2), note text, clerk text,
                             till int, channel text, x int);
COPY sales FROM '{file}' (FORMAT csv, HEADER);
COPY (
    SELECT city, product, left("when", 7), count(*), sum(price), min(price), max(price), avg(price) FROM sales
    GROUP BY CUBE (city, product, left("when", 7))
) TO '{out}' (FORMAT csv);
"""


def make(path, lines):
    """Writes the file."""
    draw = random.Random(7)
    cities, products = [f"city {it}" for it in range(40)], [f"product {it}" for it in range(60)]
    with open(path, "w", encoding="ascii") as file:
        print(HEADER, file=file)
        for number in range(lines):
            day = f"2026-{draw.randrange(1, 13):02}-{draw.randrange(1, 29):02}"
            price = draw.randrange(100, 100000) / 100
            print(f"{number},{day},{draw.choice(cities)},{draw.choice(products)},{price:.2f},n,c{number % 7},{number % 9},web,1",
                  file=file)


def cells_of(path, is_ours):
    """The count and the cents of the sum, the least and the greatest price by key, in which ALL is an empty text."""
    cells = {}
    with open(path, newline="", encoding="utf-8") as file:
        rows = csv.reader(file)
        if is_ours:
            next(rows)
        for row in rows:
            key = tuple("" if it == r"\N" else it for it in row[:3])
            answers = row[6:10] if is_ours else row[3:7]
            cells[key] = int(answers[0]), *(round(float(it) * 100) for it in answers[1:])
    return cells


def programs_of(file, threads, server):
    """What makes the cube, by the programs' names: calls that write it to a file, and give what that used."""
    how = {"file": file, "threads": threads}
    ours = [DATACUBE, "table", file, "--threads", str(threads), "--by", "city,product,when:7", "--of", "price:2"]
    found = {"datacube table": lambda out: run_into(ours, out)}
    if DataTable.version():
        found["R, data.table"] = lambda out: run_into(["Rscript", "--vanilla", "-e", R.format(out=out, **how)], os.devnull)
    if server:
        found["PostgreSQL"] = lambda out: run_at(server.process.pid, lambda: server.ask(POSTGRES.format(out=out, **how).encode()))
    return found


def rounds(programs, room, runs):
    """The best of each program, and whether all have the cells of the first."""
    best, cells, same = {}, None, True
    for number in range(runs):
        for at, (name, run) in enumerate(programs.items()):
            out = f"{room}/out{at}.csv"
            use = run(out)
            best[name] = Use(*map(min, use, best.get(name, use)))
            if number == 0:
                found = cells_of(out, at == 0)
                cells = cells or found
                same &= found == cells
    return best, same


def measure(asked):
    """Makes the cube of one plain CSV file by `datacube table` and by its peers, compares the answers, and prints what each took.

    The file has N lines of ten columns, of which a day, a city, a product and a price with two decimals are asked for, and the others
    aren't. The job: from the file on the disk to the whole cube by city, product and month, with count, sum, least, greatest and mean of
    the price, in a file. R does it by data.table (`fread`, `substr`, `cube`), PostgreSQL by COPY and GROUP BY CUBE; each that is installed
    runs, in rounds. Their cells have to be ours: the same keys with the same count, and the same sum, least and greatest price to the
    cent; else the status is 1."""
    with tempfile.TemporaryDirectory() as room, contextlib.ExitStack() as servers:
        os.chmod(room, 0o777)
        file = f"{room}/sales.csv"
        make(file, asked.lines)
        os.mkdir(f"{room}/server")
        server = servers.enter_context(sql.Server(sql.newest_server(), f"{room}/server")) if sql.newest_server() else None
        best, same = rounds(programs_of(file, asked.threads, server), room, asked.runs)
        print(f"{asked.lines} lines, {os.path.getsize(file) / 1e6:.1f} MB, {asked.threads} threads, best of {asked.runs}")
        head("", "wall, processor, memory")
        for name, use in best.items():
            row(name, cell(use))
        print("the cells are the same" if same else "the cells differ")
    return 0 if same else 1
