"""The peers of `print`: PostgreSQL, ClickHouse, and R with data.table, at their best settings for the job.

Each begins with the feeds on the disk, finds the facts that are present, and writes the lines of the cube to a file. In
place of a mean they write its sum and its count.
"""
import os
import shutil
import socket
import subprocess
import sys
import time

import programs
import sql
from measure import run_at, run_into

SILENT = {"stdin": subprocess.DEVNULL, "stdout": subprocess.DEVNULL, "stderr": subprocess.DEVNULL}
PATH = os.environ["PATH"] + ":/usr/sbin"
# an aggregate over the finest cells that gives that of their facts
OVER_CELLS = {"count": "sum", "sum": "sum", "min": "min", "max": "max"}
listed = ", ".join


def numbered(work):
    """A command that gives the records of all feeds, each after its source and its line, short deletes filled up."""
    pad = r",\\N" * (len(work.dimensions) + len(work.measures))
    awk = f'FNR==1{{s++; next}} /^D,[^,]*$/{{print s "," FNR "," $0 "{pad}"; next}} {{print s "," FNR "," $0}}'
    return f"awk '{awk}' " + " ".join(work.feeds)


def answers(work, call):
    """What is asked for each aggregate, by a call of a kind and a measure, which is None for `count(*)`."""
    for kind, at in work.schema.aggregates:
        measure = None if at is None else work.measures[at]
        yield from (call("sum", measure), call("count", measure)) if kind == "avg" else (call(kind, measure),)


class Postgres(sql.Server):
    """Each id's last line by DISTINCT ON, the finest cells by a GROUP BY in several threads, the cube of these."""

    @staticmethod
    def version():
        binaries = sql.newest_server()
        return binaries and "PostgreSQL " + binaries.split("/")[4]

    def __init__(self, room, threads):
        more = ["shared_buffers=1GB", "max_wal_size=8GB", f"max_worker_processes={threads + 8}"]
        super().__init__(sql.newest_server(), room, [*sql.SETTINGS, *more, f"max_parallel_workers={threads}"])
        self.threads = threads

    def run(self, work, out):
        return run_at(self.process.pid, lambda: self.ask(self.script(work, out).encode()))

    def script(self, work, out):
        dimensions, measures = work.dimensions, work.measures
        columns = [f"{it} text" for it in dimensions] + [f"{it} bigint" for it in measures]
        order = [f'grouping({it}), {it} COLLATE "C" NULLS LAST' for it in dimensions]
        quoted = lambda text: "'" + text.replace("'", "''") + "'"
        return f"""
            SET work_mem = '4GB'; SET max_parallel_workers_per_gather = {self.threads};
            SET min_parallel_table_scan_size = 0; SET parallel_setup_cost = 0; SET parallel_tuple_cost = 0;
            SET client_min_messages = warning;
            DROP TABLE IF EXISTS records, facts;
            CREATE UNLOGGED TABLE records (source int, line int, op text, id text, {listed(columns)});
            COPY records FROM PROGRAM {quoted(numbered(work))} (FORMAT csv, NULL '\\N');
            CREATE UNLOGGED TABLE facts AS SELECT {listed(dimensions + measures)} FROM (
                SELECT DISTINCT ON (source, id) * FROM records ORDER BY source, id, line DESC
            ) AS last WHERE op <> 'D';
            ANALYZE facts;
            COPY (
                {self.cube(work)} ORDER BY {listed(order)}
            ) TO {quoted(out)} (FORMAT csv, NULL '\\N');
        """

    def cube(self, work):
        """The query for the cube of the facts, without an order."""
        dimensions = work.dimensions
        base = [f"{kind}({it}) AS {kind}_{it}" for it in work.measures for kind in OVER_CELLS]
        again = lambda kind, it: f"{OVER_CELLS[kind]}({kind}_{it})" if it else "coalesce(sum(n), 0)"
        shown = [*dimensions, *(f"grouping({it})" for it in dimensions), *answers(work, again)]
        return f"""
                WITH base AS MATERIALIZED (
                    SELECT {listed(dimensions)}, count(*) AS n, {listed(base)} FROM facts GROUP BY {listed(dimensions)}
                )
                SELECT {listed(shown)} FROM base GROUP BY CUBE ({listed(dimensions)})"""


class PostgresOfValues(Postgres):
    """The cube of the facts themselves, since distinct counts and percentiles aren't made of those of the finest cells. Variances are the
    server's own, which are rounded."""

    def cube(self, work):
        dimensions = work.dimensions
        calls = answers(work, lambda kind, it: f"{kind}({it})" if kind in sql.VARIANCES else sql.call_of(kind, it))
        shown = [*dimensions, *(f"grouping({it})" for it in dimensions), *calls]
        return f"SELECT {listed(shown)} FROM facts GROUP BY CUBE ({listed(dimensions)})"


CLICKHOUSE = """<yandex>
    <logger><level>warning</level><log>{room}/log</log><errorlog>{room}/errors</errorlog></logger>
    <listen_host>127.0.0.1</listen_host><tcp_port>{port}</tcp_port>
    <path>{room}/data/</path><tmp_path>{room}/temporary/</tmp_path><mark_cache_size>1073741824</mark_cache_size>
    <users_config>{room}/config.xml</users_config>
    <default_profile>default</default_profile><default_database>default</default_database>
    <profiles><default></default></profiles><quotas><default></default></quotas>
    <users><default>
        <password></password><networks><ip>127.0.0.1</ip></networks><profile>default</profile><quota>default</quota>
    </default></users>
</yandex>"""


class ClickHouse:
    """Each id's last line by argMax, then WITH CUBE over texts behind a mark, so that an empty one is ALL."""

    @staticmethod
    def version():
        if not all(shutil.which(it, path=PATH) for it in ("clickhouse-server", "clickhouse-client")):
            return None
        told = subprocess.run(["clickhouse-client", "--version"], stdout=subprocess.PIPE, text=True).stdout
        return "ClickHouse " + next(it for it in told.split() if it[0].isdigit()).rstrip(".")

    def __init__(self, room, threads):
        self.room, self.threads = room, threads

    def __enter__(self):
        with socket.socket() as free:
            free.bind(("127.0.0.1", 0))
            port = free.getsockname()[1]
        self.client = ["clickhouse-client", "--port", str(port), "--max_threads", str(self.threads)]
        config = f"{self.room}/config.xml"
        programs.write(config, CLICKHOUSE.format(room=self.room, port=port))
        server = [shutil.which("clickhouse-server", path=PATH), f"--config-file={config}"]
        self.process = subprocess.Popen(server, cwd=self.room, **SILENT)
        for _ in range(100):
            if subprocess.run([*self.client, "--query", "SELECT 1"], **SILENT).returncode == 0:
                return self
            time.sleep(0.1)
        self.__exit__()
        sys.exit("ClickHouse doesn't answer")

    def __exit__(self, *_):
        self.process.terminate()
        self.process.wait()

    def ask(self, query, **how):
        subprocess.run([*self.client, "--max_memory_usage", "20000000000", "--query", query], check=True, **how)

    def run(self, work, out):
        return run_at(self.process.pid, lambda: self.job(work, out))

    def job(self, work, out):
        dimensions, measures, texts = work.dimensions, work.measures, len(work.dimensions)
        columns = listed([f"{it} String" for it in dimensions] + [f"{it} Nullable(Int64)" for it in measures])
        for table, front in (("records", "source UInt8, line UInt32, op String, id String, "), ("facts", "")):
            self.ask(f"DROP TABLE IF EXISTS {table}")
            self.ask(f"CREATE TABLE {table} ({front}{columns}) ENGINE = Memory")
        with subprocess.Popen(numbered(work), shell=True, stdout=subprocess.PIPE) as records:
            self.ask("INSERT INTO records FORMAT CSV", stdin=records.stdout)
        picked = [f"concat('=', {it})" for it in dimensions] + [f"tuple({it})" for it in measures]
        fields = [f"r.{at + 2}" + ".1" * (at >= texts) for at in range(texts + len(measures))]
        self.ask(f"INSERT INTO facts SELECT {listed(fields)} FROM (SELECT argMax(tuple(op, {listed(picked)}), line) AS r "
                 "FROM records GROUP BY source, id) WHERE r.1 != 'D'")
        shown = [*dimensions, *answers(work, lambda kind, it: f"{kind}({it or ''})")]
        order = [f"{it} = '', {it}" for it in dimensions]
        with open(out, "wb") as file:
            self.ask(f"SELECT {listed(shown)} FROM facts GROUP BY {listed(dimensions)} WITH CUBE "
                     f"ORDER BY {listed(order)} FORMAT CSV", stdout=file)


TABLE = r"""
suppressMessages(library(data.table)); setDTthreads({threads})
dims <- c({dimensions})
x <- rbindlist(lapply(c({feeds}), function(feed) {{
  y <- fread(feed, na.strings = "\\N", fill = TRUE, encoding = "UTF-8",
             colClasses = list(character = c("op", "id", dims), numeric = c({measures})))
  unique(y, by = "id", fromLast = TRUE)[op != "D"]
}}))
base <- {base}
sets <- lapply(0:(2^length(dims) - 1), function(mask) {{
  is_kept <- bitwAnd(bitwShiftR(mask, seq_along(dims) - 1L), 1L) == 1L
  kept <- dims[is_kept]
  set <- if (length(kept)) base[, list({again}), by = kept] else base[, list({again})]
  for (at in seq_along(dims)) {{
    if (!is_kept[at]) set(set, j = dims[at], value = NA_character_)
    set(set, j = paste0("grouping_", dims[at]), value = as.integer(!is_kept[at]))
  }}
  set
}})
r <- rbindlist(sets, use.names = TRUE)
groupings <- paste0("grouping_", dims)
setorderv(r, as.vector(rbind(groupings, dims)), na.last = TRUE)
fwrite(r[, c(dims, groupings, {shown}), with = FALSE], "{out}", col.names = FALSE, quote = FALSE, na = "\\N", scipen = 50)
"""


class DataTable:
    """Each id's last line by unique, the finest cells, and each grouping set from these: faster than its cube()."""

    @staticmethod
    def version():
        asks = ["Rscript", "--vanilla", "-e", "cat('R data.table', as.character(packageVersion('data.table')))"]
        how = {"stdout": subprocess.PIPE, "stderr": subprocess.DEVNULL, "text": True}
        return subprocess.run(asks, **how).stdout or None if shutil.which("Rscript") else None

    def __init__(self, room, threads):
        self.room, self.threads = room, threads

    def __enter__(self):
        return self

    def __exit__(self, *_):
        pass

    def run(self, work, out):
        quoted = lambda names: listed(f'"{it}"' for it in names)
        base, again, shown = self.job(work)
        programs.write(f"{self.room}/job.R", TABLE.format(
            threads=self.threads, dimensions=quoted(work.dimensions), measures=quoted(work.measures), feeds=quoted(work.feeds), out=out,
            base=base, again=again, shown=quoted(shown)))
        return run_into(["Rscript", "--vanilla", f"{self.room}/job.R"], f"{self.room}/said")

    def job(self, work):
        """What the grouping sets are made of, the columns of one, and the names of those that answer."""
        call = lambda kind, of: ".N" if kind == "count" else f"{kind}({of})"
        pairs = [(kind, it) for it in work.measures for kind in OVER_CELLS]
        base = listed(f"{kind}_{it} = {call(kind, it)}" for kind, it in pairs)
        again = listed(f"{kind}_{it} = {OVER_CELLS[kind]}({kind}_{it})" for kind, it in pairs)
        return f"x[, list(n = .N, {base}), by = dims]", f"n = sum(n), {again}", answers(work, lambda kind, it: f"{kind}_{it}" if it else "n")


class DataTableOfValues(DataTable):
    """The facts are put in the order of their one measure once, so that each group has its values in order."""

    def job(self, work):
        [measure] = {work.measures[at] for _, at in work.schema.aggregates}
        columns = [f"a{place} = {of_values(kind, measure)}" for place, (kind, _) in enumerate(work.schema.aggregates)]
        return f"setorderv(x, '{measure}')", listed(columns), [it.partition(" ")[0] for it in columns]


def of_values(kind, measure):
    """A distinct count, a percentile or a variance of values in order, in R."""
    level = kind.partition(" ")[2]
    if kind == "var_samp":
        return f"var({measure})"
    if level == "distinct":
        return f"1L + sum({measure}[-1L] != {measure}[-.N])"
    return f"{measure}[max(1, ceiling(.N * ({sql.level_of(level)})))]"


# the peers by their names, with whether their lines have the columns of GROUPING
PEERS = {"PostgreSQL": (Postgres, True), "ClickHouse": (ClickHouse, False), "data.table": (DataTable, True)}
# those for distinct counts, percentiles and variances
OF_VALUES = {"PostgreSQL": (PostgresOfValues, True), "data.table": (DataTableOfValues, True)}


def installed(names, peers):
    """Those of some peers with these names, with commas between, that are installed, each with its version; the others are told."""
    versions = {it: peers[it][0].version() for it in names.split(",") if it in peers}
    left_out = [name for name, version in versions.items() if not version]
    if left_out:
        print("left out, since not installed: " + ", ".join(left_out))
    return {version: peers[name] for name, version in versions.items() if version}
