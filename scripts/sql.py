#!/usr/bin/env python3
"""Asks the same question in SQL: what a private PostgreSQL says of feeds beside what the program writes, byte for byte.

    scripts/sql.py [--program PATH] [SCHEMA FEED...]
    scripts/sql.py --show SCHEMA [FEED...]

The first form takes the files that are named, else the examples; tests/test_sql.py asks over generated schemas and feeds.
Python's `csv` splits the feeds into records; which records are refused, which facts are present and what their cube
is, SQL works out (docs/SQL.md). A case passes where the program's `refusals` and `print` say the very same. The second
form shows the SQL, with the records of the feeds, as psql takes it, and asks no server. The program is the one at
PATH, else the one that `./datacube` would run.

The server is begun for this run alone, in a folder of its own, with a socket there and no port; as nobody where this
is run as root. Records that PostgreSQL can't hold, for a NUL or for bytes that aren't UTF-8, are left out of the
feeds, and it is said how many. Needs Debian's package postgresql, of version 13 or later, and Python 3.11 or later.
"""
import contextlib
import csv
import glob
import os
import signal
import subprocess
import sys
import tempfile
import time
from fractions import Fraction

sys.dont_write_bytecode = True
import cases
import oracle
import programs

try:
    import tomllib
except ImportError:
    tomllib = None

ROOT = programs.ROOT
SECONDS = 600
LONGEST_NAME = 63
END_OF_REFUSALS = b"--\n"
IN_ARRAY = str.maketrans({"\\": r"\\", '"': r'\"'})
IN_COPY = str.maketrans({"\\": r"\\", "\n": r"\n", "\r": r"\r", "\t": r"\t"})
# (no port, nothing that saves data from a crash, one processor)
SETTINGS = ["listen_addresses=", "autovacuum=off", "fsync=off", "synchronous_commit=off", "full_page_writes=off",
            "jit=off", "max_parallel_workers_per_gather=0", "work_mem=64MB"]

IS_NUMBER = r"""
CREATE FUNCTION is_number(field text) RETURNS boolean IMMUTABLE LANGUAGE sql AS $$
    SELECT CASE
        WHEN field !~ '^[+-]?[0-9]+$' THEN false
        WHEN length(ltrim(field, '+-0')) > 19 THEN false
        ELSE field::numeric BETWEEN -9223372036854775808 AND 9223372036854775807
    END
$$;
"""

FRACTION = """
CREATE FUNCTION fraction(total numeric, number numeric) RETURNS text IMMUTABLE STRICT LANGUAGE sql AS $$
    SELECT div(total, gcd(total, number)) || '/' || div(number, gcd(total, number))
$$;
"""

VARIANCE = """
CREATE FUNCTION variance_of(number numeric, total numeric, squares numeric, freedom numeric) RETURNS text
IMMUTABLE STRICT LANGUAGE sql AS $$
    SELECT fraction(number * squares - total * total, number * nullif(freedom, 0))
$$;
"""

HELD = """
CREATE FUNCTION values_held(numbers numeric[]) RETURNS text IMMUTABLE LANGUAGE sql AS $$
    SELECT coalesce(string_agg(number || '*' || times, ' ' ORDER BY number), '')
    FROM (SELECT number, count(*) AS times FROM unnest(numbers) AS number WHERE number IS NOT NULL GROUP BY number) AS held
$$;
"""

IS_DECIMAL = r"""
CREATE FUNCTION is_decimal(field text, places int) RETURNS boolean IMMUTABLE LANGUAGE sql AS $$
    SELECT CASE
        WHEN field !~ '^[+-]?[0-9]+([.][0-9]+)?$' THEN false
        WHEN rtrim(substr(split_part(field, '.', 2), places + 1), '0') <> '' THEN false
        WHEN length(ltrim(split_part(field, '.', 1), '+-0')) > 19 THEN false
        ELSE (split_part(field, '.', 1) || rpad(left(split_part(field, '.', 2), places), places, '0'))::numeric
            BETWEEN -9223372036854775808 AND 9223372036854775807
    END
$$;
"""

RECORDS = """
CREATE TEMP TABLE records (source int, record int, fields text[]);
"""

CHANGES = r"""
CREATE TEMP TABLE changes AS
SELECT source, record, fields[1] AS op, fields[2] AS id, fields,
    CASE
        WHEN fields[1] NOT IN ('I', 'U', 'D') THEN 1
        WHEN cardinality(fields) <> {width} AND NOT (fields[1] = 'D' AND cardinality(fields) = 2) THEN 2
        WHEN fields[2] = '' THEN 4
        WHEN fields[1] <> 'D' AND {fifth} THEN 5{sixth}
    END AS fault
FROM records;
"""

FIFTH = r"""EXISTS (
            SELECT FROM unnest({numbers}) AS field WHERE field NOT IN ({no_numbers}) AND NOT is_number(field)
        )"""

# (where a measure has decimals)
FIFTH_WITH_DECIMALS = r"""EXISTS (
            SELECT FROM unnest({numbers}, ARRAY[{places}]) AS measure (field, places)
            WHERE field NOT IN ({no_numbers}) AND NOT CASE WHEN places IS NULL THEN is_number(field) ELSE is_decimal(field, places) END
        )"""

SIXTH = r"""
        WHEN fields[1] = 'I' AND '\=' = ANY (fields[3:]) THEN 6"""

JUDGED = """
CREATE TEMP TABLE judged AS
SELECT *,
    coalesce(max(record) FILTER (WHERE op = 'I') OVER earlier, 0)
        > coalesce(max(record) FILTER (WHERE op = 'D') OVER earlier, 0) AS is_present
FROM changes
WHERE fault IS NULL
WINDOW earlier AS (PARTITION BY source, id ORDER BY record ROWS BETWEEN UNBOUNDED PRECEDING AND 1 PRECEDING);
"""

REFUSALS = """
SELECT source, record, fault AS code FROM changes WHERE fault IS NOT NULL
UNION ALL
SELECT source, record, CASE op WHEN 'I' THEN {present} ELSE {absent} END FROM judged WHERE (op = 'I') = is_present
ORDER BY source, record
"""

FACTS = """
CREATE TEMP TABLE facts AS
SELECT
    {columns}
FROM (
    SELECT *, count(*) FILTER (WHERE op = 'I') OVER (PARTITION BY source, id ORDER BY record) AS life
    FROM judged
    WHERE (op = 'I') <> is_present
) AS taken
GROUP BY source, id, life
HAVING bool_and(op <> 'D');
"""

CUBE = """
SELECT
    {columns}
FROM facts{where}
GROUP BY {grouping}{order}
"""


def name_of(text):
    """A name of SQL."""
    return '"' + text.replace('"', '""') + '"'


def literal(text):
    """A text of SQL."""
    return "'" + text.replace("'", "''") + "'"


def where_of(schema, conditions):
    """What conditions of `--where` are in SQL: a WHERE clause over the facts."""
    return "\nWHERE " + "\n    AND ".join(clause_of(schema, it) for it in conditions) if conditions else ""


def clause_of(schema, condition):
    """What a condition is in SQL. Texts are compared by their bytes, and null is unequal to each value."""
    at, named = condition.place - len(schema.dimensions), (schema.dimensions + schema.measures)[condition.place]
    is_text = at < 0 or named in schema.texts
    said = lambda it: "NULL" if it is None else literal(it.decode()) if is_text else oracle.decimal(it, schema.places(at))
    name, values = name_of(named), [said(it) for it in condition.values]
    if condition.sign == b"=":
        return "(" + " OR ".join(f"{name} IS NOT DISTINCT FROM {it}" for it in values) + ")"
    if condition.sign == b"!=":
        return "(" + " AND ".join(f"{name} IS DISTINCT FROM {it}" for it in values) + ")"
    return f"{name} " + ('COLLATE "C" ' if is_text else "") + f"{condition.sign.decode()} {values[0]}"


def statements(schema, conditions=()):
    """The SQL over a schema's records: a statement for the changes, the judged ones, the refusals, facts and the cube of those of
    which conditions hold."""
    keeps = schema.version == 2
    middle = 3 + len(schema.dimensions)
    width = middle - 1 + len(schema.measures)
    fifth = {
        "numbers": numbers_of(schema, middle),
        "no_numbers": r"'\N', '\='" if keeps else r"'\N'",
        "places": ", ".join(str(schema.decimals.get(it, "NULL")) for it in schema.measures if it not in schema.texts),
    }
    form = FIFTH_WITH_DECIMALS if schema.decimals else FIFTH
    return {
        "changes": CHANGES.format(width=width, fifth=form.format(**fifth), sixth=SIXTH if keeps else ""),
        "judged": JUDGED,
        "refusals": REFUSALS.format(present=7 if keeps else 6, absent=8 if keeps else 7),
        "facts": FACTS.format(columns=",\n    ".join(fact_columns(schema))),
        "cube": cube(schema, conditions),
    }


def numbers_of(schema, middle):
    """The fields of a record that are numbers, where those of measures begin at a place: of all measures, but for those that are texts."""
    if not schema.texts:
        return f"fields[{middle}:{middle + len(schema.measures) - 1}]"
    places = [at for at, name in enumerate(schema.measures, middle) if name not in schema.texts]
    return f"ARRAY[{', '.join(f'fields[{at}]' for at in places)}]::text[]"


def fact_columns(schema):
    r"""A column of facts for each dimension and measure: the field that was put last, where `\=` puts none."""
    for at, name in enumerate(schema.dimensions + schema.measures, 3):
        put = rf" FILTER (WHERE fields[{at}] <> '\=')" if schema.version == 2 else ""
        kind = type_of(schema, name) if at >= 3 + len(schema.dimensions) and name not in schema.texts else ""
        last = f"(array_agg(fields[{at}] ORDER BY record DESC){put})[1]"
        yield rf"nullif({last}, '\N'){kind} AS {name_of(name)}"


def type_of(schema, name):
    """The cast of a measure's field: a number of 64 bits, with its decimals where it has such."""
    places = schema.decimals.get(name)
    return "::bigint" if places is None else f"::numeric(19, {places})"


def functions_of(schema):
    """The functions that the SQL of a schema asks."""
    kinds = {kind for kind, _ in schema.aggregates}
    more = [*([VARIANCE] if kinds & set(VARIANCES) else []), *([HELD] if "values" in kinds else [])]
    return [IS_NUMBER, *([IS_DECIMAL] if schema.decimals else []), FRACTION, *more]


def cube(schema, conditions=()):
    """The query for a schema's cube over the facts that are present and of which conditions hold; a dimension that no kept set has
    is ALL always."""
    kept = [it for at, it in enumerate(schema.dimensions) if any(mask >> at & 1 for mask in schema.masks)]
    columns = [", ".join(name_of(it) if it in kept else f"NULL AS {name_of(it)}" for it in schema.dimensions)]
    for it in schema.dimensions:
        columns.append(f"{f'grouping({name_of(it)})' if it in kept else '1'} AS {name_of(f'grouping({it})')}")
    for (kind, at), text in zip(schema.aggregates, schema.aggregate_texts()):
        measure = "*" if at is None else name_of(schema.measures[at])
        measure += ' COLLATE "C"' if kind == "count distinct" and schema.measures[at] in schema.texts else ""
        columns.append(f"{call_of(kind, measure, 0 if at is None else schema.places(at))} AS {name_of(text)}")
    order = [f'grouping({name}), {name} COLLATE "C" NULLS LAST' for name in map(name_of, kept)]
    ordered = "\nORDER BY\n    " + ",\n    ".join(order) if order else ""
    where = where_of(schema, conditions)
    return CUBE.format(columns=",\n    ".join(columns), where=where, grouping=grouping_of(schema), order=ordered)


def call_of(kind, measure, places=0):
    """What an aggregate of a measure with so many decimals is in SQL."""
    call, _, level = kind.partition(" ")
    units, squared = (f" * {base ** places}::numeric" if places else "" for base in (10, 100))
    squares = f"sum({measure}{'' if places else '::numeric'} * {measure})"
    if kind == "avg":
        return f"fraction(sum({measure}){units}, count({measure}){units})"
    if kind == "sum_of_squares":
        return squares
    if kind in VARIANCES:
        return f"variance_of(count({measure}), sum({measure}){units}, {squares}{squared}, {VARIANCES[kind].format(measure)}{squared})"
    if kind == "count distinct":
        return f"count(DISTINCT {measure})"
    if kind == "values":
        return f"values_held(array_agg({measure}))"
    return f"percentile_disc({level_of(level)}) WITHIN GROUP (ORDER BY {measure})" if level else f"{call}({measure})"


# (what the squares of a variance are divided by)
VARIANCES = {"var_pop": "count({})", "var_samp": "(count({}) - 1)"}


def level_of(level):
    """What SQL is asked for a level. PostgreSQL multiplies it as a double, and so takes the 8th of 100 values for 0.07. Where a double
    isn't the level itself it is asked for a little less: too little for another place among 10^10 values, and more than is rounded."""
    return level if Fraction(float(level)) == Fraction(level) else f"{level} - 2e-15"


def grouping_of(schema):
    """What a schema's cube is grouped by."""
    list_of = lambda names: "(" + ", ".join(map(name_of, names)) + ")"
    if schema.grouping in ("cube", "rollup"):
        return f"{schema.grouping.upper()} {list_of(schema.dimensions)}"
    return "GROUPING SETS (" + ", ".join(map(list_of, schema.grouping)) + ")"


def script_of(schema, feeds, conditions=()):
    """What psql is given: the records, and then the statements, of which two are copied out."""
    made = statements(schema, conditions)
    copied = lambda query: rf"COPY ({query}) TO STDOUT WITH (FORMAT csv, NULL '\N');" + "\n"
    return "".join([
        RECORDS, copy_records(feeds), made["changes"], made["judged"], made["facts"], copied(made["refusals"]),
        f"\\echo {END_OF_REFUSALS.decode()}", copied(made["cube"]),
    ]).encode()


def copy_records(feeds):
    """What fills the table of records; those that PostgreSQL can't hold are left out."""
    lines = [f"{source}\t{record}\t{copy_text(fields)}\n"
             for source, records in enumerate(feeds, 1) for record, fields in enumerate(records, 1) if is_held(fields)]
    return "".join(["COPY records FROM STDIN;\n", *lines, "\\.\n"])


def copy_text(fields):
    """A record as an array, as COPY reads it."""
    array = ",".join('"' + it.decode().translate(IN_ARRAY) + '"' for it in fields)
    return "{" + array.translate(IN_COPY) + "}"


def newest_server():
    """The folder of the newest PostgreSQL's programs, or None."""
    found = sorted(glob.glob("/usr/lib/postgresql/*/bin/initdb"), key=lambda it: float(it.split("/")[4]))
    return os.path.dirname(found[-1]) if found else None


class Server:
    """A PostgreSQL that this run alone asks: it is begun in a folder, with what another one left in its folder or with nothing, and
    ended with the block that it is for."""

    def __init__(self, binaries, room, settings=SETTINGS, like=None):
        self.binaries, self.room, self.settings, self.like, self.process = binaries, room, settings, like, None
        self.env = {"PATH": "/usr/bin:/bin", "LC_ALL": "C", "PGCLIENTENCODING": "UTF8"}
        self.front = ["setpriv", "--pdeathsig", "INT"]
        if os.geteuid() == 0:
            self.front += cases.NOBODY[1:]

    def __enter__(self):
        if os.geteuid() == 0:
            os.chown(self.room, 65534, 65534)
        if self.like:
            subprocess.run(["cp", "-a", f"{self.like}/data", self.room], check=True)
            self.begin()
            return self
        make = ["--no-sync", "--encoding=UTF8", "--locale=C", "--auth=trust", "--username=datacube"]
        made = self.call([*self.front, f"{self.binaries}/initdb", "-D", f"{self.room}/data", *make])
        if made.returncode:
            sys.exit(f"initdb failed: {made.stderr.decode(errors='replace').strip()}")
        self.begin()
        self.ask((IS_NUMBER + IS_DECIMAL + FRACTION + VARIANCE + HELD).encode())
        return self

    def __exit__(self, *_):
        self.end()

    def begin(self):
        """Begins to serve, with a log that grows."""
        settings = [word for it in self.settings for word in ("-c", it)]
        serve = [f"{self.binaries}/postgres", "-D", f"{self.room}/data", "-k", self.room, *settings]
        with open(f"{self.room}/log", "ab") as log:
            how = {"stdin": subprocess.DEVNULL, "stdout": log, "stderr": log, "env": self.env, "cwd": "/"}
            self.process = subprocess.Popen([*self.front, *serve], **how)
        self.wait()

    def end(self, how=signal.SIGINT):
        """Ends the server, by the signal of a fast shutdown or of another one."""
        self.process.send_signal(how)
        self.process.wait()

    def call(self, command, given=b""):
        how = {"stdout": subprocess.PIPE, "stderr": subprocess.PIPE, "timeout": SECONDS, "env": self.env, "cwd": "/"}
        return subprocess.run(command, input=given, **how)

    def wait(self):
        """Waits until the server answers, as it says in a file of its own: in its first line its process, in its last one whether so."""
        for _ in range(3000):
            if self.process.poll() is not None:
                break
            with contextlib.suppress(FileNotFoundError):
                lines = programs.text_at(f"{self.room}/data/postmaster.pid").split()
                if lines and (lines[0], lines[-1]) == (str(self.process.pid), "ready"):
                    return
            time.sleep(0.01)
        self.process.kill()
        sys.exit(f"the server doesn't answer: {programs.read(f'{self.room}/log').decode(errors='replace').strip()}")

    def ask(self, script):
        """What psql says of a script."""
        words = ["-X", "-q", "-v", "ON_ERROR_STOP=1", "-h", self.room, "-U", "datacube", "-d", "postgres"]
        said = self.call([f"{self.binaries}/psql", *words], script)
        if said.returncode:
            raise RuntimeError("PostgreSQL: " + said.stderr.decode(errors="replace").strip())
        return said.stdout

    def answers(self, schema, feeds, conditions=()):
        """The status, and what `refusals` and `print` have to write, over the records of feeds, of the facts of which conditions hold."""
        refusals, _, rows = self.ask(script_of(schema, feeds, conditions)).partition(END_OF_REFUSALS)
        wanted = {"refusals": b"source,record,code\n" + refusals, "print": oracle.text_of(schema, []) + rows}
        return 4 if refusals else 0, wanted


def read_schema(path):
    """The schema of a file that the program takes."""
    table = tomllib.loads(programs.text_at(path))
    if "feed" in table:
        sys.exit(f"{path}: with [feed] columns are known by name, and this script reads them in the order of the schema alone")
    aggregates = [oracle.aggregate_of(it, table["measures"]) for it in table["aggregates"]]
    rest = {it: table[it] for it in ("grouping", "version", "max_records", "decimals", "texts") if it in table}
    return oracle.Schema(table["dimensions"], table["measures"], aggregates, **rest)


def read_feed(path):
    """The records of a feed, the header too, as Python's csv splits them."""
    csv.field_size_limit(2**31 - 1)
    with open(path, encoding="utf-8-sig", errors="surrogateescape", newline="") as file:
        return [[it.encode(errors="surrogateescape") for it in fields] for fields in csv.reader(file) if fields]


def is_held(fields):
    """Whether PostgreSQL can hold the fields of a record."""
    whole = b",".join(fields)
    return b"\0" not in whole and oracle.is_text(whole)


class Trials(programs.Room):
    """What passed and what failed, and what was seen on the way."""

    def __init__(self, server, program, folder):
        super().__init__(program, folder)
        self.server, self.tally = server, programs.Tally()
        self.records = self.lines = self.refused = self.left_out = self.conditions = 0

    def note(self, name, why):
        """Counts a case, which failed where it says why."""
        self.tally.note(not why, name + (f": {why}" if why else ""))

    def trial(self, name, schema_path, paths, words=()):
        """Compares over a schema's feeds, of the facts that the words of conditions say, and counts that as a case."""
        try:
            why = self.compare(schema_path, paths, words)
        except (OSError, RuntimeError, csv.Error, subprocess.SubprocessError) as error:
            why = str(error)
        self.note(name, why)

    def kept(self, records):
        """The records that PostgreSQL can hold; the others are counted."""
        kept = [it for it in records if is_held(it)]
        self.left_out += len(records) - len(kept)
        return kept

    def compare(self, schema_path, paths, words=()):
        """Says how the program and SQL differ over the feeds, of the facts that words say, or gives None."""
        files, feeds = [], []
        for at, path in enumerate(paths):
            records = read_feed(path)
            kept = self.kept(records)
            feeds.append(kept[1:])
            files.append(path if kept == records else self.write(f"kept{at}.csv", oracle.encode(kept)))
        some = [part for it in words for part in (b"--where", it)]
        ran = {it: self.run([it, *options, schema_path, *files], seconds=SECONDS) for it, options in (("refusals", []), ("print", some))}
        for status, _, err in ran.values():
            if status not in (0, 4):
                return err.decode(errors="replace").strip()
        schema = read_schema(schema_path)
        if any(len(it.encode()) > LONGEST_NAME or "\0" in it for it in schema.dimensions + schema.measures):
            return f"PostgreSQL holds no name of a column with a NUL or more than {LONGEST_NAME} bytes"
        status, wanted = self.server.answers(schema, feeds, oracle.conditions_of(schema, words))
        self.conditions += len(words)
        self.records += sum(map(len, feeds))
        self.refused += wanted["refusals"].count(b"\n") - 1
        self.lines += wanted["print"].count(b"\n") - 1
        faults = (differs(it, *ran[it][:2], status, wanted[it]) for it in ran)
        return next(filter(None, faults), None)

    def seen(self):
        said = f"{self.records} records, {self.refused} refused, {self.lines} lines of cubes, {self.conditions} conditions"
        left = f"; {self.left_out} records left out, with a NUL or bytes that aren't UTF-8"
        return said + (left if self.left_out else "")


def differs(command, got, out, status, wanted):
    """Says how a command's status and output differ from what SQL says, or gives None."""
    if got != status:
        return f"{command} ends with status {got}, and not {status}"
    if out == wanted:
        return None
    place = len(os.path.commonprefix([out, wanted]))
    ours, theirs = (it[max(place - 40, 0) : place + 80] for it in (out, wanted))
    return f"{command} differs in line {wanted.count(10, 0, place) + 1}: it has {ours!r}, and SQL {theirs!r}"


def examples(trials):
    """The examples, and whether docs/SQL.md shows what is asked over the second."""
    sample = trials.path(trials.write("sample.toml", oracle.SAMPLE.toml()))
    trials.trial("examples/first", sample, [f"{ROOT}/examples/first/feed.csv"])
    shop = f"{ROOT}/examples/shop"
    feeds = [f"{shop}/{it}.csv" for it in ("market", "street", "online")]
    trials.trial("examples/shop", f"{shop}/schema.toml", feeds)
    for words in (["city=Leeds,York"], ["city!=York", "cents>=400"], ["city=\\N"], ["product<tea", "pieces!=\\N,1"]):
        trials.trial(f"examples/shop, {' and '.join(words)}", f"{shop}/schema.toml", feeds, words=[it.encode() for it in words])
    page = programs.text_at(f"{ROOT}/docs/SQL.md")
    parts = [IS_NUMBER, IS_DECIMAL, FRACTION, VARIANCE, HELD, RECORDS, *statements(read_schema(f"{shop}/schema.toml")).values()]
    missing = [it.strip() for it in parts if it.strip() not in page]
    trials.note("docs/SQL.md shows what is asked of the shop", f"it lacks {missing[0]!r}" if missing else None)


def show(program, path, files):
    """Shows the SQL for a schema that the program takes, with the records of feeds."""
    checked = subprocess.run([program, "check", path], stdout=subprocess.DEVNULL)
    if checked.returncode:
        return checked.returncode
    feeds = [read_feed(it)[1:] for it in files]
    filled = [copy_records(feeds)] if feeds else []
    ends = lambda text: text.strip().removesuffix(";") + ";\n"
    made = map(ends, statements(read_schema(path)).values())
    print("\n".join([*map(ends, [*functions_of(read_schema(path)), RECORDS]), *filled, *made]), end="")
    left_out = sum(not is_held(it) for records in feeds for it in records)
    if left_out:
        print(f"{left_out} records left out, with a NUL or bytes that aren't UTF-8", file=sys.stderr)
    return 0


def main():
    given = programs.words_of(__doc__, program=None, show=False, schema={"nargs": "?"}, feed={"nargs": "*"})
    if given.show and not given.schema:
        given.error("--show wants a schema")
    binaries = newest_server()
    if not tomllib or not binaries and not given.show:
        print("Debian's package postgresql isn't installed" if tomllib else "Python 3.11 or later isn't installed")
        print("0 passed, 0 failed")
        return programs.LEFT_OUT
    if given.show:
        return show(given.program, given.schema, given.feed)
    folder = lambda: tempfile.TemporaryDirectory(prefix="datacube-sql-")
    with folder() as room, folder() as ours, Server(binaries, room) as server:
        trials = Trials(server, given.program, ours)
        if given.schema:
            trials.trial(given.schema, os.path.abspath(given.schema), [os.path.abspath(it) for it in given.feed])
        else:
            examples(trials)
    print(f"        {trials.seen()}")
    return trials.tally.end()


if __name__ == "__main__":
    sys.exit(main())
