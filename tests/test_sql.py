"""The same question in SQL: what a private PostgreSQL says of generated feeds beside what the program writes, byte for byte."""
import tempfile
from decimal import Context, Decimal
from fractions import Fraction

import generated as make
import oracle
import pytest
import sql
from strategies import tries


@pytest.fixture(scope="session")
def server():
    """A PostgreSQL of this run alone."""
    if not sql.newest_server():
        pytest.skip("Debian's package postgresql isn't installed")
    with tempfile.TemporaryDirectory(prefix="datacube-sql-") as folder, sql.Server(sql.newest_server(), folder) as begun:
        yield begun


@tries(50)
def test_sql(room, rng, server):
    schema, feeds = make.random_case(rng)
    schema.max_records = make.MOST
    feeds = [[it for it in records if sql.is_held(it)] for records in feeds]
    words = [make.random_condition(rng, schema) for _ in range(rng.choice([0, 1, 1, 2, 3]))]
    words = [it for it in words if oracle.condition_of(schema, it) != "P8"]
    files = [room.write("schema.toml", schema.toml())]
    files += [room.write(f"feed{at}.csv", oracle.encode([schema.header(), *it], make.spelling(rng))) for at, it in enumerate(feeds)]
    status, wanted = server.answers(schema, feeds, oracle.conditions_of(schema, words))
    room.expect(["refusals", *files], (status, wanted["refusals"], b""))
    room.expect(["print", *(part for it in words for part in (b"--where", it)), *files], (status, wanted["print"], b""))


@tries(20)
def test_its_own_variances(room, rng, server):
    """What is wanted of a variance is, rounded, what PostgreSQL's own says of it."""
    most, places = rng.choice([3, 10**4, oracle.GREATEST]), rng.choice([0, 0, 2, 18])
    values = make.series(rng, 30, lambda rng: rng.randint(-most - 1, most)) or [0]
    listed = ", ".join(oracle.decimal(it, places) for it in values)
    asked = f"SELECT var_pop(it), var_samp(it) FROM unnest(ARRAY[{listed}]::numeric[]) AS it"
    said = server.ask(rf"COPY ({asked}) TO STDOUT WITH (FORMAT csv, NULL '\N');".encode()).decode().rstrip("\n").split(",")
    for is_sample, theirs in enumerate(said):
        ours = oracle.variance(values, bool(is_sample), places)
        assert (ours == "\\N") == (theirs == "\\N")
        if ours != "\\N":
            assert rounded(Fraction(ours), theirs) == Decimal(theirs), (values, places, ours)


def rounded(value, like):
    """A fraction as a number with so many digits behind the point as a text has, rounded half away from zero."""
    digits = len(like.partition(".")[2])
    units = (value * 10**digits * 2 + 1) // 2
    return Decimal(units).scaleb(-digits, Context(prec=200))
