"""`live` over generated sessions, beside scripts/oracle.py: the bytes of all answers, the status, standard error.

Each session is asked twice: its whole input at once, and by a pipe, where each question is answered before the next record is
written; now and then a record goes in two pieces. With --records N one more is a long session of so many records.
"""
import random
import subprocess
import threading

import generated as make
import oracle
import pytest
from programs import SECONDS
from rooms import said
from strategies import tries

COORDINATES = [b"\\A", b"?", b"\\A", b"\\N", b"=", b"=a", b"=b", b"=west", b"=a,b", b'="', b"=\\N", b"a", b"", b"=\xff"]
WRONG = [[b"Print"], [b"0", b"I"], [b"65", b"I"], [b"01", b"I"], [b"+1", b"I"], [b""], [b"\xff", b"a"], [b"print", b""], [b"slice"],
         [b" print"], [b"refusals", b"1"], [b"refusals", b"65", b"0"], [b"refusals", b"1", b"00"], [b"refusals", b"1", b""],
         [b"refusals", b"\xff", b"0"], [b"refusals", b"1", b"-1"], [b"refusals", b"1", b"0", b"0"], [b"stop"], [b"sync", b""], [b"1 ", b"D", b"a"]]


def question(rng, schema):
    """A question, most often one that has an answer."""
    kind = rng.random()
    if kind < 0.08:
        return rng.choice(WRONG)
    if kind < 0.18:
        return [b"refusals", b"%d" % rng.randint(1, 4), b"%d" % rng.choice([0, 1, 5, rng.randrange(3000), 2**32])]
    if kind > 0.88:
        return rng.choice([[b"print"], [b"refusals"], [b"sync"]])
    some = COORDINATES if rng.random() < 0.1 else COORDINATES[2:8] if rng.random() < 0.3 else COORDINATES[:8]
    cell = [rng.choice(some) for _ in schema.dimensions]
    cell += [b"?"] if rng.random() < 0.02 else []
    if rng.random() < 0.4:
        return [b"slice", *cell]
    name = rng.choice([b"", b"\xff", b"colour"]) if rng.random() < 0.05 else rng.choice(schema.dimensions).encode()
    cell = [it if it != b"?" or rng.random() < 0.1 else b"\\A" for it in cell]
    return [rng.choice([b"drill", b"rollup"]), name, *cell]


def session(rng):
    """A schema, the data records of feeds, and the records of a session."""
    schema = make.random_schema(rng, True)
    if len(schema.masks) > 32:
        schema = oracle.Schema(schema.dimensions, schema.measures, schema.aggregates, "rollup", schema.version, schema.max_records,
                               schema.feed, schema.decimals, schema.texts)
    texts, ids = rng.sample(make.TEXTS, rng.randint(2, 6)), rng.choice([2, 5, 12])
    change = lambda rng: make.random_record(rng, schema, texts, ids)
    most = rng.choice([3, 30])
    feeds = [make.series(rng, most, change)[:schema.max_records] for _ in range(rng.choice([0, 0, 1, 2, 64]))]
    sources, share = [1, 2, 3] + rng.choice([[], [64], list(range(1, 65))]), rng.choice([0.1, 0, 0.5, 1])

    def record(rng):
        made = question(rng, schema) if rng.random() < share else [b"%d" % rng.choice(sources), *change(rng)]
        return made[:1] if rng.random() < 0.005 else made

    return schema, feeds, make.series(rng, rng.choice([20, 20, 200, 200, 3000]), record)


def long_session(count, rng):
    """A schema, the data records of feeds, and so many records of a session over thousands of facts, of five sources with a thousand
    ids each, of which one in a hundred is a question."""
    schema = oracle.Schema(["region", "kind", "shop"], ["amount", "pieces"],
                           [("count", None), ("sum", 0), ("min", 0), ("max", 0), ("avg", 0), ("min", 1), ("max", 1), ("count", 1),
                            ("count distinct", 0), ("percentile_disc 0.5", 0), ("percentile_disc 0.95", 1), ("sum_of_squares", 1),
                            ("var_pop", 1), ("var_samp", 0), ("values", 1)])
    change = lambda: make.random_record(rng, schema, make.TEXTS[1:8], 1000)
    feeds = [[change() for _ in range(2000)] for _ in range(2)]
    records = [question(rng, schema) if rng.random() < 0.01 else [b"%d" % rng.randint(1, 5), *change()] for _ in range(count)]
    return schema, feeds, records


def tail(rng, record):
    """The bytes in which the input ends: most often none, else a record whose last quote isn't closed, or odd ones."""
    quoted = b",".join(b'"' + it.replace(b'"', b'""') + b'"' for it in record)
    odd = [quoted[:-1], quoted[:-1], quoted, quoted[:-1] + b"\n", b"3", b'""', b"print", b"\r\n\n", b'"print']
    return rng.choice(odd) if rng.random() < 0.4 else b""


def replies(live, records):
    """The replies to records one by one, and the line of the failure that ends them or None."""
    made = []
    try:
        for record in records:
            made.append(live.reply(record))
    except oracle.Failure as failure:
        return made, failure.line
    return made, None


def by_pipe(room, words, pieces):
    """Writes piece by piece, and after each reads as many bytes as its answer should have; what came, as from `run`."""
    streams = {it: subprocess.PIPE for it in ("stdin", "stdout", "stderr")}
    with subprocess.Popen([room.program, *words], cwd=room.folder, **streams) as live:
        late = threading.Timer(SECONDS, live.kill)
        late.start()
        out = []
        try:
            for piece, size in pieces:
                live.stdin.write(piece)
                live.stdin.flush()
                out.append(live.stdout.read(size) if size else b"")
        except BrokenPipeError:
            pass
        rest, told = live.communicate()
        late.cancel()
        return live.returncode, b"".join(out) + rest, told


def pieces_of(seed, records, made):
    """The bytes of each record, now and then in two pieces, with how many bytes answer it."""
    for at, record in enumerate(records):
        data, size = oracle.encode([record]), len(made[at]) if at < len(made) else 0
        cut = seed.randrange(len(data)) if seed.random() < 0.05 else 0
        yield from [(data[:cut], 0), (data[cut:], size)] if cut else [(data, size)]


def is_as_run(schema, feeds, records, live, shard):
    """Whether the oracle's session ends where a run over the feeds, each with its changes after it, would; a session over a
    shard numbers its changes in another way."""
    feeds = feeds + [[]] * (oracle.MOST_FEEDS - len(feeds))
    changes = lambda source: [it[1:] for it in records if it[0] == b"%d" % source]
    run = oracle.Run(schema, [it + changes(source) for source, it in enumerate(feeds, 1)], shard)
    is_same = (run.print(), run.status) == (live.run().print(), live.status())
    return is_same and (shard != (1, 1) or run.refusals() == live.refusals())


def asked_twice(room, rng, schema, feeds, records):
    """Asks the records of a session at once, and by a pipe."""
    room.write("schema.toml", schema.toml())
    pairs = [make.written(rng, schema, it) for it in feeds]
    names, feeds = [room.write(f"feed{at}.csv", data) for at, (data, _) in enumerate(pairs)], [it for _, it in pairs]
    shard = rng.choice([(1, 1), (1, 1), (1, 2), (3, 3)])
    options = rng.choice([[], ["--ring", "1"], ["--threads", "2"]]) + (["--shard", "%d/%d" % shard] if shard != (1, 1) else [])
    data = tail(rng, rng.choice(records) if records else [b"print"])
    last = oracle.records_of(data)
    live = oracle.Session(schema, feeds, shard)
    made, line = replies(live, records + last)
    assert line or is_as_run(schema, feeds, records + last, live, shard), "the oracle's own session isn't as its run"
    wanted = 1 if line else live.status(), b"".join(made), said(line)
    words = ["live", *options, "schema.toml", *names]
    text = oracle.encode(records, make.spelling(rng))
    text += data if not text or text.endswith(b"\n") else b"\n" + data
    room.expect(words, wanted, text)
    pieces = [*pieces_of(make.seeded(rng), records, made), (data, 0)]
    room.compare(by_pipe(room, words, pieces), words, wanted, b"".join(it for it, _ in pieces))


@tries(40)
def test_sessions(room, rng):
    asked_twice(room, rng, *session(rng))


def test_a_long_session(room, request):
    count = request.config.getoption("--records")
    if not count:
        pytest.skip("a long session of N records is tried with --records N")
    room.begin(request.node.name)
    rng = random.Random("a long session")
    asked_twice(room, rng, *long_session(count, rng))
