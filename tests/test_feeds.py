"""Commands over generated feeds, in the order of the schema and by the names of their columns, beside scripts/oracle.py."""
import os
import subprocess

import generated as make
import oracle
import programs
from programs import SECONDS
from rooms import said
from strategies import tries

# (its sub-command `run` is run_plain over a schema and feeds, where rt ci or rt run built it)
BENCH = f"{programs.ROOT}/crates/bench/out/bench"
# (the statuses of codes by their first letter)
STATUS = {"P": 2, "G": 1}


def feeds_of(room, rng):
    """The schema of a case, the data records of its feeds, their files, and the code of the fault of the lowest source or None."""
    schema, feeds = make.random_case(rng, True)
    room.write("case.toml", schema.toml())
    files, fault = [], None
    for at, records in enumerate(feeds):
        is_right = rng.random() >= 0.01
        data, feeds[at] = make.written(rng, schema, records, is_right)
        mark = oracle.MARK if is_right and rng.random() < 0.05 else b""
        files.append(room.write(f"case{at}.csv", mark + data))
        code = "F3" if not is_right else "F4" if len(records) > schema.max_records else None
        fault = fault or code and f"G3 {at + 1} {code}"
    return schema, feeds, files, fault


def options_of(rng):
    """Options that change nothing that is printed."""
    chosen = [("--ring", rng.choice([None, 1, 2, 64, 65536])), ("--builders", rng.choice([None, 1, 2, 3, 8])),
              ("--threads", rng.choice([None, None, 1, 2, 3, 4, 16]))]
    return [word for name, it in chosen if it for word in (name, str(it))]


def answer(code, status, text):
    """What is wanted of a run that ends by a code, or where that is None with a text."""
    return (STATUS[code[0]], b"", said(code)) if code else (status, text(), b"")


@tries(50)
def test_commands(room, rng):
    schema, feeds, files, fault = feeds_of(room, rng)
    options, (asked, conditions) = options_of(rng), make.random_conditions(rng, schema)
    strict = ["--strict"] if rng.random() < 0.25 else []
    whole = oracle.Run(schema, feeds) if not fault else None
    code = "P8" if conditions == "P8" else fault
    if strict and whole and whole.refused:
        code = code or "G7 %d %d %d" % whole.refused[0]
    run = oracle.Run(schema, feeds, conditions=conditions) if not code else None
    most = max(1, len(run.rows if run else []) + rng.choice([-1, 0, 1]))
    bound = ["--max-cells", str(most)] if rng.random() < 0.25 else []
    if bound and run and len(run.rows) > most:
        run, code = None, "G8"
    pattern = [rng.choice(["any", "any", None, oracle.ALL, *make.TEXTS[:4]]) for _ in schema.dimensions]
    key = [rng.choice([oracle.ALL, oracle.ALL, None, *make.TEXTS[:4]]) for _ in schema.dimensions]
    place, some, status = rng.randrange(len(schema.dimensions)), [*options, *strict, *bound, *asked], whole and whole.status
    below = run.drill(key, place) if run else b""
    code_below = below if isinstance(below, str) else code
    room.expect(["print", *some, "case.toml", *files], answer(code, status, lambda: run.print()))
    room.expect(["refusals", *options, "case.toml", *files], answer(fault, status, lambda: whole.refusals()))
    room.expect(["slice", *some, "case.toml", oracle.word_of(pattern), *files], answer(code, status, lambda: run.slice(pattern)))
    room.expect(["drill", *some, "case.toml", oracle.word_of(key), schema.dimensions[place], *files], answer(code_below, status, lambda: below))
    if os.path.exists(BENCH):
        words = [BENCH, "run", "case.toml", *files]
        plain = subprocess.run(words, cwd=room.folder, stdout=subprocess.PIPE, stderr=subprocess.DEVNULL, timeout=SECONDS)
        assert (plain.returncode == 0, plain.stdout) == (not fault, b"" if fault else whole.print()), "on one thread other text is printed"


@tries(50)
def test_record_bounds(room, rng):
    """Feeds whose records may have about as many bytes as one of them has, some of which end within quotes."""
    schema, feeds = make.random_case(rng, True)
    room.write("case.toml", schema.toml())
    data = []
    for records in feeds[:3]:
        mark, end = rng.choice([b"", b"", oracle.MARK]), rng.choice([b"", b"", b"", b'"x', b'\n"', b"\r\n\r\n"])
        data.append(mark + make.written(rng, schema, records, rng.random() >= 0.05)[0] + end)
    most = max(1, len(rng.choice(data[0].splitlines() or [b"x"])) + rng.choice([0, 0, -1, 1, 3000]))
    read = [oracle.data_records(schema, it, most) for it in data]
    code = next((f"G3 {at} {code}" for at, (_, code) in enumerate(read, 1) if code), None)
    run = None if code else oracle.Run(schema, [records for records, _ in read])
    words = ["--max-record", str(most), *options_of(rng), "case.toml"]
    words += [room.write(f"case{at}.csv", it) for at, it in enumerate(data)]
    room.expect(["print", *words], answer(code, run and run.status, lambda: run.print()))
    room.expect(["refusals", *words], answer(code, run and run.status, lambda: run.refusals()))


def served(session, records, most):
    """The answers to records until one ends the session, the code of that or None, how many records came before it, and how
    many of them are certain, where so many changes may wait: a change that would be one more comes behind a commit."""
    answers, waiting, certain = [], 0, 0
    for at, record in enumerate(records):
        try:
            answers.append(session.reply(record))
        except oracle.Failure as failure:
            return answers, failure.line, at, certain
        if answers[-1]:
            waiting, certain = 0, at + 1
        elif waiting == most:
            waiting, certain = 1, at
        else:
            waiting += 1
    return answers, None, len(records), len(records)


def first_parts(session, records, certain):
    """What is wanted of a question over a store that has a first part of these records, so many at least, part by part."""
    for at in range(len(records) + 1):
        if at >= certain:
            yield session.status(), session.run().print(), b""
        if at < len(records):
            session.reply(records[at])


def message(rng, schema, sources):
    """A change of one of the sources, or now and then a question."""
    if rng.random() >= 0.1:
        return [b"%d" % rng.choice(sources), *make.random_record(rng, schema, make.TEXTS, 10)]
    pattern = [rng.choice([b"?", b"\\A", b"\\N", b"=a"]) for _ in schema.dimensions]
    return rng.choice([[b"print"], [b"refusals"], [b"sync"], [b"slice", *pattern]])


@tries(50)
def test_sessions_over_a_store(room, rng):
    """A session over a store that gets changes and questions, and then what is asked of the store."""
    schema, feeds, files, fault = feeds_of(room, rng)
    sources, most = rng.choice([[1], [1, 2, 64]]), rng.choice([1, 1, 2, 3, 64, 10000, 1000000])
    records = make.series(rng, rng.choice([5, 5, 100]), lambda rng: message(rng, schema, sources))
    session = oracle.Session(schema, [] if fault else feeds)
    answers, code, taken, certain = ([], fault, 0, 0) if fault else served(session, records, most)
    options = rng.choice([[], ["--ring", "1"], ["--ring", "64"]]) + rng.choice([[], [], ["--wary"]]) + ["--commit-every", str(most)]
    kept = ["--store", "case.db", "case.toml", *files]
    wanted = 1 if code else session.status(), b"".join(answers), said(code)
    room.expect(["live", *options, *kept], wanted, oracle.encode(records, make.spelling(rng)), leaves=True)
    if fault:
        return room.expect(["print", *kept], (1, b"", said(fault)))
    asked, allowed = room.run(["print", *kept]), []
    for it in first_parts(oracle.Session(schema, feeds), records[:taken], certain):
        if asked == it:
            return None
        allowed.append(it)
    return room.fail("what was asked of the store is that of no first part of its changes", ["print", *kept], allowed[-1])
