"""`schema` and `table` over generated files, beside scripts/guess.py and scripts/oracle.py.

Each file is asked for its schema, with options or none; where there is one and its cube isn't large, also for its table. Of a schema
that is guessed throughout no line is refused that has as many fields as the header.
"""
import guess
import oracle
from generated_files import columns_asked, file_of
from rooms import said
from strategies import event, tries

SPARE = 20_000


@tries(60)
def test_files(room, rng):
    names, count, data = file_of(rng)
    by, of = columns_asked(rng, names, 8), columns_asked(rng, names, 4)
    room.write("f.csv", data)
    options = [b"--by=" + by] if by is not None else []
    options += [b"--of=" + of] if of is not None else []
    try:
        text, line = guess.schema_text(data, by, of), None
    except guess.Wrong as it:
        text, line = b"", f"no columns: {it}"
    event("no schema" if line else "a schema")
    wanted = 2 if line else 0, text, said(line)
    room.expect(["schema", *options, "f.csv"], wanted)
    if line:
        return room.expect(["table", *options, "f.csv"], wanted)
    schema = oracle.schema_of(text)
    if count << len(schema.dimensions) > SPARE:
        return None
    records, fault = oracle.data_records(schema, data)
    if fault:
        return room.expect(["table", *options, "f.csv"], (1, b"", said(f"G3 1 {fault}")))
    run = oracle.Run(schema, [records], (1, 1))
    event(f"a table, status {run.status}")
    assert options or all(code == 2 for _, _, code in run.refused), "a whole line is refused under a schema that was guessed"
    status, out, err = room.run(["table", *options, "f.csv"])
    left = untold(run, len(records), lambda number: line_of(data, schema.delimiter(), number), err)
    return room.compare((status, out, left), ["table", *options, "f.csv"], (run.status, run.print(), b""))


def line_of(data, delimiter, number):
    """The line of a file, from 1, on which the data record with a number begins."""
    at = oracle.start_of(data)
    for _ in range(number):
        _, at = oracle.record_at(data, at, delimiter)
    while data[at : at + 1] in (b"\r", b"\n"):
        at += 1
    return 1 + data.count(b"\n", 0, at)


def untold(run, count, line_at, err):
    """What is left of the lines on standard error but for the one that tells how many of so many records were refused, and which
    is the first of them, with its line and its code; why it was is tried by cases."""
    if not run.refused:
        return err
    refused = len(run.refused)
    _, number, code = run.refused[0]
    verb, first = ("was", "it") if refused == 1 else ("were", "the first")
    begin = f"datacube: {refused} of {count} lines {verb} refused; {first} is f.csv, line {line_at(number)} (record {number}): "
    end = f" (code {code}). datacube refusals shows all.\n"
    is_told = err.startswith(begin.encode()) and err.endswith(end.encode()) and err.count(b"\n") == 1
    return b"" if is_told else err
