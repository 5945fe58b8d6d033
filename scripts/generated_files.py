"""Generated CSV files of a source of choices (see generated.py), and the values of the options that ask for their columns."""
import oracle
from generated import seeded, spelling

NAMES = [b"city", b"when", b"price", b"qty", b"zip", b"order no", b"id", b"op", b"*", b"", b"a:7", b"when:7", b"op_", b"no-2",
         b"Phone", b'a"b', b"a,b", b"it's", b"-x", b"l\nm", b"\xff", b"sum of it", b"caf\xc3\xa9", b"t\x01", b"x_year", b"myyear"]
TEXTS = [b"York", b"Leeds", b"", b"NA", b"null", b"\\N", b"a;b", b"a,b", b'x"y', b"\xc3\xa9"]
ODD = [b"1.5", b"2", b"NA", b"9223372036854775807", b"-9223372036854775808", b"0.000000000000000001", b"1e3", b".5", b"5.", b"+7",
       b"-0", b"21.0"]

day = lambda rng: b"2026-%02d-%02d" % (rng.randint(1, 12), rng.randint(1, 31))
# (what makes a field of a column, from the number of its record)
COLUMNS = [
    lambda rng, _: rng.choice(TEXTS),
    lambda rng, _: b"%d" % rng.randint(-5, 5),
    lambda rng, _: b"%d.%02d" % (rng.randint(0, 50), rng.randint(0, 99)),
    lambda rng, _: b"%d,%02d" % (rng.randint(0, 50), rng.randint(0, 99)),
    lambda rng, _: day(rng) + rng.choice([b"", b"T10:00"]),
    lambda rng, _: b"%04d" % rng.randint(0, 9999),
    lambda rng, at: b"%d" % at,
    lambda rng, _: rng.choice([b"NA", b""]),
    lambda rng, _: rng.choice(ODD),
    lambda rng, at: b"t%d" % at,
    lambda rng, _: rng.choice([b"a", b"\xff"]),
    lambda rng, _: rng.choice([b"21.0", b"7.000", b"1"]),
]


def file_of(rng):
    """The names and the number of records of a file, and its bytes."""
    width, count = rng.choice([1, 2, 3, 5, 8, 12]), rng.choice([1, 0, 3, 20, 25, 60, 60])
    if rng.random() < 0.05:
        width, count = rng.choice([(3, 1200), (130, 3)])
    names = [b"c%d" % at if rng.random() < 0.2 else rng.choice(NAMES) for at in range(width)]
    if rng.random() < 0.6:
        names = [b"%s%d" % (it, at) if it in names[:at] else it for at, it in enumerate(names)]
    columns = [rng.choice(COLUMNS) for _ in names]
    seed = seeded(rng) if width * count > 300 else rng
    records = [names, *([field(seed, at) for field in columns] for at in range(1, count + 1))]
    if count and rng.random() < 0.1:
        records[rng.randint(1, count)].append(b"more")
    data = oracle.encode(records, spelling(rng), rng.choice([b",", b",", b";", b"\t", b"|"]))
    data = oracle.MARK + data if rng.random() < 0.1 else data
    return names, count, data[: rng.randrange(len(data) + 1)] if rng.random() < 0.05 else data


def columns_asked(rng, names, most):
    """The value of an option, or None."""
    if rng.random() >= 0.5:
        return None
    if rng.random() < 0.05:
        return rng.choice([b"", b"a\nb", b"\n"])
    behind = [b"", b"", b"", b":7", b":2", b":0", b":256", b":", b":+1"]
    count = rng.choice([1, 2, 3, most, most + 1])
    fields = [rng.choice(NAMES if rng.random() < 0.05 else names) + rng.choice(behind) for _ in range(count)]
    fields = fields if rng.random() < 0.2 else list(dict.fromkeys(fields))
    fields = [it for it in fields if oracle.is_text(it) and b"\n" not in it] or [b"city"]
    return oracle.encode([fields]).strip(b"\r\n")
