"""The two other forms of a printed cube, `--json` and `--aligned`, beside those that scripts/views.py makes of its text: over feeds of
texts that are easy to get wrong."""
import json

import generated as make
import oracle
import views
from strategies import tries

# Texts that are hard to quote, to escape, to align or to cut.
TEXTS = ["a", "", "west", "a,b", 'say "no"', "\\", "\\n", "null", "(all)", "(null)", "0", "-1.5", "a\nb", "a\r\nb", "a\tb", "\x00",
         "\x01\x1f\x7f", "\x85", "\x1b[31m", "Zürich", "e\u0301", "日本", "ｱ", "한국", "Ω", "…", "𝄞", "\u200b", "x" * 60, "日" * 30]
NAMES = ["region", "kind", "grouping(a)", *filter(None, TEXTS)]


def number(rng):
    ends = rng.choice([(0, 1), (-1, 1), (-9, 9), (oracle.LEAST, oracle.GREATEST)])
    return b"\\N" if rng.random() < 0.17 else b"%d" % rng.randint(*ends)


def case_of(rng):
    """A schema and the records of a feed."""
    names, measure = rng.sample(NAMES, rng.randint(1, 3)), rng.choice(["amount", 'a"b', "日"])
    kinds = [("count", None), *((it, 0) for it in ("count", "sum", "min", "max", "avg", "sum_of_squares", "var_samp", "values"))]
    schema = oracle.Schema(names, [measure], [rng.choice(kinds) for _ in range(rng.randint(1, 6))])
    texts = [it.encode() for it in [*TEXTS, views.NULL]]
    facts = make.series(rng, 30, lambda rng: [*(rng.choice(texts) for _ in names), number(rng)])
    return schema, [[b"I", b"i%d" % at, *it] for at, it in enumerate(facts)]


@tries(60)
def test_forms(room, rng):
    schema, records = case_of(rng)
    most, dimensions = rng.choice([20, 21, 40, 79, 10000]), len(schema.dimensions)
    files = [room.write("s.toml", schema.toml()), room.write("f.csv", oracle.encode([schema.header(), *records]))]
    printed = oracle.Run(schema, [records]).print()
    lines = views.json_form(printed, dimensions)
    for options, text in [([], printed), (["--json"], lines), (["--aligned"], views.aligned_form(printed, dimensions)),
                          (["--aligned", "--width", str(most)], views.aligned_form(printed, dimensions, most=most))]:
        room.expect(["print", *options, *files], (0, text, b""))
    for line in lines.splitlines():
        json.loads(line)
