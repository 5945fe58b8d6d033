"""Cubes of facts that are at hand, by hand and beside scripts/oracle.py."""
import datetime
import random
import sys
import unittest
from decimal import Decimal
from fractions import Fraction

import beside
import jackraisin
import oracle
from beside import rows_like
from jackraisin import ALL, cube_of

SALES = [
    {"city": "York", "year": 2025, "cents": 350, "note": "x"},
    {"city": "York", "year": 2026, "cents": 450, "note": "y"},
    {"city": None, "year": 2026, "cents": None, "note": "z"},
]


class ByHand(unittest.TestCase):
    def test_rows(self):
        cube = cube_of(SALES, by=["city", "year"], of={"cents": ["sum", "avg"]})
        self.assertEqual((cube.dimensions, cube.aggregates, cube.refused), (("city", "year"), ("count(*)", "sum(cents)", "avg(cents)"), False))
        self.assertEqual(beside.rows_of(cube), [
            (("York", "2025"), (1, 350, 350)), (("York", "2026"), (1, 450, 450)), (("York", ALL), (2, 800, 400)),
            ((None, "2026"), (1, None, None)), ((None, ALL), (1, None, None)),
            ((ALL, "2025"), (1, 350, 350)), ((ALL, "2026"), (2, 450, 450)), ((ALL, ALL), (3, 800, 400))])
        self.assertEqual(cube_of(iter(SALES), by=["city"], of={"cents": "max"})[-1].answers, (3, 450))
        total = cube_of(SALES, by=["city"], of={"cents": ["count(distinct)", "percentile_disc(0.5)", "percentile_disc(0.51)"]})[-1]
        self.assertEqual([total[f"{it}cents)"] for it in ("count(distinct ", "percentile_disc(0.5,", "percentile_disc(0.51,")], [2, 350, 450])
        total = cube_of(SALES, by=["city"], of={"cents": ["sum_of_squares", "var_pop", "var_samp"]})[-1]
        self.assertEqual(total.answers[1:], (325000, Fraction(2500), Fraction(5000)))
        self.assertEqual([it["values(cents)"] for it in cube_of([*SALES, SALES[0]], by=["city"], of={"cents": "values"})], [{350: 2, 450: 1}, {}, {350: 2, 450: 1}])
        self.assertEqual(cube_of([{"measure": "a"}], by=["measure"])[0].key, ("a",))
        self.assertEqual(beside.rows_of(cube_of(SALES, by=["city"]).where({})), [((ALL,), (3,))])

    def test_dates(self):
        day = datetime.date(2026, 2, 1)
        self.assertEqual(cube_of([{"day": day}], by=["day"])[0].key, ("2026-02-01",))

    def test_a_frame(self):
        try:
            import pandas
        except ImportError:
            self.skipTest("there is no pandas")
        frame = pandas.DataFrame(SALES)
        self.assertEqual(str(frame["cents"].dtype), "float64", "null has made floats of it")
        wanted = cube_of(SALES, by=["city", "year"], of={"cents": ["sum", "avg"]}).text
        self.assertEqual(cube_of(frame, by=["city", "year"], of={"cents": ["sum", "avg"]}).text, wanted)
        frame["cents"] = frame["cents"].astype("Int64")
        self.assertEqual(cube_of(frame, by=["city", "year"], of={"cents": ["sum", "avg"]}).text, wanted)
        self.assertRaises(jackraisin.Unsayable, cube_of, frame, by=["colour"])

    def test_what_isnt_exact_is_refused(self):
        exact = lambda value: cube_of([{"a": "x", "m": value}], by=["a"], of={"m": "sum"})[-1]["sum(m)"]
        self.assertEqual([exact(it) for it in (-3.0, 2.0**53 - 1, 2**63 - 1, -(2**63))], [-3, 2**53 - 1, 2**63 - 1, -(2**63)])
        for value in (0.5, 2.0**53, float("inf"), "5", Fraction(1, 2)):
            self.assertRaises(TypeError, exact, value)
        self.assertRaises(jackraisin.Unsayable, exact, 2**63)

    def test_decimals(self):
        rows = [{"a": "x", "m": Decimal("19.2")}, {"a": "x", "m": 5.3}, {"a": "y", "m": 3}, {"a": "y", "m": None}, {"a": "y", "m": -0.0}]
        cube = cube_of(rows, by=["a"], of={"m": ["sum", "avg"]}, decimals={"m": 2})
        self.assertEqual(cube.text, "a,grouping(a),count(*),sum(m),avg(m)\nx,0,2,24.50,49/4\ny,0,3,3.00,3/2\n\\N,1,5,27.50,55/8\n")
        exact = lambda value: str(cube_of([{"a": "x", "m": value}], by=["a"], of={"m": "sum"}, decimals={"m": 2})[-1]["sum(m)"])
        self.assertEqual([exact(it) for it in (0.1, -0.05, 1e3, 2**40 + 0.25, 7, Decimal("1.230"), Decimal("92233720368547758.07"))],
                         ["0.10", "-0.05", "1000.00", "1099511627776.25", "7.00", "1.23", "92233720368547758.07"])
        for value in (0.125, 0.1 + 0.2, Decimal("0.001"), Decimal("NaN"), 2**63, Decimal("92233720368547758.08")):
            self.assertRaises(jackraisin.Unsayable, exact, value)
        for value in (2.0**53, float("inf"), "5", Fraction(1, 2)):
            self.assertRaises(TypeError, exact, value)
        with self.assertRaises(jackraisin.Failure) as caught:
            cube_of([{"a": "x", "m": 1}], by=["a"], of={"m": "sum"}, decimals={"a": 2})
        self.assertEqual(caught.exception.code, "S12")

    def test_texts(self):
        of = {"note": ["count", "count(distinct)"], "cents": "sum"}
        cube = cube_of([*SALES, SALES[0]], by=["city"], of=of, texts=["note"])
        self.assertEqual(beside.rows_of(cube), [(("York",), (3, 3, 2, 1150)), ((None,), (1, 1, 1, None)), ((ALL,), (4, 4, 3, 1150))])
        said = [datetime.date(2026, 2, 1), "2026-02-01", 7, "7", "07", "", None, float("nan"), "\\=", "a,\r\nb"]
        total = lambda rows, **how: cube_of([{"a": "x", "m": it} for it in rows], by=["a"], of={"m": ["count", "count(distinct)"]}, texts=["m"], **how)[-1]
        self.assertEqual(total(said).answers, (10, 8, 6))
        self.assertRaises(jackraisin.Unsayable, total, ["\\N"])
        for value in (1.5, True, b"x", datetime.datetime(2026, 2, 1)):
            self.assertRaises(TypeError, total, [value])
        self.assertRaises(TypeError, cube_of, SALES, by=["city"], of=of, texts="note")
        for code, kind, names in (("S7", "sum", ["cents"]), ("S13", "count", ["city"]), ("S13", "count", ["cents", "cents"])):
            with self.assertRaises(jackraisin.Failure) as caught:
                cube_of(SALES, by=["city"], of={"cents": kind}, texts=names)
            self.assertEqual((caught.exception.code, caught.exception.status), (code, 3))

    def test_texts_of_a_frame(self):
        try:
            import pandas
        except ImportError:
            self.skipTest("there is no pandas")
        frame = pandas.DataFrame([*SALES, {**SALES[0], "note": None}])
        cubes = [cube_of(frame, by=["city"], of={"note": "count(distinct)"}, texts=["note"])]
        frame["note"] = frame["note"].astype("category")
        cubes.append(cube_of(frame, by=["city"], of={"note": "count(distinct)"}, texts=["note"]))
        self.assertEqual([it.text for it in cubes], ["city,grouping(city),count(*),count(distinct note)\nYork,0,3,2\n\\N,0,1,1\n\\N,1,4,3\n"] * 2)

    def test_what_no_feed_says(self):
        for value in (1.5, True, b"x", datetime.datetime(2026, 2, 1), ALL):
            self.assertRaises(TypeError, cube_of, [{"a": value}], by=["a"])
        for row in ({"a": "\\N"}, {"a": "\ud800"}, {"b": "x"}):
            self.assertRaises(jackraisin.Unsayable, cube_of, [row], by=["a"])
        self.assertRaises(TypeError, cube_of, SALES, by="city")
        self.assertRaises(jackraisin.Unsayable, cube_of, [{"\ud800": "x"}], by=["\ud800"])
        with self.assertRaises(jackraisin.Failure) as caught:
            cube_of(SALES, by=["city", "city"])
        self.assertEqual(caught.exception.code, "S6")


class Generated(unittest.TestCase):
    @unittest.skipIf(sys.version_info < (3, 11), "this Python reads no TOML")
    def test_beside_the_oracle(self):
        texts = ["", "a", "a,b", 'say "b"', "c\r", "\r\n", "é", "?", "\\=", "\\A", None]
        for seed in range(20):
            rng = random.Random(f"made {seed}")
            by, measures = ["a", "b, c", '"'][: rng.randint(1, 3)], ["m", "n"][: rng.randint(1, 2)]
            of = {it: rng.sample(["sum", "min", "max", "avg"], rng.randint(1, 4)) for it in measures}
            rows = [{**{it: rng.choice(texts) for it in by}, **{it: rng.choice([None, 0, -7, 2**62, rng.randrange(99)]) for it in measures}} for _ in range(rng.randrange(30))]
            schema = oracle.schema_of(jackraisin.Schema(by, measures, ["count(*)", *(f"{kind}({it})" for it in measures for kind in of[it])]).toml().encode())
            field = lambda it: b"\\N" if it is None else str(it).encode()
            records = [[b"I", b"%d" % at, *(field(row[it]) for it in [*by, *measures])] for at, row in enumerate(rows)]
            with self.subTest(seed=seed):
                self.assertEqual(beside.rows_of(cube_of(rows, by=by, of=of)), rows_like(schema, oracle.Run(schema, [records]).rows))


if __name__ == "__main__":
    unittest.main()
