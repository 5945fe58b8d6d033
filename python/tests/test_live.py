"""Sessions, beside scripts/oracle.py."""
import os
import random
import signal
import subprocess
import tempfile
import threading
import unittest
from decimal import Decimal
from fractions import Fraction

import beside
import generated
import jackraisin
import oracle
from beside import needs, rows_like, rows_of
from jackraisin import ALL, ANY, KEEP, Live

PLAIN = jackraisin.Schema(["region", "kind"], ["amount"], ["count(*)", "sum(amount)", "avg(amount)"])
KEEPING = jackraisin.Schema(["region", "kind"], ["amount"], ["count(*)", "sum(amount)"], version=2)
NAMED = jackraisin.Schema(["region"], ["amount"], ["count(*)", "sum(amount)"], feed={"null": ["", "NA", "-1"], "delimiter": ";"})
CENTS = jackraisin.Schema(
    ["region"], ["price", "pieces"], ["count(*)", "sum(price)", "avg(price)", "sum(pieces)"], version=2,
    feed={"null": ["0.10"], "delimiter": ";", "point": ","}, decimals={"price": 2},
)
SOLD = jackraisin.Schema(
    ["city"], ["customer", "cents"], ["count(*)", "count(customer)", "count(distinct customer)", "sum(cents)"], version=2, texts=["customer"],
)
SHORT = jackraisin.Schema(["region"], ["amount"], ["count(*)"], max_records=2)
TEXTS = [it.decode() for it in generated.TEXTS]


class Player:
    """Makes a change in a session, and the same one in the oracle's."""

    def __init__(self, rng, schema, live, played):
        self.rng, self.schema, self.live, self.played = rng, schema, live, played

    def values(self, can_keep):
        keeps = [KEEP] if can_keep and self.schema.version == 2 else []
        says = [it for it in TEXTS if it != "\\N" and not (it == "\\=" and self.schema.version == 2)]
        dims = [self.rng.choice([None, *keeps, *says[:8]]) for _ in self.schema.dimensions]
        of_measure = lambda name: says[:8] if name in self.schema.texts else self.numbers(name)
        return dims, [self.rng.choice([None, *keeps, *of_measure(name)]) for name in self.schema.measures]

    def numbers(self, name):
        """Numbers of a measure: whole ones, and where it has decimals such too."""
        places = self.schema.decimals.get(name, 0)
        units = [0, -1, 12, 2**63 - 1, -(2**63)]
        return [Decimal(it).scaleb(-places) for it in units] + [0, -7, Decimal("-0.0")] if places else units

    def change(self):
        source, name, op = self.rng.choice([1, 2, 3, 64]), f"id {self.rng.randrange(6)}", self.rng.choice("IIUUDPPR" if self.schema.feed else "IIUUD")
        dims, measures = self.values(op == "U")
        field = lambda it: b"\\N" if it is None else b"\\=" if it is KEEP else (f"{it:f}" if isinstance(it, Decimal) else str(it)).encode()
        fields = [] if op in "DR" else list(map(field, [*dims, *measures]))
        self.played.reply([b"%d" % source, op.encode(), name.encode(), *fields])
        if op in "DR":
            (self.live.delete if op == "D" else self.live.remove)(source, name)
        else:
            make = {"I": self.live.insert, "U": self.live.update, "P": self.live.put}[op]
            make(source, name, self.given(self.schema.dimensions, dims), self.given(self.schema.measures, measures))

    def given(self, names, values):
        """Values in order, or by names without those that are kept."""
        return values if self.rng.random() < 0.5 else {name: it for name, it in zip(names, values) if it is not KEEP}

    def question(self, test):
        run, schema, kind = self.played.run(), self.schema, self.rng.randrange(5)
        wanted = beside.pattern(self.rng, schema, [it for it, _ in run.rows], [oracle.ALL, None, b"a"] + ["any"] * (kind == 0))
        at, given = self.rng.randrange(len(wanted)), beside.as_given(self.rng, schema, wanted)
        if kind == 0:
            test.assertEqual(rows_of(self.live.slice(given)), rows_like(schema, oracle.matching(run.rows, wanted)))
        elif kind == 1:
            answer = run.drill(wanted, at)
            if isinstance(answer, str):
                with test.assertRaises(jackraisin.Failure) as caught:
                    self.live.drill(given, schema.dimensions[at])
                test.assertEqual((caught.exception.line, caught.exception.status), (answer, None))
            else:
                test.assertEqual(self.live.drill(given, schema.dimensions[at]).text.encode(), answer)
        elif kind == 2:
            test.assertEqual(self.live.rollup(given, schema.dimensions[at]).text.encode(), run.rollup(wanted, at))
        elif kind == 3:
            test.assertEqual(rows_of(self.live.cube()), rows_like(schema, run.rows))
        else:
            test.assertEqual(self.live.refusals(), self.played.refused())
            after = self.rng.randrange(20)
            test.assertEqual(self.live.refusals(2, after), [it for it in self.played.refused() if it[0] == 2 and it[1] > after])


@needs("live")
class Generated(unittest.TestCase):
    def test_sessions(self):
        for seed in range(40):
            rng = random.Random(f"session {seed}")
            schema, feeds = beside.small_case(rng)
            schema.max_records, feeds = 2**32 - 1, feeds[: rng.choice([0, 1, 2, 64])]
            with self.subTest(seed=seed), beside.written(schema, feeds, rng) as paths:
                played = oracle.Session(schema, feeds)
                with Live(beside.schema_like(schema), paths) as live:
                    player = Player(rng, schema, live, played)
                    for _ in range(rng.choice([0, 5, 60])):
                        player.change() if rng.random() < 0.7 else player.question(self)
                    self.assertEqual(live.cube().text.encode(), played.run().print())
                self.assertEqual(live.status, played.status())


@needs("live")
class Puts(unittest.TestCase):
    """Changes that no id's being there refuses, under a schema with `feed`."""

    def test_generated(self):
        for seed in range(12):
            rng = random.Random(f"puts {seed}")
            schema, _ = beside.small_case(rng)
            schema.max_records, schema.feed = 2**32 - 1, oracle.Feed()
            played = oracle.Session(schema, [])
            with self.subTest(seed=seed), Live(beside.schema_like(schema)) as live:
                player = Player(rng, schema, live, played)
                for _ in range(rng.choice([5, 60])):
                    player.change() if rng.random() < 0.8 else player.question(self)
                self.assertEqual(live.cube().text.encode(), played.run().print())
                self.assertEqual(live.refusals(), played.refused())

    def test_twice_and_what_is_absent(self):
        with Live(NAMED) as live:
            live.remove(1, "a")
            live.put(1, "a", ["west"], [5])
            live.put(1, "a", {"region": "east"}, {"amount": None})
            live.put(1, "b", ["east"], [7])
            live.remove(1, "b")
            live.remove(1, "b")
            self.assertEqual([(it.key, it.answers) for it in live.cube()], [(("east",), (1, None)), ((ALL,), (1, None))])
        self.assertEqual(live.status, 0)

    def test_what_cant_be_said(self):
        with Live(PLAIN) as live:
            self.assertRaises(jackraisin.Unsayable, live.put, 1, "a", ["west", "a"], [5])
            self.assertRaises(jackraisin.Unsayable, live.remove, 1, "a")
        with Live(CENTS) as live:
            self.assertRaises(jackraisin.Unsayable, live.put, 1, "a", [KEEP], [5, 1])
            self.assertRaises(jackraisin.Unsayable, live.put, 1, "a", ["west"], [5, KEEP])
            self.assertRaises(jackraisin.Unsayable, live.put, 1, "", ["west"], [5, 1])
            self.assertRaises(jackraisin.Unsayable, live.remove, 1, "")
            self.assertRaises(jackraisin.Unsayable, live.put, 1, "a", {}, [5, 1])
            self.assertEqual(live.cube()[0].answers[0], 0)


@needs("live")
class Threads(unittest.TestCase):
    def test_changes_and_questions_of_many_threads(self):
        """Each thread has a source of its own; what each asks has all that it put in before, and nothing is torn."""
        with Live(PLAIN) as live:
            def work(source):
                for at in range(60):
                    live.insert(source, f"id {at}", [f"source {source}", "x" * 500], [at])
                    if at % 20 == 19:
                        counts.append(live.slice({"region": f"source {source}"})[0]["count(*)"] == at + 1)
            counts = []
            threads = [threading.Thread(target=work, args=[it]) for it in range(1, 9)]
            for it in threads:
                it.start()
            for it in threads:
                it.join()
            self.assertEqual(counts, [True] * 24)
            self.assertEqual(live.cube().at({})["sum(amount)"], 8 * sum(range(60)))
            self.assertEqual(live.refusals(), [])
        self.assertEqual(live.status, 0)

    def test_changes_while_a_large_answer_is_read(self):
        with Live(PLAIN) as live:
            for at in range(1500):
                live.insert(1, str(at), [f"region {at}", None], [at])
            asks = threading.Thread(target=lambda: sizes.append(len(live.cube())))
            sizes = []
            asks.start()
            for at in range(1500, 3000):
                live.insert(1, str(at), ["one more", "y" * 100], [at])
            asks.join()
            self.assertGreaterEqual(sizes[0], 3001)
            self.assertEqual(live.cube().at({})["count(*)"], 3000)


@needs("live")
class Says(unittest.TestCase):
    """What a change can say."""

    def test_what_a_feed_cant_say(self):
        with Live(PLAIN) as live, Live(KEEPING) as keeping:
            for call in (
                lambda: live.insert(1, "a", ["\\N", "x"], [1]),
                lambda: live.insert(1, "", ["w", "x"], [1]),
                lambda: live.insert(0, "a", ["w", "x"], [1]),
                lambda: live.insert(65, "a", ["w", "x"], [1]),
                lambda: live.insert(1, "a", ["w"], [1]),
                lambda: live.insert(1, "a", {"region": "w"}, [1]),
                lambda: live.insert(1, "a", {"region": "w", "kind": "x", "colour": "y"}, [1]),
                lambda: live.insert(1, "a", ["w", "x"], [2**63]),
                lambda: live.insert(1, "a", ["w", "\ud800"], [1]),
                lambda: live.insert(1, "a", [ALL, "x"], [1]),
                lambda: live.update(1, "a", [KEEP, "x"], [1]),
                lambda: live.update(1, "a", {"kind": "x"}, [1]),
                lambda: keeping.insert(1, "a", ["\\=", "x"], [1]),
                lambda: keeping.insert(1, "a", [KEEP, "x"], [1]),
                lambda: live.ask("1", "I", "a"),
            ):
                self.assertRaises(jackraisin.Unsayable, call)
            for call in (
                lambda: live.insert(1, "a", ["w", 5], [1]),
                lambda: live.insert(1, "a", ["w", "x"], [1.5]),
                lambda: live.insert(1, "a", "wx", [1]),
                lambda: live.insert(1, 7, ["w", "x"], [1]),
            ):
                self.assertRaises(TypeError, call)
            self.assertEqual((live.cube().at({})["count(*)"], live.refusals(), keeping.refusals()), (0, [], []))

    def test_what_is_null_by_the_schema(self):
        with Live(NAMED) as live:
            for values in (["", 1], ["NA", 1], ["\\N", 1], ["w", -1]):
                self.assertRaises(jackraisin.Unsayable, live.insert, 1, "a", values[:1], values[1:])
            live.insert(1, "NA", [None], [None])
            live.insert(1, "b", ["a;b"], [-2])
            live.insert(1, "c", {"region": "na"}, {"amount": 0})
            self.assertEqual(rows_of(live.cube()), [(("a;b",), (1, -2)), (("na",), (1, 0)), ((None,), (1, None)), ((ALL,), (3, -2))])

    def test_decimals(self):
        with Live(CENTS) as live:
            live.insert(1, "a", ["w"], [Decimal("19.2"), 1])
            live.insert_many(1, [("b", ["w"], [5, 1]), ("c", {"region": "w"}, {"price": Decimal("0.2500"), "pieces": None})])
            live.update(1, "b", {}, {"price": Decimal("5.3E+0")})
            self.assertEqual(live.cube().at({}).answers, (3, Decimal("24.75"), Fraction(33, 4), 2))
            for price in (Decimal("0.005"), Decimal("0.10"), Decimal("92233720368547758.08"), 92233720368547759, Decimal("NaN"), Decimal("-Infinity"),
                          Decimal("1E+99999"), Decimal("1E-99999")):
                self.assertRaises(jackraisin.Unsayable, live.insert, 1, "d", ["w"], [price, 1])
            for values in ([19.2, 1], ["19.2", 1], [Fraction(1, 2), 1], [1, Decimal(1)], [1, 1.0]):
                self.assertRaises(TypeError, live.insert, 1, "d", ["w"], values)
            live.insert(1, "d", [None], [Decimal("-92233720368547758.08"), None])
            live.insert(1, "e", [None], [Decimal("-0.00"), None])
            self.assertEqual(str(live.slice([None])[0]["sum(price)"]), "-92233720368547758.08")
            self.assertEqual(live.refusals(), [])

    def test_texts_that_are_counted(self):
        with Live(SOLD) as live:
            live.insert(1, "1", ["York"], ["Ann", 350])
            live.insert(1, "2", {"city": "York"}, {"customer": "Bob", "cents": 120})
            live.insert_many(1, [("3", ["York"], ["Ann", 80]), ("4", [None], ["", None]), ("5", [None], [None, 60]), ("6", [None], ["7", 1])])
            self.assertEqual(live.cube().at({"city": "York"}).answers, (3, 3, 2, 550))
            self.assertEqual(live.slice({})[0].answers, (6, 5, 4, 611))
            live.update(1, "2", {}, {"customer": "Ann"})
            live.delete(1, "1")
            live.update(1, "6", [KEEP], [KEEP, 7])
            self.assertEqual(live.cube().at({"city": "York"}).answers, (2, 2, 1, 200))
            self.assertEqual(live.slice({})[0].answers, (5, 4, 3, 267))
            for text in ("\\N", "\\=", "\ud800", ALL):
                self.assertRaises(jackraisin.Unsayable, live.insert, 1, "7", ["York"], [text, 1])
            for values in ([7, 1], [b"Ann", 1], [Decimal(1), 1], ["Ann", "1"]):
                self.assertRaises(TypeError, live.insert, 1, "7", ["York"], values)
            self.assertEqual(live.refusals(), [])

    def test_texts_that_look_like_marks(self):
        with Live(PLAIN) as live:
            live.insert(1, "\\N", ["\\=", '"a",\r\nb'], [1])
            live.insert(1, " ", ["", "?"], [None])
            self.assertEqual([it.key[0] for it in live.drill({}, "region")], ["", "\\="])
            self.assertEqual(live.slice(["\\=", ANY])[0].key[1], '"a",\r\nb')

    def test_an_amendment(self):
        with Live(KEEPING) as live:
            live.insert(1, "a", ["west", "x"], [5])
            live.update(1, "a", {"kind": "y"}, {})
            self.assertEqual(live.cube()[0].key, ("west", "y"))
            live.update(1, "a", [KEEP, None], [7])
            self.assertEqual((live.cube()[0].key, live.cube()[0].answers), (("west", None), (1, 7)))

    def test_questions_that_are_refused(self):
        with Live(PLAIN) as live:
            for line, call in (
                ("P4", lambda: live.drill({"kind": "x"}, "kind")),
                ("P3", lambda: live.drill({"kind": ANY}, "kind")),
                ("P5", lambda: live.rollup({}, "colour")),
                ("Q1", lambda: live.ask("stop")),
                ("Q2", lambda: live.ask("slice", "?")),
            ):
                with self.assertRaises(jackraisin.Failure) as caught:
                    call()
                self.assertEqual((caught.exception.line, caught.exception.status), (line, None))
            self.assertIn("mend:", str(caught.exception) if line[0] == "P" else "mend:")
        self.assertEqual(live.status, 0)


@needs("live")
class Ends(unittest.TestCase):
    """How sessions end."""

    def test_status(self):
        with Live(PLAIN) as live:
            live.delete(3, "nobody")
        self.assertEqual((live.status, live.close()), (4, 4))
        with self.assertRaises(jackraisin.Ended):
            live.cube()

    def test_shards(self):
        """A change goes to the sessions of all shards, and counts in one."""
        with Live(PLAIN, shard=(1, 2)) as one, Live(PLAIN, shard=(2, 2)) as two:
            for live in (one, two):
                for at in range(50):
                    live.insert(1, f"id {at}", ["west", "tea"], [at])
                live.delete(1, "nobody")
            counts = [live.slice({})[0]["count(*)"] for live in (one, two)]
            self.assertEqual((sum(counts), min(counts) > 0), (50, True))
            self.assertEqual(len(one.refusals() + two.refusals()), 1)

    def test_a_store(self):
        """A session over a store goes on where the last one ended, also where that was killed; another schema is refused."""
        with tempfile.TemporaryDirectory() as folder:
            store = os.path.join(folder, "sales.db")
            with Live(PLAIN, store=store) as live:
                live.insert(1, "a", ["west", "tea"], [2])
            live = Live(PLAIN, store=store, wary=True)
            live.insert(1, "b", ["west", None], [3])
            self.assertEqual(live.slice({})[0]["count(*)"], 2)
            os.kill(live._process.pid, signal.SIGKILL)
            live._process.wait()
            with Live(PLAIN, store=store) as live:
                self.assertEqual(live.slice({})[0]["count(*)"], 2)
                with self.assertRaises(jackraisin.Failure) as failed:
                    jackraisin.cube(PLAIN, [], store=store)
                self.assertEqual((failed.exception.line, failed.exception.status), ("D1", 1))
                with self.assertRaises(jackraisin.Ended) as caught:
                    Live(PLAIN, store=store)
                self.assertEqual((caught.exception.line, caught.exception.status), ("D1", 1))
            with self.assertRaises(jackraisin.Ended) as caught:
                Live(SHORT, store=store)
            self.assertEqual((caught.exception.line, caught.exception.status), ("D5 0", 1))

    def test_questions_over_a_store(self):
        """What is asked of a store is what its session answered last; a store that isn't there isn't made."""
        with tempfile.TemporaryDirectory() as folder:
            store = os.path.join(folder, "sales.db")
            with self.assertRaises(jackraisin.Failure) as caught:
                jackraisin.cube(PLAIN, [], store=store)
            self.assertEqual((caught.exception.line, caught.exception.status, os.listdir(folder)), ("D2", 1, []))
            with Live(PLAIN, store=store) as live:
                live.insert(1, "a", ["west", "tea"], [2])
                live.insert(1, "a", ["west", "tea"], [2])
                answers = (live.cube().text, live.slice({}).text, live.refusals())
            for wary in (False, True):
                cube, total = jackraisin.cube(PLAIN, [], store=store, wary=wary), jackraisin.slice(PLAIN, [], {}, store=store, wary=wary)
                self.assertEqual((cube.text, total.text, jackraisin.refusals(PLAIN, [], store=store, wary=wary)), answers)
                self.assertEqual((cube.refused, total.refused), (True, True))

    def test_a_store_of_a_schema_file(self):
        """A store notes the bytes of a schema's file, so Python and the program take each other's stores."""
        with tempfile.TemporaryDirectory() as folder:
            path, store = (os.path.join(folder, it) for it in ("schema.toml", "sales.db"))
            with open(path, "w", encoding="utf-8") as file:
                file.write("# of the shop\n" + PLAIN.toml())
            with Live(path, store=store) as live:
                live.insert(1, "a", ["west", "tea"], [2])
            words = [os.environ["DATACUBE"], "slice", "--store", store, path, r"\A,\A"]
            self.assertIn(b"1,1,1,2,2/1", subprocess.run(words, stdout=subprocess.PIPE, check=True).stdout)
            self.assertEqual(jackraisin.slice(jackraisin.Schema.read(path), [], {}, store=store)[0]["count(*)"], 1)
            with self.assertRaises(jackraisin.Failure) as caught:
                jackraisin.cube(PLAIN, [], store=store)
            self.assertEqual((caught.exception.line, jackraisin.Schema.read(path) == PLAIN), ("D5 0", True))

    def test_questions_over_a_store_on_terms(self):
        """Conditions choose among the facts of a store too, and a refused change is a failure where none may be."""
        with tempfile.TemporaryDirectory() as folder:
            store = os.path.join(folder, "sales.db")
            with Live(PLAIN, store=store) as live:
                live.insert(1, "a", ["west", "tea"], [2])
                live.insert(1, "b", ["east", "tea"], [3])
            self.assertEqual(jackraisin.cube(PLAIN, [], store=store, strict=True).at({})["count(*)"], 2)
            with Live(PLAIN, store=store) as live:
                live.insert(1, "a", ["west", "tea"], [2])
            east = jackraisin.slice(PLAIN, [], {}, store=store, where="region=east")[0]
            self.assertEqual(east["count(*)"], 1)
            with self.assertRaises(jackraisin.Failure) as caught:
                jackraisin.cube(PLAIN, [], store=store, strict=True)
            self.assertEqual((caught.exception.line, caught.exception.status), ("G7 1 3 6", 1))

    def test_faults_of_feeds_are_told_at_once(self):
        for feeds, line, status in ((["none.csv"], "feed 1 unreadable", 1), ([__file__], "G3 1 F3", 1), ([os.devnull] * 65, "too many feeds", 2)):
            with self.assertRaises(jackraisin.Ended) as caught:
                Live(PLAIN, feeds)
            self.assertEqual((caught.exception.line, caught.exception.status), (line, status))

    def test_one_record_too_many(self):
        live = Live(SHORT)
        for at in range(3):
            live.insert(2, str(at), ["a"], [at])
        for call in (live.cube, live.cube, live.close, lambda: live.insert(2, "x", ["a"], [1])):
            with self.assertRaises(jackraisin.Ended) as caught:
                call()
            self.assertEqual((caught.exception.line, caught.exception.status), ("G3 2 F4", 1))

    def test_a_killed_program(self):
        live = Live(PLAIN)
        os.kill(live._process.pid, signal.SIGKILL)
        with self.assertRaises(jackraisin.Ended) as caught:
            for at in range(100000):
                live.insert(1, str(at), ["west", "x"], [at])
        self.assertEqual(caught.exception.status, -signal.SIGKILL)
        self.assertIn("killed by SIGKILL", str(caught.exception))

    def test_an_error_of_the_caller_is_not_hidden(self):
        with self.assertRaises(ZeroDivisionError):
            with Live(PLAIN) as live:
                os.kill(live._process.pid, signal.SIGKILL)
                1 / 0

    @unittest.skipUnless(hasattr(signal, "setitimer"), "there is no timer")
    def test_an_interrupted_answer_ends_the_session(self):
        class Late(Exception):
            pass

        def late(*_):
            raise Late

        live = Live(PLAIN)
        os.kill(live._process.pid, signal.SIGSTOP)
        before = signal.signal(signal.SIGALRM, late)
        try:
            signal.setitimer(signal.ITIMER_REAL, 0.2)
            self.assertRaises(Late, live.cube)
        finally:
            signal.signal(signal.SIGALRM, before)
        self.assertRaises(jackraisin.Ended, live.cube)
        self.assertEqual(live.status, -signal.SIGKILL)


if __name__ == "__main__":
    unittest.main()
