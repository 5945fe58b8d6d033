"""Limits of time and of memory, and many facts at once."""
import os
import shutil
import sys
import tempfile
import threading
import time
import unittest
from unittest import mock

import beside
import jackraisin
import oracle
from beside import rows_like, rows_of
from jackraisin import ANY, Live

PLAIN = jackraisin.Schema(["region", "kind"], ["amount"], ["count(*)", "sum(amount)"])
WIDE = jackraisin.Schema(list("abcdefgh"), ["m"], ["count(*)"])
SOON, LONG = 0.5, 60


class Limits(unittest.TestCase):
    def setUp(self):
        self.folder = tempfile.mkdtemp(prefix="datacube-test-")
        self.addCleanup(shutil.rmtree, self.folder)

    def stands_for_program(self, script):
        """A program that does something else, for as long as the test lasts."""
        path = f"{self.folder}/program"
        with open(path, "w", encoding="utf-8") as out:
            out.write(f"#!/bin/sh\n{script}\n")
        os.chmod(path, 0o755)
        patch = mock.patch.dict(os.environ, DATACUBE=path)
        patch.start()
        self.addCleanup(patch.stop)

    def late(self, call):
        before = time.monotonic()
        with self.assertRaises(jackraisin.TimedOut) as caught:
            call()
        self.assertLess(time.monotonic() - before, LONG / 2)
        self.assertEqual(str(caught.exception), f"no end within {SOON} seconds")

    def test_commands_that_take_too_long(self):
        self.stands_for_program(f"exec sleep {LONG}")
        for call in (
            lambda: jackraisin.cube(PLAIN, [], timeout=SOON),
            lambda: jackraisin.slice(PLAIN, [], {}, timeout=SOON),
            lambda: jackraisin.drill(PLAIN, [], {}, "kind", timeout=SOON),
            lambda: jackraisin.rollup(PLAIN, [], {}, "kind", timeout=SOON),
            lambda: jackraisin.refusals(PLAIN, [], timeout=SOON),
            lambda: jackraisin.merge(PLAIN, [], timeout=SOON),
        ):
            self.late(call)

    def test_an_opening_that_takes_too_long(self):
        self.stands_for_program(f"exec sleep {LONG}")
        self.late(lambda: Live(PLAIN, timeout=SOON))

    def test_an_answer_that_takes_too_long(self):
        """The first answer is given, and then nothing any more, not even half of one."""
        self.stands_for_program(f"read it; printf 'ok 19\\nsource,record,code\\n'; read it; printf 'ok 99\\nregion'; exec sleep {LONG}")
        live = Live(PLAIN, timeout=SOON)
        self.late(live.cube)
        self.assertLess(live.status, 0)
        for call in (live.sync, live.close, lambda: live.insert(1, "a", ["w", "x"], [1])):
            self.assertRaises(jackraisin.TimedOut, call)

    def test_changes_that_nobody_takes(self):
        self.stands_for_program(f"read it; printf 'ok 19\\nsource,record,code\\n'; exec sleep {LONG}")
        live = Live(PLAIN, timeout=SOON)
        self.late(lambda: live.insert_many(1, ((str(at), ["west", "x" * 100], [at]) for at in range(20_000))))

    def test_an_end_that_takes_too_long(self):
        self.stands_for_program(f"read it; printf 'ok 19\\nsource,record,code\\n'; exec sleep {LONG}")
        live = Live(PLAIN, timeout=SOON)
        self.late(live.close)

    def test_what_is_in_time(self):
        with Live(PLAIN, timeout=LONG) as live:
            live.insert(1, "a", ["west", "x"], [5])
            self.assertEqual(live.cube().at({})["sum(amount)"], 5)
        self.assertEqual(live.status, 0)
        names = [it.name for it in threading.enumerate()]
        self.assertFalse([it for it in names if "Timer" in it], "a watch is left")
        self.assertEqual(jackraisin.cube(PLAIN, [os.devnull], timeout=LONG, max_memory=2**30).at({})["count(*)"], 0)

    def test_a_feed_that_wants_more_memory(self):
        """Of 540 KB it makes a gigabyte: eight dimensions, whose texts all differ, have 256 cells a line."""
        feed = f"{self.folder}/feed.csv"
        with open(feed, "w", encoding="utf-8") as out:
            out.write("op,id,a,b,c,d,e,f,g,h,m\n")
            for at in range(8000):
                out.write(f"I,{at}," + "".join(f"{it}{at}," for it in "abcdefgh") + "1\n")
        for call in (lambda: jackraisin.cube(WIDE, feed, max_memory=100 * 2**20), lambda: Live(WIDE, feed, max_memory=100 * 2**20)):
            with self.assertRaises(jackraisin.Failure) as caught:
                call()
            self.assertEqual((caught.exception.code, caught.exception.status), ("G4", 1))
        for it in (0, -1):
            self.assertRaises(jackraisin.Unsayable, jackraisin.cube, WIDE, feed, max_memory=it)
            self.assertRaises(jackraisin.Unsayable, jackraisin.cube, WIDE, feed, timeout=it)


    def test_cubes_of_too_many_cells(self):
        """Two facts that have their regions apart and their kind in common: two cells of both, two of regions, one of kinds,
        and the grand total."""
        feed = f"{self.folder}/feed.csv"
        with open(feed, "w", encoding="utf-8") as out:
            out.write("op,id,region,kind,amount\nI,1,west,tea,24\nI,2,east,tea,24\n")
        calls = (
            lambda most: jackraisin.cube(PLAIN, feed, max_cells=most),
            lambda most: jackraisin.cube(PLAIN, feed, max_cells=most, partial=True, strict=True),
            lambda most: jackraisin.slice(PLAIN, feed, {}, max_cells=most),
            lambda most: jackraisin.drill(PLAIN, feed, {}, "kind", max_cells=most),
            lambda most: jackraisin.rollup(PLAIN, feed, {}, "kind", max_cells=most),
        )
        for call in calls:
            for most in (6, 2**63 - 1):
                call(most)
            for most in (5, 1):
                with self.assertRaises(jackraisin.Failure) as caught:
                    call(most)
                self.assertEqual((caught.exception.line, caught.exception.status), ("G8", 1))
                self.assertIn("--max-cells", caught.exception.meaning)
            for most in (0, -1, 2**63):
                self.assertRaises(jackraisin.Failure, call, most)
        self.assertEqual(len(jackraisin.cube(PLAIN, feed, where="region=west", max_cells=4)), 4)

    def test_records_that_are_too_long(self):
        """The header has 24 bytes, and the record 14."""
        feed = f"{self.folder}/feed.csv"
        with open(feed, "w", encoding="utf-8") as out:
            out.write("op,id,region,kind,amount\nI,1,west,tea,24\n")
        calls = (
            lambda most: jackraisin.cube(PLAIN, feed, max_record=most),
            lambda most: jackraisin.slice(PLAIN, feed, {}, max_record=most),
            lambda most: jackraisin.drill(PLAIN, feed, {}, "kind", max_record=most),
            lambda most: jackraisin.rollup(PLAIN, feed, {}, "kind", max_record=most),
            lambda most: jackraisin.refusals(PLAIN, feed, max_record=most),
            lambda most: Live(PLAIN, feed, max_record=most).close(),
        )
        for call in calls:
            for most in (24, "1K"):
                call(most)
            with self.assertRaises(jackraisin.Failure) as caught:
                call(23)
            self.assertEqual((caught.exception.line, caught.exception.status), ("G3 1 F6 0", 1))
            self.assertIn("F6", caught.exception.meaning)
            self.assertRaises(jackraisin.Failure, call, "1 K")


class Many(unittest.TestCase):
    @unittest.skipIf(sys.version_info < (3, 11), "this Python reads no TOML")
    def test_they_are_as_inserts_one_by_one(self):
        facts = [(f"id {at}", ["west" if at % 3 else None, f"k{at % 5}"], [at * at - 50]) for at in range(300)]
        schema = oracle.schema_of(PLAIN.toml().encode())
        records = [[b"I", id.encode(), *(b"\\N" if it is None else it.encode() for it in dims), str(measures[0]).encode()] for id, dims, measures in facts]
        with Live(PLAIN) as live:
            self.assertEqual(live.insert_many(1, facts), 300)
            self.assertEqual(live.insert_many(1, iter([("id 0", {"region": "x", "kind": None}, {"amount": 1})])), 1)
            self.assertEqual(live.insert_many(2, []), 0)
            self.assertEqual(rows_of(live.cube()), rows_like(schema, oracle.Run(schema, [records]).rows))
            self.assertEqual([(it.source, it.record, it.code) for it in live.refusals()], [(1, 301, 6)], "an insert of an id that is present")

    def test_none_is_sent_where_one_cant_be_said(self):
        with Live(PLAIN) as live:
            for bad in (("", ["w", "x"], [1]), ("b", ["\\N", "x"], [1]), ("b", ["w"], [1]), ("b", ["w", "x"], [2**63])):
                self.assertRaises(jackraisin.Unsayable, live.insert_many, 1, [("a", ["w", "x"], [1]), bad])
            self.assertRaises(TypeError, live.insert_many, 1, [("a", ["w", "x"], [1]), ("b", ["w", "x"], [1.5])])
            self.assertEqual((live.slice({"region": ANY})[-1]["count(*)"], live.refusals()), (0, []))


if __name__ == "__main__":
    unittest.main()
