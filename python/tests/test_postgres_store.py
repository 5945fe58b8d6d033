"""Followers that keep their cube in a store, and go on where they ended, beside the table's own GROUP BY CUBE.

With DATACUBE_LONG=1 in the environment the follower is killed in 50 rounds among the writers."""
import contextlib
import itertools
import os
import random
import signal
import subprocess
import sys
import tempfile
import threading
import time
import unittest
from unittest import mock

import beside
import jackraisin
import private_server
import test_postgres
from private_server import LONG, SCHEMA, until
from test_postgres import SALES, SECONDS, Command

if private_server.missing() is None:
    from jackraisin import postgres
    from jackraisin.postgres import CantFollow, Follower, _notes, _together

KILLS = 50 if LONG else 5
# (each leaves rows whose cents add up to nothing)
PAIRS = [
    "INSERT INTO {table} SELECT n, 'city ' || n / 2 % 3, NULL, CASE WHEN n % 2 = 0 THEN 1 ELSE -1 END * (n / 2) FROM generate_series({at}, {at} + 9) AS n",
    "UPDATE {table} SET cents = -cents, city = 'b', id = id + 1000000000 WHERE id BETWEEN {at} AND {at} + 5",
    "DELETE FROM {table} WHERE id BETWEEN {at} + 6 AND {at} + 7 OR id BETWEEN 1000000000 + {at} AND 1000000001 + {at}",
]
setUpModule = test_postgres.setUpModule


class Stored:
    """What a test with a store does, beside one of `test_postgres`."""

    def path(self):
        return f"{test_postgres.PRIVATE.room}/{self.table}.db"

    def drop(self):
        self.is_free()
        super().drop()
        for it in self.files():
            os.unlink(it)

    def kept(self):
        """The names of the store's files without logs, behind that of the store."""
        return [it[len(self.path()) :] for it in self.files() if not it.endswith("-wal")]

    def files(self):
        folder, name = os.path.split(self.path())
        return sorted(f"{folder}/{it}" for it in os.listdir(folder) if it.startswith(name))

    def is_free(self):
        """Waits until the server has seen that nobody is at a slot."""
        until(lambda: not test_postgres.PRIVATE.ask("SELECT FROM pg_replication_slots WHERE active"), SECONDS)

    def stored(self, **options):
        """A follower over the store that has caught up."""
        return self.follower(store=self.path(), **options)

    def goes_on(self, *statements, copies=0, **options):
        """Sees that a follower which is started behind some statements has the table's cube, and how often it copied the table."""
        self.is_free()
        self.run_sql(*statements)
        follower = self.stored(**options)
        self.same(follower)
        self.assertEqual(follower.state.copies, copies, statements)
        return follower

    def words(self, schema=SALES, *more):
        path = f"{test_postgres.PRIVATE.room}/{self.table}.toml"
        with open(path, "w", encoding="utf-8") as out:
            out.write(schema.toml())
        return ["--dsn", test_postgres.PRIVATE.dsn, "--table", self.table, "--schema", path, "--store", self.path(), *more]

    def noted(self):
        """What is noted of the store, while no follower runs."""
        with contextlib.closing(_notes.Notes(self.path() + "-notes")) as notes:
            return notes.of(notes.whole())

    def note(self, **what):
        with contextlib.closing(_notes.Notes(self.path() + "-notes")) as notes:
            notes.put(notes.whole(), notes.of(notes.whole())._replace(**what))


class Killed(Stored, test_postgres.WithWriters):
    """A follower that is killed, at any moment, ends as if it hadn't been."""

    def setUp(self):
        super().setUp()
        self.told = f"{test_postgres.PRIVATE.room}/{self.table}.told"

    def command(self, schema=SCHEMA, more=("--scale", "price=2")):
        return Command(*self.words(schema, *more), told=open(self.told, "a+", encoding="utf-8"))

    def lines(self, words):
        """The lines with some words that the commands said on standard error."""
        with open(self.told, encoding="utf-8") as told:
            return [it for it in told if words in it]

    def test_among_writers(self):
        """The first answer of a start is at least of all that was committed before it, and no start copies the table."""
        rng = random.Random("kills of a store")
        self.writers.run(20)
        command = self.command()
        self.assertEqual(command.ask("print"), self.cube_of_sql())
        starts = 1
        for at in range(KILLS):
            self.writers.begin(rng.choice([20, 60, 150]))
            # (some are killed before they have caught up)
            for _ in range(rng.choice([1, 1, 2, 4])):
                time.sleep(rng.choice([0.02, 0.2, 1.2]) * rng.random())
                command.kill()
                command, starts = self.command(), starts + 1
            is_later = rng.random() < 0.5
            if is_later:
                self.writers.end()
                command.kill()
                command, starts = self.command(), starts + 1
                self.assertEqual(command.ask("print"), self.cube_of_sql())
            else:
                command.ask("print")
                self.writers.end()
                until(lambda: command.ask("print") == self.cube_of_sql())
            self.alter(rng)
        self.assertEqual(command.end(), 0)
        self.assertEqual(len(self.lines("copied ")), 1, self.lines("again"))
        self.assertLessEqual(len(self.lines("going on over the store")), starts - 1)
        went_on = len(self.lines("going on"))
        print(f"{KILLS} rounds, {starts} starts, {went_on} of them went on, {self.writers.transactions} transactions", file=sys.stderr)
        self.assertEqual(self.kept(), ["", "-notes"])

    def alter(self, rng):
        """Alters the table in a way that the log tells in full."""
        self.run_sql(*rng.choice([
            ["ALTER TABLE {table} RENAME TO {table}_2", "UPDATE {table}_2 SET cents = 1 WHERE number = 1", "ALTER TABLE {table}_2 RENAME TO {table}"],
            ["ALTER TABLE {table} ADD COLUMN more text DEFAULT 'more'", "ALTER TABLE {table} DROP COLUMN more"], ["GRANT SELECT ON {table} TO PUBLIC"],
            ["ALTER TABLE {table} REPLICA IDENTITY FULL", "UPDATE {table} SET cents = 2 WHERE number = 2", "ALTER TABLE {table} REPLICA IDENTITY DEFAULT"],
        ]))

    def test_no_answer_has_a_part_of_a_transaction(self):
        """Each transaction puts, changes or takes rows whose cents add up to nothing."""
        self.run_sql("DROP TABLE {table}", "CREATE TABLE {table} (id bigint PRIMARY KEY, city text, product text, cents bigint)")
        is_over = threading.Event()

        def write():
            with test_postgres.PRIVATE.connected() as cursor:
                for at in itertools.count(0, 10):
                    # (as much as a start can take, however busy the machine is)
                    if is_over.wait(0.02):
                        return
                    for it in PAIRS:
                        cursor.execute(it.format(table=self.table, at=at))

        writing = threading.Thread(target=write)
        writing.start()
        try:
            answers, rng = [], random.Random("parts")
            for _ in range(20 if LONG else KILLS):
                command = self.command(SALES, ())
                for _ in range(3):
                    answers.append(command.ask("slice,\\A,\\A").splitlines()[1].rpartition(",1,1,")[2].split(","))
                    time.sleep(rng.random() * 0.2)
                command.kill()
        finally:
            is_over.set()
            writing.join()
        counts = [int(count) for count, cents in answers]
        self.assertEqual({(int(count) % 2, cents) for count, cents in answers}, {(0, "0")})
        # (what is left of each insert is more than nothing, so that no answer is of a time before another one)
        self.assertTrue(all(one - 10 <= other for one, other in zip(counts, counts[1:])), counts)
        self.assertEqual(len(self.lines("copied ")), 1)


class GoesOn(Stored, test_postgres.Base):
    """A start goes on where the last one ended, unless something is in the way."""

    def setUp(self):
        super().setUp()
        self.sales((1, "York", "tea", 5), (2, "Leeds", None, 7), (3, None, "\\N", 9))

    def test_where_it_ended(self):
        follower = self.stored()
        self.assertEqual(follower.state.copies, 1)
        follower.close()
        slots = self.slots()
        self.assertEqual((slots, test_postgres.publications()), ([(follower.slot,)], [(follower.slot,)]))
        for at in range(3):
            new = f"INSERT INTO {{table}} VALUES ({at} + 10, 'York', '', 1)"
            follower = self.goes_on("UPDATE {table} SET cents = cents + 1", "DELETE FROM {table} WHERE id = 2", new)
            self.run_sql("UPDATE {table} SET id = id + 100 WHERE id < 100")
            self.same(follower)
            follower.close()
        self.assertEqual(self.kept(), ["", "-notes"])
        self.assertEqual(self.slots(), slots)
        for path in self.files():
            self.assertEqual(os.stat(path).st_mode & 0o077, 0, path)

    def test_the_log_is_kept_until_changes_are_certain(self):
        confirmed = lambda: int(test_postgres.PRIVATE.ask("SELECT confirmed_flush_lsn - '0/0' FROM pg_replication_slots")[0][0])
        follower = self.stored()
        with mock.patch.object(follower._mirror, "keep", lambda: None):
            start = follower._mirror.certain
            self.run_sql("UPDATE {table} SET cents = cents + 1")
            self.same(follower)
            time.sleep(1.5)
            self.assertLessEqual(confirmed(), start)
        until(lambda: confirmed() >= follower.state.lsn)
        follower.close()
        self.assertGreaterEqual(self.noted().place, confirmed())

    def test_changes_that_come_twice(self):
        """All that came since the copy comes again, and each answer waits for it: values that are kept, rows that come and go, and rows
        that no cube can have."""
        with mock.patch("jackraisin.postgres._follower.Stream.confirm", lambda *_: None):
            follower = self.stored()
            follower.close()
            before = self.noted()
            long = "string_agg(n::text || md5(n::text), ' ')"
            follower = self.goes_on(
                f"INSERT INTO {{table}} SELECT 4, {long}, 'tea', 1 FROM generate_series(1, 2000) AS n", "UPDATE {table} SET cents = 2 WHERE id = 4",
                f"INSERT INTO {{table}} SELECT 5, {long}, 'tea', 1 FROM generate_series(1, 3000) AS n", "UPDATE {table} SET cents = 2 WHERE id = 5",
                "DELETE FROM {table} WHERE id = 5", "DELETE FROM {table} WHERE id = 1", "INSERT INTO {table} VALUES (1, 'Hull', 'tea', 8)",
                "UPDATE {table} SET id = 7 WHERE id = 2", "UPDATE {table} SET id = 2, cents = NULL WHERE id = 7",
            )
            cube = follower.ask("print")
            follower.close()
            for times in range(2):
                self.note(place=before.place, left_out=before.left_out)
                follower = self.goes_on()
                self.assertTrue(follower.ask("print") == cube)
                self.assertEqual(follower.state.transactions, 9 + 2 * times)
                self.run_sql("UPDATE {table} SET cents = 3 WHERE id = 4", "UPDATE {table} SET cents = 2 WHERE id = 4")
                self.same(follower)
                follower.close()
        self.assertEqual(self.goes_on().state.transactions, 0)

    def test_rows_that_are_left_out(self):
        self.run_sql("ALTER TABLE {table} ALTER COLUMN cents TYPE numeric", "INSERT INTO {table} VALUES (10, 'York', 'tea', 'NaN'), (11, 'Hull', 'tea', 0.5)")
        follower = self.stored()
        self.assertEqual(follower.state.skipped, 2)
        follower.close()
        self.run_sql("UPDATE {table} SET cents = 1 WHERE id = 10", "INSERT INTO {table} VALUES (12, 'York', 'tea', 'NaN')")
        follower = self.stored()
        follower.catch_up(SECONDS)
        self.assertEqual((follower.state.skipped, follower.state.copies, follower.slice({})[0]["count(*)"]), (2, 0, 4))
        self.run_sql("DELETE FROM {table} WHERE id > 10")
        follower.catch_up(SECONDS)
        follower.close()
        follower = self.stored()
        self.assertEqual((follower.state.skipped, follower.state.copies), (0, 0))

    def test_what_leads_to_no_copy(self):
        self.stored().close()
        for statements in (
            ["ALTER TABLE {table} RENAME TO {table}_2", "UPDATE {table}_2 SET cents = 4", "ALTER TABLE {table}_2 RENAME TO {table}"],
            ["ALTER TABLE {table} ADD COLUMN more text"], ["GRANT SELECT ON {table} TO PUBLIC"], ["VACUUM FULL {table}"],
            ["ALTER TABLE {table} REPLICA IDENTITY FULL", "UPDATE {table} SET cents = 5 WHERE id = 1"],
            ["TRUNCATE {table}", "INSERT INTO {table} VALUES (1, 'Hull', 'tea', 1)"],
            ["BEGIN; INSERT INTO {table} VALUES (5, 'A', 'tea', 1); TRUNCATE {table}; INSERT INTO {table} VALUES (1, 'B', 'tea', 1); COMMIT"], [],
        ):
            with self.subTest(statements):
                self.goes_on(*statements).close()
        self.run_sql("ALTER TABLE {table} RENAME TO {table}_2", "UPDATE {table}_2 SET cents = 6")
        follower = self.stored()
        self.run_sql("ALTER TABLE {table}_2 RENAME TO {table}")
        self.same(follower)
        self.assertEqual(follower.state.copies, 0)

    def test_what_leads_to_a_copy(self):
        """It is told, and the store that is made takes the old one's place."""
        follower = self.stored()
        follower.close()
        name = f"'{follower.slot}'"
        for statements, why in (
            ([f"SELECT pg_drop_replication_slot({name})"], "is gone"),
            ([f"SELECT pg_drop_replication_slot({name})", f"SELECT pg_create_logical_replication_slot({name}, 'pgoutput')"], "others took what is between"),
            (
                ["INSERT INTO {table} VALUES (20, 'York', 'tea', 1)", f"SELECT pg_replication_slot_advance({name}, pg_current_wal_lsn())"],
                "others took what is between",
            ),
            (["ALTER TABLE {table} ALTER COLUMN cents TYPE bigint USING cents * 100"], "written anew"),
            (["ALTER TABLE {table} ALTER COLUMN product TYPE text"], "columns of table"),
            ([f"DROP PUBLICATION {follower.slot}"], "no publication"),
        ):
            with self.subTest(why=why, statements=statements), self.assertLogs("jackraisin.postgres", "WARNING") as told:
                self.goes_on(*statements, copies=1).close()
            self.assertIn(why, told.output[0])
            self.goes_on("INSERT INTO {table} SELECT max(id) + 1, 'York', 'tea', 1 FROM {table}").close()
            self.assertEqual(len(self.kept()), 2)

    def test_a_store_that_isnt_the_one_that_was_noted(self):
        self.stored().close()
        with open(self.path(), "rb") as file:
            old = file.read()
        self.goes_on("UPDATE {table} SET cents = 50", "TRUNCATE {table}", "INSERT INTO {table} VALUES (1, 'Hull', 'tea', 1)").close()

        def put(data):
            with open(self.path(), "wb") as out:
                out.write(data)

        for name, change in (
            ("an older one", lambda: put(old)), ("nothing", lambda: os.unlink(self.path())), ("no store", lambda: put(b"nothing")),
            ("another schema", lambda: None), ("a server that was set back", lambda: self.note(answered=2**60)),
        ):
            with self.subTest(name), self.assertLogs("jackraisin.postgres", "WARNING") as told:
                change()
                schema = jackraisin.Schema(SALES.dimensions, SALES.measures, ["count(*)", "max(cents)"]) if name == "another schema" else SALES
                follower = self.stored(schema=schema)
                follower.close()
            self.assertIn("copied again", told.output[0])
            self.assertEqual(follower.state.copies, 1)
            with contextlib.suppress(AssertionError), self.assertLogs("jackraisin.postgres", "WARNING"):
                self.goes_on(copies=1 if name == "another schema" else 0).close()

    def test_a_server_that_is_another(self):
        follower = self.stored()
        follower.close()
        about = self.noted().about
        self.note(about={**about, "place": ["1", about["place"][1]]})
        with self.assertLogs("jackraisin.postgres", "WARNING") as told:
            self.goes_on(copies=1)
        self.assertIn("another server", told.output[0])

    def test_another_table_of_the_name(self):
        self.stored().close()
        with self.assertLogs("jackraisin.postgres", "WARNING") as told:
            follower = self.goes_on("ALTER TABLE {table} RENAME TO other_{table}", "CREATE TABLE {table} (LIKE other_{table} INCLUDING ALL)", copies=1)
        self.assertIn("is another table", told.output[0])
        self.assertEqual((self.slots(), test_postgres.publications()), ([(follower.slot,)], [(follower.slot,)]))

    def test_truncate(self):
        """A new store takes the place of the old one, whatever moment it ends at."""
        follower = self.stored()
        for at in range(3):
            self.run_sql("TRUNCATE {table}", f"INSERT INTO {{table}} VALUES (1, 'York', 'tea', {at})")
            self.same(follower)
        self.assertEqual(len(self.kept()), 2)
        follower.close()
        self.assertEqual(self.kept(), ["", "-notes"])
        self.assertLess(self.noted().changes, 5)
        self.goes_on("UPDATE {table} SET cents = 9")

    def test_a_new_store_that_is_broken_off(self):
        """Before it takes the old one's place and behind that, for a TRUNCATE, and where a store is made anew."""
        truncate = ["TRUNCATE {table}", "INSERT INTO {table} VALUES (1, 'York', 'tea', 1)"]
        many = [f"UPDATE {{table}} SET cents = {at}" for at in range(60)]
        for place, statements in itertools.product(("_notes.Notes.choose", "_store.Store.clean"), (truncate, many)):
            for is_after in (False, True):
                with self.subTest(place=place, statements=len(statements), is_after=is_after):
                    self.break_off(place, statements, is_after)
                    self.goes_on("INSERT INTO {table} SELECT max(id) + 1, 'York', 'tea', 1 FROM {table}").close()

    def break_off(self, place, statements, is_after):
        """Lets a follower make a new store, and ends it before a call or behind it."""
        follower = self.stored()
        module, owner, name = place.split(".")
        usual = getattr(getattr(getattr(postgres, module), owner), name)

        def broken(*words):
            if is_after:
                usual(*words)
            raise SystemExit("broken off")

        few = mock.patch("jackraisin.postgres._anew.FEWEST_CHANGES", 20)
        with few, mock.patch(f"jackraisin.postgres.{place}", broken), mock.patch.object(follower, "_finish", lambda _: None):
            self.run_sql(*statements)
            until(lambda: follower.state.failure, SECONDS)
        follower.close()

    def test_what_fails_just_when_a_store_made_anew_is_there(self):
        """It ends the follower, as at any other moment."""
        follower = self.stored()

        def broken(*_):
            ended = threading.Event()
            ended.set()
            follower._anew = mock.Mock(has_ended=ended, copy=None, rows=0, failure=None)
            # (until what reads has seen that)
            time.sleep(0.5)
            raise SystemExit("broken off")

        with mock.patch("jackraisin.postgres._store.Store.clean", broken), mock.patch.object(follower, "_finish", lambda _: None):
            self.run_sql("TRUNCATE {table}", "INSERT INTO {table} VALUES (1, 'York', 'tea', 1)")
            until(lambda: follower.state.failure, SECONDS)
        follower.close()

    def test_a_store_with_many_changes_is_made_anew(self):
        """While the old one serves."""
        with mock.patch("jackraisin.postgres._anew.FEWEST_CHANGES", 200):
            follower, answers = self.stored(), []
            for at in range(300):
                self.run_sql(f"UPDATE {{table}} SET cents = {at}")
                answers.append(follower.slice({})[0]["sum(cents)"])
            until(lambda: follower.state.remade > 0, SECONDS)
            self.same(follower)
            self.assertEqual(follower.state.copies, 1)
            until(lambda: follower._mirror.session.changes < 1000)
            # (those of the first row alone, before the first update, are more)
            answers = answers[answers.index(next(it for it in answers if it != answers[0])) :]
            self.assertEqual(answers, sorted(answers))
            follower.close()
            self.assertLess(self.noted().changes, 1000)
            self.assertEqual(self.noted().rows, 3)
            self.goes_on("UPDATE {table} SET cents = 9").close()
        self.assertEqual(len(self.kept()), 2)

    def test_truncate_while_a_store_is_made_anew(self):
        follower, usual = self.stored(), postgres._follower.copy_table
        truncated = threading.Event()

        def late(*words):
            found, before = usual(*words), follower.state.transactions
            if not truncated.is_set():
                truncated.set()
                self.run_sql("TRUNCATE {table}", "INSERT INTO {table} VALUES (1, 'York', 'tea', 1)")
                until(lambda: follower.state.transactions >= before + 2, SECONDS)
            return found

        with mock.patch("jackraisin.postgres._anew.FEWEST_CHANGES", 20), mock.patch("jackraisin.postgres._follower.copy_table", late):
            for at in range(10):
                self.run_sql(f"UPDATE {{table}} SET cents = {at}")
            until(truncated.is_set, SECONDS)
            until(lambda: follower._anew is None, SECONDS)
            self.same(follower)
        until(lambda: follower._anew is None, SECONDS)
        for at in range(10):
            self.run_sql(f"UPDATE {{table}} SET cents = {at}")
        self.same(follower)
        follower.close()
        self.assertEqual(self.kept(), ["", "-notes"])
        self.goes_on("UPDATE {table} SET cents = 5")

    def test_a_store_that_isnt_the_tables(self):
        """It is found out, and made anew; a start goes on with that one."""
        with self.assertLogs("jackraisin.postgres", "ERROR"):
            follower = self.stored(verify=0.3)
            with follower._mirror._live.held():
                follower._mirror._live.remove(1, "1;")
            until(lambda: follower.state.differences == 1 and follower.state.is_caught_up and follower.state.is_verified, SECONDS)
        self.same(follower)
        follower.close()
        self.goes_on("UPDATE {table} SET cents = cents + 1")

    def test_partitions(self):
        self.run_sql(
            "DROP TABLE {table}", "CREATE TABLE {table} (id int, city text, product text, cents bigint, PRIMARY KEY (city, id)) PARTITION BY LIST (city)",
            "CREATE TABLE {table}_york PARTITION OF {table} FOR VALUES IN ('York')", "CREATE TABLE {table}_rest PARTITION OF {table} DEFAULT",
            "INSERT INTO {table} VALUES (1, 'York', 'tea', 5), (2, 'Leeds', NULL, 7)",
        )
        self.stored().close()
        self.goes_on("UPDATE {table} SET city = 'Hull' WHERE id = 1", "INSERT INTO {table} VALUES (3, 'York', 'tea', 1)").close()
        with self.assertLogs("jackraisin.postgres", "WARNING") as told:
            self.goes_on("ALTER TABLE {table} DETACH PARTITION {table}_york", copies=1).close()
        self.assertIn("partitions", told.output[0])
        self.goes_on("INSERT INTO {table} VALUES (4, 'Hull', 'tea', 1)")
        self.addCleanup(self.run_sql, "DROP TABLE IF EXISTS {table}_york")

    def test_a_server_that_crashes(self):
        follower = self.stored()
        for how in (signal.SIGQUIT, signal.SIGINT):
            self.run_sql("UPDATE {table} SET cents = cents + 1")
            test_postgres.PRIVATE.server.end(how)
            self.assertEqual(follower.slice({})[0]["count(*)"], 3)
            test_postgres.PRIVATE.server.begin()
            for it in (1, 2):
                self.run_sql(f"DELETE FROM {{table}} WHERE id = {it}", f"INSERT INTO {{table}} VALUES ({it}, 'York', 'tea', 1)")
            self.same(follower)
        follower.close()
        self.goes_on("UPDATE {table} SET cents = cents + 1")

    def test_drop(self):
        follower = self.stored()
        follower.close()
        ran = test_postgres.run(*self.words(SALES, "--drop"))
        stays = f"the store {self.path()} stays; a follower that is started with it copies the table"
        self.assertEqual((ran.returncode, ran.stdout), (0, f"the slot {follower.slot} was dropped\n{stays}\n"))
        self.assertEqual((self.slots(), test_postgres.publications()), ([], []))
        with self.assertLogs("jackraisin.postgres", "WARNING"):
            self.goes_on(copies=1)

    def test_what_cant_be_gone_on_with(self):
        follower = self.stored()
        with self.assertRaises(CantFollow) as caught, Follower(test_postgres.PRIVATE.dsn, self.table, SALES, store=self.path()) as other:
            other.wait(SECONDS)
        self.assertIn("another follower has the notes", str(caught.exception))
        self.same(follower)
        follower.close()
        self.refused(CantFollow, "goes with the slot", store=self.path(), slot="jackraisin_other")
        self.goes_on().close()
        other = self.path() + ".other"
        with open(other, "w", encoding="utf-8") as out:
            out.write("mine")
        self.refused(CantFollow, "no notes of a follower beside it", store=other)
        with open(other, encoding="utf-8") as file:
            self.assertEqual(file.read(), "mine")

    def test_a_schema_with_a_feed(self):
        """What it says of feeds is nothing to a table: a text that is null in a feed isn't null here."""
        schema = jackraisin.Schema(SALES.dimensions, SALES.measures, SALES.aggregates, feed={"null": ["", "York"], "columns": {"city": "town"}})
        self.run_sql("INSERT INTO {table} VALUES (20, '', 'tea', 1)")
        self.same(self.stored(schema=schema))

    def test_a_copy_that_is_killed(self):
        command = Command(*self.words())
        until(lambda: self.files())
        command.kill()
        self.run_sql("INSERT INTO {table} VALUES (30, 'York', 'tea', 1)")
        follower = self.stored()
        self.same(follower)


class Others(test_postgres.Base):
    """Slots and publications of other tables are left alone."""

    def test_slots_of_other_tables(self):
        self.sales((1, "York", "tea", 5))
        oid = test_postgres.PRIVATE.oid(self.table)
        self.run_sql("CREATE TABLE other_{table} (id int PRIMARY KEY)")
        other = test_postgres.PRIVATE.oid(f"other_{self.table}")
        numbered = f"jackraisin_x_{other}"
        self.run_sql(f"SELECT pg_create_logical_replication_slot('{numbered}', 'pgoutput')")
        self.refused(CantFollow, numbered, "the number of another table", "--drop", slot=numbered)
        self.run_sql("SELECT pg_create_logical_replication_slot('jackraisin_y', 'pgoutput')", "CREATE PUBLICATION jackraisin_y FOR TABLE other_{table}")
        self.refused(CantFollow, "the publication jackraisin_y is of another table", slot="jackraisin_y")
        self.assertEqual(sorted(self.slots()), [(numbered,), ("jackraisin_y",)])
        self.assertEqual(test_postgres.publications(), [("jackraisin_y",)])
        self.run_sql("DROP PUBLICATION jackraisin_y")
        self.same(self.follower(slot="jackraisin_y"))
        self.same(self.follower(slot=f"jackraisin_mine_{oid}"))
        self.same(self.follower(slot="jackraisin_none_7"))


class Readers(test_postgres.Base):
    """A question doesn't hold up the taking of changes."""

    def test_a_long_answer(self):
        self.sales((1, "York", "tea", 5))
        follower, go, asked = self.follower(), threading.Event(), threading.Event()
        self.addCleanup(go.set)
        usual = jackraisin.Live._read_answer

        def slowly(live):
            if threading.current_thread().name == "asker":
                asked.set()
                go.wait(SECONDS)
            return usual(live)

        answers = []
        with mock.patch.object(jackraisin.Live, "_read_answer", slowly):
            asker = threading.Thread(target=lambda: answers.append(follower.ask_with_state("print")), name="asker")
            asker.start()
            self.assertTrue(asked.wait(SECONDS))
            before = follower.state
            self.run_sql("UPDATE {table} SET cents = 6")
            until(lambda: follower.state.transactions == before.transactions + 1, SECONDS)
            looked = follower.state.looked
            until(lambda: follower.state.looked > looked or follower.state.looked >= test_postgres.PRIVATE.lsn(), SECONDS)
            go.set()
            asker.join()
        state, text = answers[0]
        self.assertEqual((state.transactions, "York,tea,0,0,1,5" in text), (before.transactions, True))
        self.same(follower)

    def test_a_session_that_is_halted(self):
        """What comes meanwhile is read until there is no room, and the server is told that the follower is there."""
        self.sales((1, "York", "tea", 5))
        replies = lambda: test_postgres.PRIVATE.ask("SELECT reply_time FROM pg_stat_replication WHERE application_name = 'datacube'")
        for most, size in ((3, 2**26), (10_000, 100)):
            with mock.patch("jackraisin.postgres._taker.MOST_WAITING", most), mock.patch("jackraisin.postgres._taker.MOST_BYTES", size):
                follower = self.follower()
                process = follower._mirror._live._process
                process.send_signal(signal.SIGSTOP)
                try:
                    for at in range(20):
                        # (more than a pipe holds)
                        self.run_sql(f"UPDATE {{table}} SET city = repeat('{at} ', 10000)")
                    first = replies()
                    until(lambda: replies() > first, SECONDS)
                    first = replies()
                    until(lambda: replies() > first, SECONDS)
                finally:
                    process.send_signal(signal.SIGCONT)
                self.same(follower)
                self.assertEqual((follower.state.transactions, follower.state.copies), (20, 1))
                follower.close()
                self.run_sql("UPDATE {table} SET city = 'York'")

    def test_one_answer_for_all_who_ask_the_same(self):
        self.sales((1, "York", "tea", 5))
        follower, asked = self.follower(), []
        usual = jackraisin.Live._read_answer

        def slowly(live):
            if threading.current_thread().name == "asker":
                asked.append(live)
                time.sleep(0.3)
            return usual(live)

        answers = []
        with mock.patch.object(jackraisin.Live, "_read_answer", slowly):
            askers = [threading.Thread(target=lambda: answers.append(follower.ask("print")), name="asker") for _ in range(6)]
            for it in askers:
                it.start()
            for it in askers:
                it.join()
        self.assertEqual(set(answers), {self.cube_of_sql()})
        self.assertLess(len(asked), 6)


class Turns(unittest.TestCase):
    def test_who_asks_for_little_goes_first(self):
        turns, order, has_begun = _together.Turns(), [], threading.Event()

        def ask(name, is_long):
            with turns.turn(is_long):
                order.append(name)
                if name == "first":
                    has_begun.set()
                    until(lambda: turns._short == 2, SECONDS)

        first = threading.Thread(target=ask, args=["first", True])
        first.start()
        self.assertTrue(has_begun.wait(SECONDS))
        others = [threading.Thread(target=ask, args=it) for it in (["long", True], ["short", False], ["short", False])]
        for it in others:
            it.start()
        for it in [first, *others]:
            it.join()
        self.assertEqual(order, ["first", "short", "short", "long"])


class WithoutDriver(unittest.TestCase):
    def test_it_is_said_in_a_sentence(self):
        with tempfile.TemporaryDirectory() as room:
            os.mkdir(f"{room}/psycopg2")
            with open(f"{room}/psycopg2/__init__.py", "w", encoding="utf-8") as out:
                out.write("raise ImportError('there is none')\n")
            env = {**os.environ, "PYTHONPATH": f"{room}:{beside.package()}"}
            how = {"stdin": subprocess.DEVNULL, "stdout": subprocess.PIPE, "stderr": subprocess.PIPE, "text": True, "env": env}
            ran = subprocess.run([sys.executable, "-m", "jackraisin.postgres", "--table", "sales"], **how)
            self.assertEqual((ran.returncode, ran.stdout, ran.stderr), (1, "", "jackraisin.postgres needs psycopg2 (Debian: python3-psycopg2)\n"))
            ran = subprocess.run([sys.executable, "-c", "import jackraisin.postgres"], **how)
            self.assertEqual(ran.stderr.splitlines()[-1], "ImportError: jackraisin.postgres needs psycopg2 (Debian: python3-psycopg2)")


if __name__ == "__main__":
    unittest.main()
