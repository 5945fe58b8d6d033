"""Followers of large transactions, which the server sends while they are open, beside the table's own GROUP BY CUBE.

The private server holds 64 kB of changes that are to be decoded, so what has more comes in blocks between others."""
import collections
import contextlib
import itertools
import unittest
from unittest import mock

import private_server
import test_postgres
import test_postgres_store
from private_server import LONG, until
from test_postgres import SECONDS

if private_server.missing() is None:
    from jackraisin.postgres import _errors, _slot, _stream, _table
    from jackraisin.postgres._messages import StreamAbort, StreamCommit, StreamStart

MANY = 2000
INSERT = "INSERT INTO {table} (id, city, product, cents) SELECT n, 'city ' || n % 5, 'tea', n FROM generate_series({first}, {first} + {count} - 1) AS n"


def setUpModule():
    test_postgres.setUpModule()
    if test_postgres.PRIVATE.ask("SELECT current_setting('server_version_num')::int")[0][0] < 140000:
        raise unittest.SkipTest("following a table in blocks: the server is older than PostgreSQL 14")
    test_postgres.PRIVATE.run("ALTER SYSTEM SET logical_decoding_work_mem = '64kB'", "SELECT pg_reload_conf()")


def tearDownModule():
    if test_postgres.PRIVATE:
        test_postgres.PRIVATE.run("ALTER SYSTEM RESET logical_decoding_work_mem", "SELECT pg_reload_conf()")


class Counted:
    """A test that counts what comes of transactions, by the kinds of the messages."""

    def setUp(self):
        super().setUp()
        self.came = collections.Counter()
        usual = _stream.Stream._step

        def counted(stream, message):
            self.came[type(message)] += 1
            return usual(stream, message)

        counting = mock.patch("jackraisin.postgres._stream.Stream._step", counted)
        counting.start()
        self.addCleanup(counting.stop)

    def has_come(self, kind, count=1):
        """Waits until so many messages of a kind have come."""
        until(lambda: self.came[kind] >= count, SECONDS)

    @contextlib.contextmanager
    def writing(self):
        """What runs statements in one transaction of several steps, that is left open at first."""
        with test_postgres.PRIVATE.connected() as cursor:
            cursor.execute("BEGIN")
            yield lambda *statements: [cursor.execute(it.replace("{table}", self.table)) for it in statements]

    def insert(self, first, count=MANY):
        return INSERT.replace("{first}", str(first)).replace("{count}", str(count))


class Streamed(Counted, test_postgres.Base):
    """A follower without a store."""

    def begun(self, **options):
        self.sales((1, "York", "tea", 5), (2, "Leeds", None, 7))
        follower = self.follower(**options)
        self.addCleanup(lambda: self.assertEqual(follower.state.skipped, 0))
        return follower

    def copied_once(self, follower):
        self.same(follower)
        self.assertEqual(follower.state.copies, 1)

    def test_two_that_are_open(self):
        """Nothing of them is in the cube before their commit, and then all but what was rolled back."""
        follower = self.begun()
        with self.writing() as one, self.writing() as other:
            for at in range(3):
                one(self.insert(10_000 * at + 100), "SAVEPOINT a", self.insert(10_000 * at + 5000))
                one("UPDATE {table} SET cents = 3 WHERE id > 1000", "SAVEPOINT b")
                other("SAVEPOINT c", self.insert(10**6 + 10_000 * at), "DELETE FROM {table} WHERE id % 3 = 0 AND id >= 1000000", "SAVEPOINT d")
                one(self.insert(10_000 * at + 8000), "ROLLBACK TO SAVEPOINT a", self.insert(10_000 * at + 5000, 10))
                other(self.insert(10**6 + 10_000 * at + 5000), *["RELEASE SAVEPOINT d"] if at else ["ROLLBACK TO SAVEPOINT d"], "RELEASE SAVEPOINT c")
                self.run_sql(f"INSERT INTO {{table}} VALUES ({10 + at}, 'Hull', NULL, 1)")
                self.copied_once(follower)
                self.assertEqual(follower.state.transactions, at + 1)
            self.has_come(StreamAbort, 3)
            one("COMMIT")
            self.copied_once(follower)
            self.assertEqual((follower.state.transactions, follower.state.changes), (4, 3 + 3 * (MANY + 10)))
            self.run_sql("UPDATE {table} SET cents = 4 WHERE id < 20")
            other("COMMIT")
            self.copied_once(follower)
        self.assertEqual(self.came[StreamCommit], 2)
        self.assertGreater(self.came[StreamStart], 6)

    def test_rolled_back(self):
        follower = self.begun()
        with self.writing() as one, self.writing() as other:
            one(self.insert(100), "SAVEPOINT a", self.insert(10_000))
            other("SAVEPOINT b", self.insert(20_000), "ROLLBACK TO SAVEPOINT b")
            self.has_come(StreamStart, 2)
            one("ROLLBACK")
            other("COMMIT")
            self.copied_once(follower)
        self.run_sql("UPDATE {table} SET cents = 9 WHERE id = 1")
        self.copied_once(follower)
        self.assertEqual((follower.state.transactions, follower.state.changes), (1, 1))

    def test_truncate(self):
        follower = self.begun()
        with self.writing() as one:
            one(self.insert(100), "SAVEPOINT a", "TRUNCATE {table}", self.insert(100), "ROLLBACK TO SAVEPOINT a")
            one("UPDATE {table} SET cents = 1 WHERE id % 2 = 0", "COMMIT")
        self.copied_once(follower)
        with self.writing() as one:
            one(self.insert(10_000), "TRUNCATE {table}", self.insert(20_000), "DELETE FROM {table} WHERE id % 3 = 0", "COMMIT")
        self.copied_once(follower)
        self.assertEqual(self.came[StreamCommit], 2)

    def test_columns_that_change(self):
        """Within one that is committed, in a part that is undone, and within one that is rolled back; a column more stands before
        those that are followed, so that whoever takes the wrong table takes wrong values."""
        self.run_sql("CREATE TABLE {table} (more text, id int PRIMARY KEY, city text, product varchar(20), cents bigint)")
        follower = self.follower()
        self.run_sql(self.insert(0, 10))
        alter = ["ALTER TABLE {table} DROP COLUMN IF EXISTS more", "ALTER TABLE {table} ADD COLUMN less_{at} int"]
        begin, undo = ["SAVEPOINT a"], ["ROLLBACK TO SAVEPOINT a"]
        cases = [([], [], "ROLLBACK"), (begin, undo, "COMMIT"), (begin, [*undo, self.insert(500_000)], "COMMIT"), ([], [], "COMMIT")]
        # (the server may know, while it sends something, that it will be undone, or not)
        for at, ((before, after, end), is_late) in enumerate(itertools.product(cases, (False, True))):
            with self.subTest(after=after, end=end, is_late=is_late):
                first = 1000 + 10_000 * at
                with self.writing() as one:
                    one(self.insert(first), *before, *(it.replace("{at}", str(at)) for it in alter))
                    one(self.insert(first + 5000), "UPDATE {table} SET cents = 7 WHERE id % 5 = 1")
                    if is_late:
                        follower.catch_up(SECONDS)
                    one(*after, end)
                self.run_sql(f"UPDATE {{table}} SET cents = cents + 1 WHERE id = {at}", self.insert(first + 9000, 3))
                self.copied_once(follower)
                if after:
                    self.run_sql("DELETE FROM {table} WHERE id >= 500000")
                    self.copied_once(follower)
        self.assertGreater(self.came[StreamAbort], 2)

    def test_a_cut_connection(self):
        """What came of a transaction that is open is dropped with the connection, and comes again."""
        way = private_server.Way(test_postgres.PRIVATE)
        self.addCleanup(way.close)
        follower = self.begun(dsn=way.dsn)
        with self.writing() as one:
            for at in range(4):
                starts = self.came[StreamStart]
                one(self.insert(100 + 10_000 * at), "SAVEPOINT a", self.insert(5000 + 10_000 * at))
                one("ROLLBACK TO SAVEPOINT a" if at % 2 else "RELEASE SAVEPOINT a")
                self.has_come(StreamStart, starts + 1)
                if at % 2:
                    way.cut()
                else:
                    cuts, way.left = way.cuts, 20_000
                    one(self.insert(8000 + 10_000 * at))
                    until(lambda: way.cuts > cuts, SECONDS)
                self.run_sql(f"INSERT INTO {{table}} VALUES ({10 + at}, 'Hull', NULL, 1)")
                self.copied_once(follower)
                self.assertEqual(follower.state.changes, at + 1)
            one("COMMIT")
        self.copied_once(follower)
        self.assertEqual((follower.state.transactions, follower.state.changes), (5, 4 + 8 * MANY))

    def test_a_transaction_of_other_tables(self):
        self.run_sql("CREATE TABLE other_{table} (id int, city text, product text, cents int)")
        follower = self.begun()
        with self.writing() as one:
            one(self.insert(0).replace("{table}", "other_{table}"))
            self.run_sql("UPDATE {table} SET cents = 6")
            self.copied_once(follower)
            one("COMMIT")
        self.copied_once(follower)
        self.assertEqual(follower.state.transactions, 1)

    def test_a_transaction_of_another_server(self):
        """A block of one that came from elsewhere says so, by a message without a number."""
        follower = self.begun()
        self.run_sql("SELECT pg_replication_origin_create('far')")
        self.addCleanup(lambda: self.run_sql("SELECT pg_replication_origin_drop('far')"))
        with self.writing() as one:
            one("COMMIT", "SELECT pg_replication_origin_session_setup('far')", "BEGIN", self.insert(100), "COMMIT")
            one("SELECT pg_replication_origin_session_reset()")
        self.copied_once(follower)
        self.assertEqual((self.came[StreamCommit], follower.state.changes), (1, MANY))

    def test_a_server_that_sends_none_that_is_open(self):
        """As before PostgreSQL 14."""
        with mock.patch("jackraisin.postgres._stream.STREAMS", 10**9):
            follower = self.begun()
        with self.writing() as one:
            one(self.insert(100), "SAVEPOINT a", self.insert(5000), "ROLLBACK TO SAVEPOINT a", "TRUNCATE {table}", self.insert(100), "COMMIT")
        self.copied_once(follower)
        self.assertEqual((self.came[StreamStart], follower.state.transactions), (0, 1))

    def test_partitions(self):
        """One that comes within a transaction which is rolled back was never there; one that is committed has to be copied."""
        self.run_sql(
            "CREATE TABLE {table} (id int PRIMARY KEY, city text, product varchar(20), cents bigint) PARTITION BY RANGE (id)",
            "CREATE TABLE {table}_1 PARTITION OF {table} FOR VALUES FROM (0) TO (100000)",
        )
        follower = self.follower()
        for ends, copies in ((["ROLLBACK"], 1), (["ROLLBACK TO SAVEPOINT a", "DELETE FROM {table}", "COMMIT"], 1), (["COMMIT"], 2)):
            with self.writing() as one:
                one(self.insert(100), "SAVEPOINT a", "CREATE TABLE {table}_2 PARTITION OF {table} FOR VALUES FROM (100000) TO (200000)")
                one(self.insert(100_000))
                # (so that the server doesn't know, while it sends this, that it will be undone)
                follower.catch_up(SECONDS)
                one(*ends)
            self.run_sql(self.insert(50_000, 10), "UPDATE {table} SET cents = 2 WHERE id < 200", "DELETE FROM {table} WHERE id BETWEEN 50000 AND 50009")
            until(lambda: follower.state.copies == copies and follower.state.is_caught_up, SECONDS)
            self.same(follower)
            self.assertEqual(follower.state.copies, copies)


class StreamedIntoAStore(test_postgres_store.Stored, Streamed):
    """The same over a store."""

    def follower(self, *words, **options):
        return super().follower(*words, store=self.path(), **options)

    def test_a_start_within_an_open_transaction(self):
        follower = self.begun()
        with self.writing() as one:
            one(self.insert(100))
            self.has_come(StreamStart)
            self.run_sql("UPDATE {table} SET cents = 8")
            self.same(follower)
            follower.close()
            one(self.insert(10_000))
            follower = self.goes_on()
            one(self.insert(20_000))
            self.same(follower)
            one("COMMIT")
        self.same(follower)
        self.assertEqual((follower.state.changes, follower.state.copies), (3 * MANY, 0))
        follower.close()
        self.goes_on()

    def goes_on(self, *statements, copies=0, **options):
        self.is_free()
        follower = self.follower(**options)
        self.same(follower)
        self.assertEqual(follower.state.copies, copies)
        return follower


class AmongWriters(Counted, test_postgres.WithWriters):
    """Four writers, and a transaction of many rows beside them again and again."""

    options = {}

    def test_each_change_once(self):
        self.writers.run(20)
        follower, before, large = self.following(**self.options), self.writers.changes, 0
        for at in range(20 if LONG else 3):
            self.writers.begin(300 if LONG else 60)
            with self.writing() as one:
                rows = f"INSERT INTO {{table}} SELECT 'large', {{first}} + n, 'city ' || n % 5, NULL, true, n, n FROM generate_series(1, {MANY}) AS n"
                first, second = (rows.replace("{first}", str(it)) for it in (10_000 * at, 10_000 * at + 5000))
                one(first, "SAVEPOINT a", second, "ROLLBACK TO SAVEPOINT a" if at % 2 else "RELEASE SAVEPOINT a")
                one("ROLLBACK" if at % 3 == 2 else "COMMIT")
            large += 0 if at % 3 == 2 else MANY if at % 2 else 2 * MANY
            self.writers.end()
            self.same_after_all(follower)
            self.assertEqual(follower.state.changes, self.writers.changes - before + large)
        self.assertGreater(self.came[StreamStart], 3)
        self.assertGreater(self.came[StreamCommit], 1)


class AmongWritersWithAStore(test_postgres_store.Stored, AmongWriters):
    def setUp(self):
        super().setUp()
        self.options = {"store": self.path()}


class Confirmed(Counted, test_postgres.Base):
    """What a stream says to the server, without a follower."""

    @contextlib.contextmanager
    def stream(self):
        self.published("FOR TABLE {table}")
        with contextlib.closing(_slot.connect(test_postgres.PRIVATE.dsn)) as connection, connection.cursor() as cursor:
            table = _table.read_table(cursor, self.table)
        with contextlib.closing(_slot.connect_to_replicate(test_postgres.PRIVATE.dsn)) as replication:
            start, _ = _slot.make_slot(replication, self.table, is_temporary=True)
            yield _stream.Stream(replication, self.table, "given", table, start)

    def confirmed(self):
        return int(test_postgres.PRIVATE.ask(f"SELECT confirmed_flush_lsn - '0/0' FROM pg_replication_slots WHERE slot_name = '{self.table}'")[0][0])

    def given(self, stream):
        found = []
        until(lambda: found.append(stream.next(0.1)) or found[-1], SECONDS)
        return found[-1]

    def test_no_commit_that_isnt_done_with(self):
        """Not either where changes come in a block that are older than what was confirmed."""
        self.sales()
        with self.stream() as stream, self.writing() as one, self.writing() as other:
            one(self.insert(100, 300))
            self.run_sql("INSERT INTO {table} VALUES (1, 'York', NULL, 1)")
            done = self.given(stream).end
            stream.confirm(done, is_read=False)
            self.run_sql("INSERT INTO {table} VALUES (2, 'York', NULL, 1)")
            self.assertGreater(self.given(stream).end, done)
            other(self.insert(1000, 250), "ROLLBACK")
            self.run_sql("CREATE TABLE other_{table} (what text)")
            end = test_postgres.PRIVATE.lsn()
            until(lambda: stream.next(0.1) or stream.seen >= end, SECONDS)
            self.assertGreater(self.came[StreamStart], 0)
            for _ in range(15):
                stream.next(0.1)
                stream.confirm(done)
                self.assertLessEqual(self.confirmed(), done)
            one("COMMIT")
            self.assertEqual(sum(1 for _ in self.given(stream)), 300)

    def told(self, stream, steps):
        """Takes messages, and gives of each change that is committed the name of the column that it was told with."""
        found = []
        for it in steps:
            transaction = stream._take(it)
            found += [change.relation.columns[0].name for change in transaction or ()]
        return found

    def test_which_table_was_told(self):
        """What is told in a part that is undone doesn't hold for what follows, nor what was told before something else was."""
        self.sales()
        one, part, other = b"\0\0\0\1", b"\0\0\0\2", b"\0\0\0\3"
        commit = bytes(25)
        with self.stream() as stream:

            def table(name, number=b""):
                return b"R" + number + stream._oid + b"public\0sales\0d\0\1\1" + name + b"\0" + bytes(8)

            def row(number=b""):
                return b"I" + number + stream._oid + b"N\0\1n"

            plain = [b"B" + bytes(20), row(), b"C" + commit]
            begin, again, end = b"S" + one + b"\1", b"S" + one + b"\0", b"E"
            undone = [begin, table(b"a", one), row(one), end, again, table(b"b", part), row(part), end, b"A" + one + part, b"c" + one + commit]
            self.assertEqual(self.told(stream, [*undone, *plain]), ["a", "a"])
            later = [begin, table(b"c", one), row(one), end, b"S" + other + b"\1", table(b"d", other), row(other), end]
            self.assertEqual(self.told(stream, later), [])
            self.assertEqual(self.told(stream, [b"c" + other + commit, *plain, b"c" + one + commit, *plain]), ["d", "d", "c", "d"])
            self.assertEqual(self.told(stream, [begin, table(b"e", one), row(one), end, b"A" + one + one, *plain]), ["d"])
            self.assertEqual(self.told(stream, [begin, table(b"f", part), row(part), end, b"A" + one + part, b"c" + one + commit, *plain]), ["d"])
            self.assertRaises(_errors.BadMessage, self.told, stream, [begin, row(one), end, b"c" + one + commit])

    def test_what_cant_be(self):
        self.sales()
        number = b"\0\0\0\7"
        with self.stream() as stream:
            for it in (b"S" + number + b"\0", b"c" + number + bytes(25), b"C" + bytes(25), b"I" + stream._oid + b"N\0\0", b"I\0"):
                with self.subTest(it):
                    stream._current = _stream.Pending(True) if it == b"I\0" else None
                    self.assertRaises(_errors.BadMessage, stream._take, it)
            stream._take(b"S" + number + b"\1")
            self.assertRaises(_errors.BadMessage, stream._take, b"C" + bytes(25))


if __name__ == "__main__":
    unittest.main()
