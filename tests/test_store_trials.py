"""What `live --store` promises, tried on the built program: kills, calls and memory refused in turn, what a crash of the machine may
leave, a second process, a full disk, files that were spoiled, other feeds, and what SQLite reads of the file.

The short form, which is part of the gate, has a few of the kills, of the calls and of the crashes, and turns a byte a page; the long one
(--long, or scripts/store_trials.py) refuses one allocation of eleven, and with --each it refuses each. What an answer has to be is computed
by scripts/oracle.py, never by the program: which first part of the changes a store kept is told by the numbers of changes that are refused
on purpose, one a source. The full disk is a tmpfs, which takes root; what Python's SQLite reads takes one that knows STRICT tables; refusals
(store_calls.py) and crashes (store_crashes.py) take cc. A trial that can't be made here is skipped.
The stores lie in TMPDIR, else in /dev/shm where that is there: a kill leaves what was written, on whatever disk, and so the
trials don't wait for one.
"""
import collections
import contextlib
import functools
import hashlib
import os
import random
import re
import shutil
import signal
import sqlite3
import subprocess
import tempfile
import threading
import time

import oracle
import pytest
import store_calls
import store_crashes
from programs import read
from store_rooms import FEEDS, SCHEMA, SOURCES, Changes, LeftOut, Room, Wrong, ended_well, everything, expect, feed_bytes, refusal_of, shown, taken

PAGE = 4096
QUESTIONS = [[b"refusals", b"1", b"0"], [b"rollup", b"place", b"\\A", b"\\A"], [b"slice", b"?", b"\\A"], [b"refusals"], [b"sync"]]
# (what a start may say of a file that was spoiled)
SPOILED = re.compile(r"D3|D4 \d+|D5 \d+|D6|D9 \d+")
TABLES = [
    "CREATE TABLE changes(number INTEGER PRIMARY KEY, source INTEGER NOT NULL, record BLOB NOT NULL, digest BLOB NOT NULL) STRICT",
    "CREATE TABLE feeds(source INTEGER PRIMARY KEY, length INTEGER NOT NULL, digest BLOB NOT NULL) STRICT",
]
# (the table of changes that releases up to 1.11 made)
OLD_TABLE = "CREATE TABLE changes(number INTEGER PRIMARY KEY, source INTEGER NOT NULL, record BLOB NOT NULL) STRICT"
OLD_STORE = os.path.join(os.path.dirname(os.path.abspath(__file__)), "store_1_11.db")
KNOWS_STRICT = sqlite3.sqlite_version_info >= (3, 37)


# ---- kills


class Killed:
    """A store whose sessions are killed again and again, and what is known of it: `state` stands after the first changes,
    those that a restart found; `sent` are the changes after them, of which so many are certain."""

    def __init__(self, room, name, rng):
        self.room, self.name, self.rng = room, name, rng
        self.state, self.changes = oracle.Session(SCHEMA, FEEDS), Changes(rng)
        self.rows, self.sent, self.certain, self.answers = [], [], 0, []
        self.start, self.counts = 0.0, collections.Counter()

    def options(self):
        return ["--wary"] if self.rng.random() < 0.3 else []

    def hurt(self):
        """Starts a session, sends changes and questions, and kills it at some moment."""
        live = self.room.open(self.name, *self.options())
        killer = threading.Timer(self.moment(), live.process.kill)
        killer.start()
        try:
            while self.send_some(live):
                if self.rng.random() < 0.01:
                    live.process.stdin.close()
                    time.sleep(self.rng.uniform(0, 0.01))
                    break
        finally:
            killer.cancel()
            status, rest, err = live.end(is_killed=True)
        expect((status in (-9, 0, 4), err), (True, b""), "a session that is killed")
        if status != -9:
            self.certain = len(self.sent)
            self.counts["ends"] += 1
        if rest and self.answers and not self.answers[-1][2]:
            self.certain = self.answers[-1][0]
            self.answers[-1] = (*self.answers[-1][:2], rest)

    def moment(self):
        """How many seconds after its start a session is killed: within the time that a start takes, or while it works."""
        return self.rng.uniform(0, 1.2 * self.start) if self.rng.random() < 0.25 else self.start + self.rng.uniform(0, 0.08)

    def most(self):
        """How many changes are sent at once at most: more than wait for a commit, but in the short form."""
        return 1000 if self.room.is_short else 11000

    def send_some(self, live):
        """Sends some changes, and then mostly a question, whose answer is waited for; whether it goes on."""
        rng = self.rng
        some = [self.changes.next() for _ in range(rng.choice([0, 1, 1, 3, 30, 300, 300, self.most() if rng.random() < 0.05 else 1]))]
        self.sent += some
        if not live.send(some):
            return False
        if rng.random() < 0.15:
            return True
        question = rng.choice(QUESTIONS)
        self.answers.append((len(self.sent), question, b""))
        if not live.send([question]):
            return False
        answer = live.answer()
        if answer:
            self.certain = len(self.sent)
            self.answers[-1] = (len(self.sent), question, answer)
        self.counts["answers"] += bool(answer)
        return bool(answer)

    def found(self):
        """Restarts it, sees which first part of the changes it has, and that its answers are those over that part."""
        begun = time.monotonic()
        live = self.room.open(self.name, *self.options())
        told = live.ask([b"print"]) + live.ask([b"refusals"])
        self.start = (self.start + time.monotonic() - begun) / 2
        probes = [[b"%d" % source, b"D", b"nobody"] for source in SOURCES]
        last = [last_number(live.ask(probe, [b"refusals", probe[0], b"0"])) for probe in probes]
        count = self.part_of(last)
        if count < self.certain:
            raise Wrong(f"{self.certain} changes stood before an answer, and a restart has {count} of them, of {len(self.sent)}")
        self.advance(count)
        expect(told, everything(self.state), f"the answers after a restart with {count} of {len(self.sent)} changes, {self.certain} of them certain")
        taken(self.state, probes)
        self.rows += self.sent[:count] + probes
        self.counts.update({"changes": count, "lost": len(self.sent) - count})
        self.changes.present = {source: [it for it in self.state.sources[source - 1].book if it not in (b"a", b"b")] for source in SOURCES}
        self.sent, self.certain, self.answers = [], 0, []
        return live

    def part_of(self, last):
        """How many of the changes that were sent a session has, by how many records of each source came before the probe's."""
        have = [number - 1 - self.state.sources[source - 1].count for source, number in zip(SOURCES, last)]
        count = sum(have)
        sources = collections.Counter(int(it[0]) for it in self.sent[:max(count, 0)])
        if min(have) < 0 or count > len(self.sent) or [sources[it] for it in SOURCES] != have:
            raise Wrong(f"a restart has {have} changes more of the sources, which no first part of {len(self.sent)} has")
        return count

    def advance(self, count):
        """Takes the changes that were found, and sees that each answer was the one over the changes before it."""
        answers = collections.deque(self.answers)
        for at in range(count + 1):
            while answers and answers[0][0] == at:
                _, question, answer = answers.popleft()
                wanted = self.state.reply(question)
                expect(answer, wanted[:len(answer)], f"the answer to {question} before a kill")
            if at < count:
                self.state.reply(self.sent[at])


def last_number(answer):
    """The number of the last record in an answer to `refusals`."""
    lines = answer.decode().splitlines()
    if len(lines) < 3 or not re.fullmatch(r"\d+,\d+,\d+", lines[-1]):
        raise Wrong(f"a probe was answered by {shown(answer)}")
    return int(lines[-1].split(",")[1])


def kills(room, rng, count):
    """So many kills, with a fresh store after each twenty, since a start takes longer the more changes a store has."""
    it = collections.Counter()
    for begun in range(0, count, 20):
        it += killed_store(room, rng, min(20, count - begun))
    return f"{count - it['ends']} kills, {it['ends']} ends before one, {it['answers']} answers, {it['changes']} changes that were found, {it['lost']} lost after the last answer"


def killed_store(room, rng, count):
    """A new store whose sessions are killed so many times; what was counted."""
    room.remove("killed.db")
    store = Killed(room, "killed.db", rng)
    store.found().end(is_killed=True)
    for _ in range(count):
        store.hurt()
        live = store.found()
        if rng.random() < 0.5:
            live.end(is_killed=True)
        else:
            ended_well(live, store.state)
    live = room.open("killed.db")
    expect(live.ask([b"print"]), store.state.reply([b"print"]), "the last answer")
    ended_well(live, store.state)
    see_file(room, "killed.db", store.rows)
    return store.counts


# ---- signals


SIGNALS = (signal.SIGTERM, signal.SIGINT, signal.SIGHUP, signal.SIGKILL)
# (what may have come of a record whose end hasn't)
BEGUN = (b"", b"1,I,half", b'2,I,"two\nlines\n')


def signals(room, rng):
    """Sessions that get changes and are ended by a signal, though nothing was asked. After a rest of a second and a half the
    next start has all changes; where one came each half second it has those that came two and a half seconds before."""
    was, steady, resting = {it: signal.signal(it, signal.SIG_DFL) for it in SIGNALS if it != signal.SIGKILL}, [], []
    try:
        steady = [Signalled(room, rng, f"steady{int(it)}.db", it) for it in SIGNALS]
        for _ in range(9):
            for it in steady:
                it.send(1)
            time.sleep(0.5)
        for it in steady:
            it.end(4)
        resting = [Signalled(room, rng, f"resting{int(it)}-{at}.db", it) for it in SIGNALS for at in range(len(BEGUN))]
        for at, it in enumerate(resting):
            it.send(rng.choice([1, 30, 300]), BEGUN[at % len(BEGUN)])
        time.sleep(1.5)
        for it in resting:
            it.end(0)
    finally:
        for it, handler in was.items():
            signal.signal(it, handler)
        for it in steady + resting:
            it.live.late.cancel()
            it.live.process.kill()
    return f"{len(resting)} sessions that rested, {len(steady)} that didn't"


class Signalled:
    """A session that gets changes, is asked nothing, and is ended by a signal."""

    def __init__(self, room, rng, name, by):
        self.room, self.name, self.by, self.changes, self.sent = room, name, by, Changes(rng), []
        room.remove(name)
        self.live = room.open(name)
        expect(self.live.ask([b"sync"]), b"ok 0\n", "the answer to sync")

    def send(self, count, begun=b""):
        """Sends so many changes, and the first bytes of one more."""
        some = [self.changes.next() for _ in range(count)]
        self.sent += some
        self.live.process.stdin.write(oracle.encode(some) + begun)
        self.live.process.stdin.flush()

    def end(self, last):
        """Sends the signal, and sees that the next start has the changes, of which so many of the last may be wanting."""
        self.live.process.send_signal(self.by)
        expect(self.live.end(), (-self.by, b"", b""), f"the end by {self.by.name}")
        code, told, _ = refusal_of(self.room, self.room.words(self.name), b"print\nrefusals\n")
        expect(code, None, "a start after a signal")
        state, least = oracle.Session(SCHEMA, FEEDS), len(self.sent) - last
        for at in range(len(self.sent) + 1):
            if at >= least and everything(state) == told:
                return
            if at < len(self.sent):
                taken(state, self.sent[at : at + 1])
        raise Wrong(f"after {self.by.name} a start doesn't have the first {least} of {len(self.sent)} changes")


# ---- what SQLite reads


def see_file(room, name, records):
    """Sees that the file alone has these changes and the notes of the feeds, as SQLite reads it, if it does, and nothing else."""
    if not KNOWS_STRICT:
        return
    with tempfile.TemporaryDirectory() as folder:
        shutil.copyfile(room.path(name), f"{folder}/copy.db")
        with contextlib.closing(sqlite3.connect(f"{folder}/copy.db")) as base:
            expect(base.execute("PRAGMA integrity_check").fetchall(), [("ok",)], "integrity_check")
            expect(base.execute("PRAGMA page_size").fetchone(), (PAGE,), "the page size")
            expect(base.execute("SELECT sql FROM sqlite_schema ORDER BY name").fetchall(), [(it,) for it in TABLES], "the tables")
            rows = base.execute("SELECT number, source, record, typeof(record) FROM changes ORDER BY number").fetchall()
            digests = [it[0] for it in base.execute("SELECT digest FROM changes ORDER BY number")]
            notes = base.execute("SELECT source, length, digest FROM feeds ORDER BY source").fetchall()
    expect(len(rows), len(records), "the number of rows")
    for at, (row, record) in enumerate(zip(rows, records), 1):
        expect(row, (at, int(record[0]), oracle.line_of(record)[:-1], "blob"), f"row {at}")
        expect(oracle.records_of(row[2]), [record], f"the fields of row {at}")
    expect(digests, oracle.digests_of([row[:3] for row in rows]), "the digests of the rows")
    data = [SCHEMA.toml(), *map(feed_bytes, FEEDS)]
    expect(notes, [(at, len(it), hashlib.sha256(it).digest()) for at, it in enumerate(data)], "the notes on the feeds")


def sqlite_reads(room, rng):
    if not KNOWS_STRICT:
        raise LeftOut("Python's SQLite doesn't know STRICT tables")
    records, state = room.made("read.db", 2500, rng)
    see_file(room, "read.db", records)
    more = [Changes(rng).next() for _ in range(40)]
    live = room.open("read.db")
    live.send(more)
    ended_well(live, taken(state, more))
    see_file(room, "read.db", records + more)
    return f"{len(records + more)} rows"


def odd_records(room, rng):
    """Records that are quoted without need, that end in CR LF or by the end of the input, and blank lines."""
    given = b'\xef\xbb\xbf1,I,x,"west",tea,1\r\n\n"2","I",y,"a,""b""","line\nend",\\N\n3\n3,\n"3",""\n64,D,"nobody"\r\n\r\n1,U,x,west,"tea",2'
    records = oracle.records_of(given)
    state = taken(oracle.Session(SCHEMA, FEEDS), records)
    words = ["live", *room.words("odd.db")]
    expect(room.run(words, given), (state.status(), b"", b""), "a session without a question")
    expect(room.run(words, b"print\nrefusals\n"), (state.status(), everything(state), b""), "the next one")
    see_file(room, "odd.db", records)
    return f"{len(records)} records"


# ---- other processes and disks


def second_process(room, rng):
    changes = Changes(rng)
    for turn in range(5):
        live, state = room.open("shared.db"), oracle.Session(SCHEMA, FEEDS)
        if turn:
            taken(state, records)
        else:
            records = []
        expect(live.ask([b"print"]), state.reply([b"print"]), "the answer of the first process")
        expect(refusal_of(room, room.words("shared.db"))[0], "D1", "what a second process is told")
        if KNOWS_STRICT:
            expect(is_locked(room.path("shared.db")), True, "whether SQLite is locked out")
        more = [changes.next() for _ in range(50)]
        records = records + more
        taken(state, more)
        expect(live.ask(*more, [b"print"]), state.reply([b"print"]), "the answer after that")
        expect(refusal_of(room, room.words("shared.db"), b"1,I,zz,a,a,1\n")[0], "D1", "what a third process is told")
        if turn % 2:
            live.end(is_killed=True)
        else:
            ended_well(live, state)
    expect(refusal_of(room, room.words("shared.db"), b"print\nrefusals\n")[1], everything(state), "the answers of the next start")
    return None


def of_sqlite(path, *statements, **how):
    """What SQLite answers to the last of some statements over a file."""
    with contextlib.closing(sqlite3.connect(path, isolation_level=None, **how)) as base:
        return [base.execute(it).fetchall() for it in statements][-1]


def is_locked(path):
    """Whether SQLite can't read a file now."""
    try:
        of_sqlite(path, "SELECT count(*) FROM changes", timeout=0)
        return False
    except sqlite3.OperationalError as error:
        return "locked" in str(error)


def full_disk(room, rng):
    """A store on a disk of 4 MB, or of 1, until it is full; then the disk has more room."""
    if os.geteuid() != 0:
        raise LeftOut("only root mounts a tmpfs")
    place = room.path("disk")
    os.mkdir(place)
    if subprocess.run(["mount", "-t", "tmpfs", "-o", f"size={'1m' if room.is_short else '4m'}", "tmpfs", place], stderr=subprocess.DEVNULL).returncode:
        raise LeftOut("no tmpfs can be mounted here")
    try:
        return fill_disk(room, place, rng)
    finally:
        subprocess.run(["umount", place], check=True)


def fill_disk(room, place, rng):
    store, turns = Killed(room, "disk/full.db", rng), 0
    for size in ("64m",) if room.is_short else ("12m", "64m"):
        until_full(store)
        turns += 1
        subprocess.run(["mount", "-o", f"remount,size={size}", "tmpfs", place], check=True)
        ended_well(store.found(), store.state)
    see_file(room, "disk/full.db", store.rows)
    return f"{turns} times D7, {store.counts['changes']} changes that were found, {store.counts['lost']} lost after the last answer"


def until_full(store):
    """Sends changes and questions to a session until it ends; it has to end by D7."""
    live = store.room.open(store.name)
    for _ in range(20000):
        store.sent += (some := [store.changes.next() for _ in range(200)])
        question = [b"rollup", b"place", b"\\A", b"\\A"]
        if not live.send([*some, question]):
            break
        answer = live.answer()
        if not answer:
            break
        store.certain = len(store.sent)
        store.answers.append((store.certain, question, answer))
    expect(live.end(), (1, b"", b"datacube: D7\n"), "the end of a session on a full disk")


# ---- files that were spoiled


class Spoiled:
    """A store of which copies are spoiled, and what came of them."""

    def __init__(self, room, rng, count):
        self.room, self.counts = room, collections.Counter()
        self.state = room.made("whole.db", count, rng)[1]
        self.data = read(room.path("whole.db"))
        self.right = everything(self.state)

    def pages(self):
        return len(self.data) // PAGE

    def start(self, data):
        """What a start over this file says: a code, `right` or `wrong`."""
        self.room.remove("spoiled.db")
        self.room.write("spoiled.db", data)
        code, out, _ = refusal_of(self.room, self.room.words("spoiled.db"), b"print\nrefusals\n")
        if code and not SPOILED.fullmatch(code):
            raise Wrong(f"a start says {code}")
        said = code.split()[0] if code else "right" if out == self.right else "wrong"
        self.counts[said] += 1
        return said

    def told(self):
        return ", ".join(f"{count} {name}" for name, count in sorted(self.counts.items()))


def cut_files(room, rng):
    """A store cut at each boundary of pages: no bytes are a new store, and any other part has to be refused."""
    store = Spoiled(room, rng, 1200 if room.is_short else 6000)
    room.remove("spoiled.db")
    room.write("spoiled.db", b"")
    fresh = refusal_of(room, room.words("spoiled.db"), b"print\nrefusals\n")[:2]
    expect(fresh, (None, everything(oracle.Session(SCHEMA, FEEDS))), "a start over an empty file")
    for page in range(1, store.pages()):
        if store.start(store.data[: page * PAGE]) in ("right", "wrong"):
            raise Wrong(f"cut after {page} of {store.pages()} pages it is taken")
    expect(store.start(store.data), "right", "a start over the whole file")
    return f"{store.pages()} pages: {store.told()}"


def turned_bytes(room, rng):
    """A store with a byte turned: it is noticed, or changes nothing."""
    store, times = Spoiled(room, rng, 1200 if room.is_short else 6000), 1 if room.is_short else 6
    kinds = kinds_of(store.data)
    for page in range(store.pages()):
        for _ in range(times):
            place = page * PAGE + rng.randrange(PAGE)
            turned = bytes([store.data[place] ^ rng.randrange(1, 256)])
            said = store.start(store.data[:place] + turned + store.data[place + 1 :])
            if said == "wrong":
                raise Wrong(f"byte {place}, in a page of {kinds[page]}, gives a wrong answer")
    return f"{store.pages()} pages, {kinds.count('changes')} of them rows of changes: {store.told()}"


def turned_rows(room, rng):
    """A byte turned in the record, the digest, the source or the number of a row: the row is told, or the file is refused."""
    store = Spoiled(room, rng, 400)
    rows = of_sqlite(room.path("whole.db"), "SELECT number, source, record, digest FROM changes ORDER BY number")
    expect([row[3] for row in rows], oracle.digests_of([row[:3] for row in rows]), "the digests of the rows")
    told = collections.Counter()
    for number, source, record, digest in rng.sample(rows, 12 if room.is_short else 60):
        end = store.data.index(digest)
        start = end - len(record)
        expect(store.data[start:end], record, f"the bytes before the digest of row {number}")
        # The source of a row is the byte before its record, or a bit of the row's header where it is 1. Before that are the
        # five bytes of the header, or six, and the row's number.
        for what, place in (("record", rng.randrange(start, end)), ("digest", end + rng.randrange(32)), ("source", start - 1), ("head", start - rng.randrange(1, 10))):
            data = bytearray(store.data)
            data[place] ^= rng.randrange(1, 256)
            room.remove("spoiled.db")
            room.write("spoiled.db", bytes(data))
            code, out, _ = refusal_of(room, room.words("spoiled.db"), b"print\nrefusals\n")
            wanted = {"record": {f"D9 {number}"}, "digest": {f"D9 {number}"}, "source": {f"D9 {number}", f"D4 {number}", "D3", "D6"}}
            near = re.fullmatch(r"D3|D6|D[49] \d+", code or "")
            if code not in wanted[what] if what in wanted else not near:
                raise Wrong(f"byte {place}, of the {what} of row {number}, gives {code}")
            told[f"{what} {code.split()[0]}"] += 1
    return ", ".join(f"{count} {name}" for name, count in sorted(told.items()))


def old_store(room, rng):
    """A store that release 1.11.5 made, without digests: it is taken as it is, and goes on so; a new one isn't taken for it."""
    if not KNOWS_STRICT:
        raise LeftOut("Python's SQLite doesn't know STRICT tables")
    name = "old.db"
    shutil.copyfile(OLD_STORE, room.path(name))
    records = [oracle.records_of(bytes(it[0]))[0] for it in of_sqlite(room.path(name), "SELECT record FROM changes ORDER BY number")]
    state = taken(oracle.Session(SCHEMA, FEEDS), records)
    code, out, _ = refusal_of(room, room.words(name), b"print\nrefusals\n")
    expect((code, out), (None, everything(state)), "a start over a store of 1.11.5")
    more = [Changes(rng).next() for _ in range(60)]
    live = room.open(name)
    live.send(more)
    ended_well(live, taken(state, more))
    code, out, _ = refusal_of(room, room.words(name), b"print\nrefusals\n")
    expect((code, out), (None, everything(state)), "the next start")
    kept = of_sqlite(room.path(name), "SELECT sql, (SELECT count(*) FROM changes), (SELECT max(number) FROM changes) FROM sqlite_schema WHERE name = 'changes'")
    expect(kept, [(OLD_TABLE, len(records) + 60, len(records) + 60)], "its table of changes")
    return f"{len(records)} rows, and 60 behind them"


def kinds_of(data):
    """What each page of a store is: `changes` or `feeds` for a leaf of a table, `inner` for a page above the leaves, `tables`
    for the first one, and `free` for one that no table has."""
    kinds = ["tables", *["free"] * (len(data) // PAGE - 1)]
    for name, root in zip(("changes", "feeds"), (2, 3)):
        waiting = [root]
        while waiting:
            page = waiting.pop()
            start = (page - 1) * PAGE
            is_leaf = data[start] == 13
            kinds[page - 1] = name if is_leaf else "inner"
            if not is_leaf:
                waiting += [number_at(data, start + 8), *(number_at(data, start + it) for it in cells_of(data, start, 12))]
    return kinds


def cells_of(data, start, head):
    """Where the cells of a page begin."""
    return [int.from_bytes(data[start + head + 2 * at :][:2], "big") for at in range(int.from_bytes(data[start + 3 :][:2], "big"))]


def number_at(data, place):
    return int.from_bytes(data[place : place + 4], "big")


def changed_tables(room, rng):
    """What SQLite may have done to a store meanwhile, and what a start says of it."""
    if not KNOWS_STRICT:
        raise LeftOut("Python's SQLite doesn't know STRICT tables")
    state = room.made("sound.db", 300, rng)[1]
    done = 0
    for code, *statements in (
        (None, "VACUUM"),
        (None, "SELECT count(*) FROM changes"),
        ("D3", "CREATE TABLE other(a)"),
        ("D3", "CREATE INDEX by_source ON changes(source)"),
        (None, "CREATE VIEW all_changes AS SELECT * FROM changes"),
        ("D3", "DROP TABLE feeds"),
        ("D3", "PRAGMA journal_mode=DELETE", "PRAGMA page_size=8192", "VACUUM"),
        ("D4 1", "DELETE FROM changes WHERE number = 1"),
        ("D4 17", "DELETE FROM changes WHERE number = 17"),
        ("D4 301", "INSERT INTO changes SELECT 302, source, record, digest FROM changes WHERE number = 1"),
        ("D9 301", "INSERT INTO changes SELECT 301, source, record, digest FROM changes WHERE number = 1"),
        ("D4 1", "INSERT INTO changes SELECT 0, source, record, digest FROM changes WHERE number = 1"),
        ("D4 1", "INSERT INTO changes SELECT -5, source, record, digest FROM changes WHERE number = 1"),
        ("D9 1", "UPDATE changes SET digest = zeroblob(32) WHERE number = 1"),
        ("D9 40", "UPDATE changes SET digest = zeroblob(31) WHERE number = 40"),
        ("D9 77", "UPDATE changes SET record = CAST('1,D,nobody at all' AS BLOB) WHERE number = 77"),
        ("D9 78", "UPDATE changes SET source = source % 64 + 1 WHERE number = 78"),
        ("D9 5", "UPDATE changes SET source = source % 64 + 1 WHERE number = 5", "DELETE FROM changes WHERE number = 9"),
        ("D4 5", "DELETE FROM changes WHERE number = 5", "UPDATE changes SET digest = zeroblob(32) WHERE number = 9"),
        # (what is left is the table of a store without digests, which is taken as it is)
        (None, "ALTER TABLE changes DROP COLUMN digest"),
        ("D4 20", "UPDATE changes SET source = 65 WHERE number = 20"),
        ("D4 300", "UPDATE changes SET source = 0 WHERE number = 300"),
        ("D5 1", "UPDATE feeds SET length = length + 1 WHERE source = 1"),
        ("D5 2", "UPDATE feeds SET digest = zeroblob(32) WHERE source = 2"),
        ("D5 0", "UPDATE feeds SET digest = zeroblob(32) WHERE source = 0"),
        ("D5 0", "DELETE FROM feeds"),
        ("D5 3", "INSERT INTO feeds VALUES(3, 0, zeroblob(32))"),
    ):
        name = room.copied("sound.db", "changed.db")
        of_sqlite(room.path(name), *statements)
        got, out, _ = refusal_of(room, room.words(name), b"print\nrefusals\n")
        expect((got, out), (code, b"" if code else everything(state)), f"a start after {'; '.join(statements)}")
        done += 1
    return f"{done} files"


def no_stores(room, rng):
    """Files that are no stores, and paths that can't be opened: nothing is written to a file, and nothing made beside it."""
    os.makedirs(room.path("folder.db"), exist_ok=True)
    of_sqlite(room.path("other.db"), "CREATE TABLE other(a)")
    other = read(room.path("other.db"))
    for name, data in (
        ("text.db", b"op,id\n" * 2000),
        ("short.db", b"not a database\n"),
        ("one.db", b"x"),
        ("zero.db", b"\0"),
        ("zeros.db", bytes(3 * PAGE)),
        ("page.db", bytes(PAGE)),
        ("head.db", b"SQLite format 3\0"),
        ("cut.db", other[:PAGE]),
        ("turned.db", b"T" + other[1:]),
    ):
        room.write(name, data)
        refused_untouched(room, name, "D3")
    refused_untouched(room, "other.db", "D3")
    for name in ("nowhere/new.db", "folder.db", "schema.toml/new.db", ""):
        refused_untouched(room, name, "D2")
    room.write("empty.db", b"")
    expect(asked_of(room, "empty.db"), "D3", "a question over an empty file")
    expect(left_at(room, "empty.db"), {"empty.db": b""}, "what a question leaves of an empty file")
    return None


def refused_untouched(room, name, wanted):
    """Sees that a session and a question refuse what stands at a path, and leave it as it was, with nothing beside it."""
    before = left_at(room, name)
    expect(refusal_of(room, room.words(name))[0], wanted, f"a start over {name!r}")
    expect(left_at(room, name), before, f"what a start leaves of {name!r}")
    expect(refusal_of(room, room.words(name, "--wary"))[0], wanted, f"a wary start over {name!r}")
    expect(asked_of(room, name), wanted, f"a question over {name!r}")
    expect(left_at(room, name), before, f"what a question leaves of {name!r}")


def asked_of(room, name):
    """The code that a question over a store is refused by, or None."""
    status, out, err = room.run(["print", *room.words(name)], b"")
    told = re.fullmatch(rb"datacube: (.+)\n", err)
    return told[1].decode() if status == 1 and told and not out else None


def left_at(room, name):
    """The files whose names begin as a path's does, and what each has."""
    beside = [it for it in os.listdir(room.folder) if name and it.startswith(name) and os.path.isfile(room.path(it))]
    return {it: read(room.path(it)) for it in beside}


def cut_short(room, rng):
    """What a making that was cut short leaves: a question refuses it and leaves it so, and a session goes on with it."""
    live = room.open("begun.db")
    live.ask([b"sync"])
    live.end(is_killed=True)
    made = left_at(room, "begun.db")
    first, log = made["begun.db"], made["begun.db-wal"]
    expect(len(first), PAGE, "how long the file is that a session made which was killed")
    fresh = everything(oracle.Session(SCHEMA, FEEDS))
    images = [(b"", None), (b"", log[:41]), (b"", log[:9]), (first, log[:41])]
    images += [(b"\0" + first[1:long], log[:41]) for long in (1, 2, 100, 101, 512, PAGE - 1, PAGE)]
    for data, beside in images:
        room.remove("begun.db")
        room.write("begun.db", data)
        if beside is not None:
            room.write("begun.db-wal", beside)
        before = left_at(room, "begun.db")
        what = f"a making cut short after {len(data)} bytes"
        expect(asked_of(room, "begun.db"), "D3", f"a question over {what}")
        if data != first:
            expect(left_at(room, "begun.db"), before, f"what a question leaves of {what}")
        expect(refusal_of(room, room.words("begun.db"), b"print\nrefusals\n")[:2], (None, fresh), f"a start over {what}")
        expect(asked_of(room, "begun.db"), None, f"a question over {what} after a start")
    return f"{len(images)} of them"


def rights(room, rng):
    """Who may read a store and its log: its owner alone where it is made, and then those of the file, at each opening."""
    def mode(name):
        return oct(os.stat(room.path(name)).st_mode & 0o777)

    def see(wanted, *options):
        live = room.open("kept.db", *options)
        live.ask([b"1", b"D", b"nobody"], [b"sync"])
        expect((mode("kept.db"), mode("kept.db-wal")), (wanted, wanted), f"the rights of a store and its log, where {wanted} was wanted")
        live.end(is_killed=True)

    see("0o600")
    for wanted in (0o640, 0o600):
        os.chmod(room.path("kept.db"), wanted)
        see(oct(wanted))
        os.chmod(room.path("kept.db-wal"), 0o644)
        expect(asked_of(room, "kept.db"), None, "a question over the store")
        expect(mode("kept.db-wal"), oct(wanted), "the rights of the log after a question")
    return None


# ---- other feeds


def other_feeds(room, rng):
    """A start with other feeds or another schema than the store was made with, and then one with the right ones."""
    state = room.made("fed.db", 200, rng)[1]
    one, two = room.names
    write = room.write
    grown = write("grown.csv", feed_bytes([*FEEDS[1], [b"D", b"a"]]))
    same = write("same.csv", feed_bytes(FEEDS[0]))
    turned = write("turned.csv", feed_bytes(FEEDS[0]).replace(b"west", b"wesT"))
    cut = write("cut.csv", feed_bytes(FEEDS[1])[:-1])
    spaced = write("spaced.toml", SCHEMA.toml() + b"\n")
    for wanted, schema, *feeds in (
        (None, "schema.toml", same, two),
        ("D5 1", "schema.toml", turned, two),
        ("D5 2", "schema.toml", one, grown),
        ("D5 2", "schema.toml", one, cut),
        ("D5 1", "schema.toml", turned, grown),
        ("D5 1", "schema.toml", two, one),
        ("D5 3", "schema.toml", one, two, same),
        ("D5 2", "schema.toml", one),
        ("D5 1", "schema.toml"),
        ("D5 0", spaced, one, two),
        ("D5 0", spaced, turned, two),
    ):
        got, out, _ = refusal_of(room, ["--store", "fed.db", schema, *feeds], b"print\nrefusals\n")
        expect((got, out), (wanted, b"" if wanted else everything(state)), f"a start over {schema} {' '.join(feeds)}")
        right = refusal_of(room, room.words("fed.db"), b"print\nrefusals\n")
        expect(right, (None, everything(state), state.status()), "a start with the right feeds after that")
    return None


def without_feeds(room, rng):
    """A store of a session without a feed."""
    changes = Changes(rng)
    records, state = [changes.next() for _ in range(100)], oracle.Session(SCHEMA, [])
    words = ["--store", "plain.db", "schema.toml"]
    got = refusal_of(room, words, oracle.encode([*records, [b"print"]]))
    expect(got, (None, taken(state, records).reply([b"print"]), state.status()), "the session that makes it")
    expect(refusal_of(room, words, b"print\nrefusals\n"), (None, everything(state), state.status()), "the next one")
    expect(refusal_of(room, room.words("plain.db"))[0], "D5 1", "one with feeds")
    return None


# ---- all of them


# (by their names; those with a number of rounds have few in the short form)
TRIALS = {
    "records of every kind, kept and taken again": odd_records,
    "what SQLite reads after a session": sqlite_reads,
    "a session that is killed at random moments": lambda room, rng: kills(room, rng, 6 if room.is_short else 200),
    "a session that rests and is ended by a signal": signals,
    **{f"refused in turn: each {it}": functools.partial(store_calls.refused_in_turn, name=it) for it in store_calls.CAUSES},
    "what a crash of the machine may leave": store_crashes.crash_images,
    "what a second crash may leave, of the start after the first": store_crashes.second_crashes,
    "a second process": second_process,
    "a full disk": full_disk,
    "a file cut at each boundary of pages": cut_files,
    "a byte turned in each page": turned_bytes,
    "a byte turned in each part of a row": turned_rows,
    "a store of release 1.11.5": old_store,
    "tables and rows that SQLite changed": changed_tables,
    "files that are no stores": no_stores,
    "a making that was cut short": cut_short,
    "the rights of a store and its log": rights,
    "other feeds and another schema": other_feeds,
    "a store without feeds": without_feeds,
}


@pytest.fixture(scope="session")
def store_room(program, request):
    """The room of the trials."""
    place = os.environ.get("TMPDIR") or ("/dev/shm" if os.access("/dev/shm", os.W_OK) else None)
    with tempfile.TemporaryDirectory(prefix="store-trials-", dir=place) as folder:
        yield Room(program, folder, not request.config.getoption("--long"), request.config.getoption("--each"))


@pytest.mark.parametrize("name", TRIALS)
def test_store(name, store_room, request, tell):
    try:
        told = TRIALS[name](store_room, random.Random(f"{request.config.getoption('--seed')} {name}"))
    except LeftOut as why:
        pytest.skip(str(why))
    if told and not store_room.is_short:
        tell(f"{name}: {told}")
