"""The rooms in which sessions run over a store, and what such a session has to answer."""
import os
import re
import shutil
import subprocess
import tempfile
import threading

import oracle
import programs

SCHEMA = oracle.Schema(["place", "kind"], ["amount"], [("count", None), ("sum", 0)])
SECONDS = 120
SOURCES = (1, 2, 3)
# (one feed more and one less than these are refused too)
FEEDS = [
    [[b"I", b"a", b"west", b"tea", b"5"], [b"I", b"b", b"\\N", b"tea", b"7"], [b"D", b"c"]],
    [[b"I", b"a", b"east", b"tea, green", b"-3"], [b"U", b"a", b"east", b'"', b"4"]],
]
TEXTS = [b"west", b"east", b"a,b", b'a "b"', b"two\nlines", b"\\N", b"", b"K\xc3\xb6ln", b"north of everything that has a name"]


class LeftOut(Exception):
    """A trial that can't be made here, and why."""


class Wrong(Exception):
    """What is wrong with what the program did."""


class Changes:
    """Changes of three sources: inserts, changes and deletes of some hundred ids, and now and then one that is refused."""

    def __init__(self, rng):
        self.rng, self.present = rng, {source: [] for source in SOURCES}

    def next(self):
        rng, source = self.rng, self.rng.choice(SOURCES)
        ids, kind = self.present[source], self.rng.random()
        if kind < 0.05:
            return self.refused(source)
        if kind < 0.5 and len(ids) < 200 or not ids:
            name = b"i%d" % rng.randrange(10**6)
            ids.append(name)
            return [b"%d" % source, b"I", name, *self.fact()]
        if kind < 0.8:
            return [b"%d" % source, b"U", rng.choice(ids), *self.fact()]
        name = ids.pop(rng.randrange(len(ids)))
        return [b"%d" % source, b"D", name] + (self.fact() if rng.random() < 0.3 else [])

    def fact(self):
        rng = self.rng
        return [rng.choice(TEXTS), rng.choice(TEXTS), rng.choice([b"\\N", b"%d" % rng.randint(-(10**9), 10**9)])]

    def refused(self, source):
        some = [[b"D", b"nobody"], [b"I"], [], [b""], [b"I", b"x", b"\xff", b"a", b"1"], [b"U", b"nobody", *self.fact()], [b"X,\r\n", b'"']]
        return [b"%d" % source, *self.rng.choice(some)]


class Live:
    """A running session, asked through pipes."""

    def __init__(self, room, words):
        self.room, self.words, self.file = room, words, tempfile.TemporaryFile()
        streams = {"stdin": subprocess.PIPE, "stdout": subprocess.PIPE, "stderr": self.file}
        self.process = subprocess.Popen([room.program, "live", *words], cwd=room.folder, **streams)
        self.is_late = False
        self.late = threading.Timer(SECONDS, self.stop)
        self.late.start()

    def stop(self):
        """Ends a session that ran past its time."""
        self.is_late = True
        self.process.kill()

    def send(self, records):
        """Writes records; whether there was somebody to read them."""
        try:
            self.process.stdin.write(oracle.encode(records))
            self.process.stdin.flush()
            return True
        except (BrokenPipeError, ConnectionResetError):
            return False

    def answer(self):
        """The bytes of the next answer, or as many of them as came."""
        line = self.process.stdout.readline()
        if self.is_late:
            raise Wrong(f"a session ran past its {SECONDS} seconds")
        size = int(line[3:]) if line.startswith(b"ok ") and line.endswith(b"\n") else 0
        return line + (self.process.stdout.read(size) if size else b"")

    def ask(self, *records):
        """The answer to the last of some records."""
        self.send(records)
        return self.answer()

    def end(self, is_killed=False):
        """Ends it; its status, what it still wrote, and what it said on standard error."""
        if is_killed:
            self.process.kill()
        try:
            self.process.stdin.close()
        except (BrokenPipeError, ConnectionResetError):
            pass
        rest, status = self.process.stdout.read(), self.process.wait()
        self.process.stdout.close()
        self.late.cancel()
        with self.file:
            self.file.seek(0)
            return status, rest, self.file.read()


class Room(programs.Room):
    """A folder with a schema and feeds, in which sessions run over a store."""

    def __init__(self, program, folder, short, each=False):
        super().__init__(program, folder)
        self.is_short, self.is_each = short, each
        self.write("schema.toml", SCHEMA.toml())
        self.names = [self.write(f"feed{at}.csv", feed_bytes(records)) for at, records in enumerate(FEEDS, 1)]

    def words(self, store, *options):
        """The words of a session over a store, after `live`."""
        return ["--store", store, *options, "schema.toml", *self.names]

    def open(self, store, *options):
        return Live(self, self.words(store, *options))

    def made(self, name, count, rng):
        """Makes a store of so many changes by a session that ends well; the changes, and a session that stands after them."""
        self.remove(name)
        changes = Changes(rng)
        records = [changes.next() for _ in range(count)]
        state = oracle.Session(SCHEMA, FEEDS)
        live = self.open(name)
        live.send(records)
        expect(live.ask([b"print"]), taken(state, records).reply([b"print"]), "the answer of the session that made the store")
        ended_well(live, state)
        return records, state

    def copied(self, name, other):
        """A copy of a store that no session has open, with its log where there is one."""
        self.remove(other)
        for end in ("", "-wal"):
            if os.path.exists(self.path(name + end)):
                shutil.copyfile(self.path(name + end), self.path(other + end))
        return other

    def remove(self, name):
        """Takes a store away, where it is there, with all that lies beside it."""
        for end in ("", "-wal", "-shm", "-journal"):
            if os.path.exists(self.path(name + end)):
                os.remove(self.path(name + end))


def feed_bytes(records):
    return oracle.encode([SCHEMA.header(), *records])


def taken(state, records):
    """A session once it took records that are changes."""
    for record in records:
        state.reply(record)
    return state


def expect(got, wanted, what):
    if got != wanted:
        raise Wrong(f"{what}: {shown(wanted)} was to come, and {shown(got)} came")


def shown(it):
    text = repr(it)
    return text if len(text) < 200 else f"{text[:90]} .. {text[-90:]} of {len(it)}"


def ended_well(live, state):
    """Ends a session at the end of its input; it has to end with the status of its changes, and nothing more to say. Where it
    had a store, the commands that read print what it would answer."""
    expect(live.end(), (state.status(), b"", b""), "the end of a session")
    if "--store" in live.words:
        for question in ("print", "refusals"):
            text = state.reply([question.encode()]).split(b"\n", 1)[1]
            expect(live.room.run([question, *live.words], b""), (state.status(), text, b""), f"{question} over its store")


def refusal_of(room, words, given=b"print\n"):
    """The code that a session is refused by, or None where it isn't; then its answers and its status."""
    status, out, err = room.run(["live", *words], given)
    told = re.fullmatch(rb"datacube: (.+)\n", err)
    if status == 1 and told and not out:
        return told[1].decode(), out, status
    if status in (0, 4) and not err:
        return None, out, status
    raise Wrong(f"status {status} with {shown(out)} and {shown(err)}")


def everything(state):
    """What `print` and `refusals` answer."""
    return state.reply([b"print"]) + state.reply([b"refusals"])
