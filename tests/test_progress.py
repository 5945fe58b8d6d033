"""What the program says in a terminal of its own, its progress line above all.

A trial runs the program with a pseudo-terminal as standard error, feeds it slowly through pipes that are named as files, and looks at
what the terminal got, and when; what stands on its screen, pyte makes of that.
"""
import os
import pty
import re
import subprocess
import tempfile
import threading
import time

import programs
import pytest

pyte = pytest.importorskip("pyte", reason="python3-pyte isn't installed")

SCHEMA = b'dimensions = ["region", "kind"]\nmeasures = ["amount"]\naggregates = ["count(*)", "sum(amount)"]\n'
HEADER = b"op,id,region,kind,amount\n"
WRITTEN = b"\r\x1b[?7l"
ERASED = b"\r\x1b[K"
ESCAPE = re.compile(rb"\x1b\[\??\d*[a-zA-Z]")
COLUMNS, ROWS, SECONDS = 300, 100, 30
TRIALS = {}


def trial(name):
    """Names a function that tries something in a terminal."""
    return lambda it: TRIALS.setdefault(name, it)


def records(first, count):
    """Inserts of facts, whose ids begin with this number."""
    return [b"I,%d,r%d,k%d,%d\n" % (n, n % 7, n % 3, n) for n in range(first, first + count)]


def feed(count):
    return HEADER + b"".join(records(1, count))


class Terminal:
    """What a terminal got, each piece with the seconds since the program was started."""

    def __init__(self, pieces):
        self.text = b"".join(piece for _, piece in pieces)
        self.times = [at for at, piece in pieces for _ in range(piece.count(WRITTEN))]

    def lines(self):
        """What the progress line said, each time that it was written."""
        return [ESCAPE.sub(b"", part.partition(ERASED)[0]).decode() for part in self.text.split(WRITTEN)[1:]]

    def rows(self):
        """What stands on the screen in the end, without empty rows at its end."""
        screen = pyte.Screen(COLUMNS, ROWS)
        pyte.ByteStream(screen).feed(self.text)
        return "\n".join(it.rstrip() for it in screen.display).rstrip("\n").split("\n")

    def is_steady(self, least):
        """Sees that the line was written at the right times, at least so often."""
        assert len(self.times) >= least, f"the line was written {len(self.times)} times, and not {least}"
        assert 0.5 <= self.times[0] <= 1.5, f"the line came after {self.times[0]:.3f} seconds"
        spans = [later - at for at, later in zip(self.times, self.times[5:])]
        assert not spans or min(spans) >= 0.95, f"it was written six times in {min(spans):.3f} seconds"

    def has(self, pattern):
        """Sees that some line is of this form."""
        assert any(re.fullmatch(pattern, line) for line in self.lines()), f"no line is `{pattern}`: {self.lines()}"

    def ends_with(self, *rows):
        """Sees that in the end these rows stand on the screen alone."""
        assert self.rows() == (list(rows) or [""])


class Trial(programs.Room):
    """A folder with what a run needs, and the run of it in a terminal."""

    def __init__(self, program, folder):
        super().__init__(program, folder)
        self.write("schema.toml", SCHEMA)

    def slowly(self, first, pieces, pause=0.1):
        """A pipe in the place of a file, into which come bytes at once and then each piece after a pause."""
        return self.piped("slow.csv", [first, *pieces], pause)

    def slow(self):
        return self.slowly(HEADER + records(1, 1)[0], records(2, 18))

    def plain(self, *words):
        """The status and the output of a run without a terminal."""
        return self.run(words, seconds=SECONDS)[:2]

    def shown(self, *words, term="xterm", shared=False, given=b"", wait=0):
        """The status of a run whose standard error is a terminal, its output, and what the terminal got; where it is shared, the
        output goes there too. The output is read after so many seconds."""
        ours, theirs = pty.openpty()
        env = {**{key: value for key, value in os.environ.items() if key != "TERM"}, **({} if term is None else {"TERM": term})}
        pieces, start = [], time.monotonic()
        out = theirs if shared else subprocess.PIPE
        ran = subprocess.Popen([self.program, *words], cwd=self.folder, env=env, stdin=subprocess.PIPE, stdout=out, stderr=theirs)
        os.close(theirs)
        looking = threading.Thread(target=look, args=(ours, pieces, start), daemon=True)
        looking.start()
        time.sleep(wait)
        try:
            output = ran.communicate(given, timeout=SECONDS)[0]
        finally:
            ran.kill()
        looking.join()
        os.close(ours)
        return ran.returncode, output, Terminal(pieces)


def look(terminal, pieces, start):
    """Takes what comes to a terminal, with the seconds since the start."""
    while True:
        try:
            piece = os.read(terminal, 65536)
        except OSError:
            return
        if not piece:
            return
        pieces.append((time.monotonic() - start, piece))


def command(*words):
    """A command over a slow feed shows the line and leaves nothing of it; its output is that of a plain run."""

    def tried(it):
        it.write("whole.csv", feed(19))
        wanted = it.plain(*words, "whole.csv")
        status, output, terminal = it.shown(*words, it.slow())
        assert (status, output) == wanted
        terminal.is_steady(3)
        terminal.has(r"datacube: reading 1 feed: [1-9]\d* lines, \d+ a second")
        terminal.ends_with()

    return tried


trial("print")(command("print", "schema.toml"))
trial("refusals")(command("refusals", "schema.toml"))
trial("slice")(command("slice", "schema.toml", "?,\\A"))
trial("drill")(command("drill", "schema.toml", "\\A,\\A", "kind"))
trial("rollup")(command("rollup", "schema.toml", "=r1,=k1", "kind"))
trial("several builders")(command("print", "--builders", "4", "schema.toml"))


@trial("lines are counted")
def lines_are_counted(it):
    """The lines of all feeds are counted, and each once."""
    it.slowly(HEADER + b"".join(records(1, 9)), [b""] * 12)
    it.write("other.csv", feed(30))
    status, _, terminal = it.shown("print", "--builders", "3", "schema.toml", "slow.csv", "other.csv")
    counts = {int(found[1]) for found in map(re.compile(r"datacube: reading 2 feeds: (\d+) lines.*").fullmatch, terminal.lines()) if found}
    assert status == 0 and counts and counts <= {39, 40, 41}, f"39 lines were taken, 41 with the ends, and {counts} was shown"
    terminal.ends_with()


@trial("a feed that stalls")
def stalled(it):
    """The line comes where no line of a feed does."""
    status, _, terminal = it.shown("print", "schema.toml", it.slowly(b"", [feed(3)], pause=1.3))
    assert status == 0
    terminal.is_steady(2)
    terminal.has(r"datacube: reading 1 feed: 0 lines, 0 a second")
    terminal.ends_with()


@trial("live")
def live(it):
    """`live` shows the line while it reads its feeds, and it is gone before the first reply, which the terminal gets too."""
    status, _, terminal = it.shown("live", "schema.toml", it.slowly(HEADER, records(1, 12)), given=b"slice,\\A,\\A\n", shared=True)
    _, printed = it.plain("print", "schema.toml", it.write("whole.csv", feed(12)))
    rows = terminal.rows()
    assert (status, rows[-1], len(rows)) == (0, printed.splitlines()[-1].decode(), 3), rows
    terminal.is_steady(3)


def merging(it, *options):
    """What is wanted of a merge, and what came of one of a slow cube."""
    names = [it.write(f"feed{n}.csv", HEADER + b"".join(records(n * 50, 40))) for n in (1, 2)]
    cubes = [it.plain("print", "--partial", "schema.toml", name)[1] for name in names]
    lines = cubes[0].splitlines(keepends=True)
    wanted = it.plain("merge", "schema.toml", it.write("one.csv", cubes[0]), it.write("two.csv", cubes[1]))
    it.slowly(b"".join(lines[:3]), lines[3:18] + [b"".join(lines[18:])])
    return wanted, it.shown("merge", *options, "schema.toml", "slow.csv", "two.csv")


@trial("merge")
def merge(it):
    """`merge` shows the line, and counts the lines of all cubes."""
    wanted, (status, output, terminal) = merging(it)
    assert (status, output) == wanted
    terminal.is_steady(3)
    terminal.has(r"datacube: merging 2 cubes: [1-9]\d* lines, \d+ a second")
    terminal.ends_with()


@trial("output to the terminal")
def output_to_the_terminal(it):
    """Where the output goes to the terminal too, the line is gone before its first byte."""
    status, _, terminal = it.shown("print", "schema.toml", it.slowly(HEADER, records(1, 12)), shared=True)
    _, wanted = it.plain("print", "schema.toml", it.write("whole.csv", feed(12)))
    assert status == 0
    terminal.is_steady(3)
    terminal.ends_with(*wanted.decode().splitlines())


@trial("output that waits")
def writing(it):
    """While the output waits for its reader the bytes that went out are shown."""
    it.write("whole.csv", HEADER + b"".join(b"I,%d,%d,k%d,%d\n" % (n, n, n % 3, n) for n in range(5000)))
    status, output, terminal = it.shown("print", "schema.toml", "whole.csv", wait=2.5)
    assert status == 0 and len(output) > 150000
    terminal.has(r"datacube: writing: \d+ bytes")
    terminal.ends_with()


@trial("a failure")
def failing(it):
    """Of a run that fails, the line that tells so and those that say why stay alone."""
    it.write("schema.toml", b"max_records = 10\n" + SCHEMA)
    name = it.slow()
    status, output, terminal = it.shown("print", "schema.toml", name)
    assert (status, output) == (1, b"")
    terminal.is_steady(1)
    terminal.ends_with("datacube: G3 1 F4", f"  {name}, record 11: one data record more than max_records, which is 10",
                       "  Raise max_records in the schema, or leave lines out.")


@trial("a quick run")
def quick(it):
    """A run of less than half a second shows nothing."""
    name, start = it.write("whole.csv", feed(50)), time.monotonic()
    status, _, terminal = it.shown("print", "schema.toml", name)
    assert status == 0 and (terminal.text == b"" or time.monotonic() - start >= 0.5)


def silent(*options, **how):
    """A run over a slow feed that shows nothing."""

    def tried(it):
        status, _, terminal = it.shown(*options, "schema.toml", it.slow(), **how)
        assert (status, terminal.text) == (0, b"")

    return tried


trial("--quiet")(silent("print", "--quiet"))
trial("--quiet live")(silent("live", "--quiet"))
trial("TERM=dumb")(silent("print", term="dumb"))
trial("no TERM")(silent("print", term=None))
trial("TERM empty")(silent("print", term=""))


@trial("--quiet merge")
def quiet_merge(it):
    wanted, (status, output, terminal) = merging(it, "--quiet")
    assert (status, output, terminal.text) == (*wanted, b"")


@trial("no terminal")
def no_terminal(it):
    """Standard error that is no terminal gets nothing."""
    status, _, err = programs.Room("env", it.folder).run(["TERM=xterm", it.program, "print", "schema.toml", it.slow()], seconds=SECONDS)
    assert (status, err) == (0, b"")


@trial("a feed from the keyboard")
def keyboard(it):
    """Without words, a standard input that is a terminal is told of, and how to get help; one that is none isn't."""
    typed = feed(3)
    plain = it.run([], typed, SECONDS)
    ours, theirs = pty.openpty()
    ran = subprocess.Popen([it.program], cwd=it.folder, stdin=theirs, stdout=subprocess.PIPE, stderr=subprocess.PIPE)
    os.close(theirs)
    os.write(ours, typed + b"\x04")
    try:
        output, said = ran.communicate(timeout=SECONDS)
    finally:
        ran.kill()
        os.close(ours)
    assert (ran.returncode, plain) == (0, (0, output, b""))
    assert said == b"datacube: reading a feed from the keyboard, which Ctrl-D ends; for help: datacube --help\n"


@pytest.mark.parametrize("name", TRIALS)
def test_progress(name, program):
    # (a line that comes late may be the machine's doing, so each has a second try)
    for is_last in (False, True):
        with tempfile.TemporaryDirectory(prefix="datacube-progress-") as folder:
            try:
                return TRIALS[name](Trial(program, folder))
            except AssertionError:
                if is_last:
                    raise
