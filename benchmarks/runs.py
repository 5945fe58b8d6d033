"""Runs of `datacube print` over workloads: beside its peers, by steps, and by shards."""
import argparse
import contextlib
import fractions
import itertools
import math
import os
import re
import shlex
import subprocess
import sys
import tempfile

import oracle
import sql
from measure import DATACUBE, Use, cell, head, row, run, run_into
from peers import OF_VALUES, PEERS, installed
from programs import write
from workloads import WORKLOADS, make

COUNTS = (1, 2, 4, 8, 16)
STATISTICS = [("count distinct", 0), ("percentile_disc 0.5", 0), ("percentile_disc 0.95", 0), ("var_samp", 0)]
# what a peer's variance, which it rounds, may be apart from ours, as a part of it
ROUNDED = fractions.Fraction(1, 10**9)
STEPS = {
    "reading": ("RecordReader::advance", "plain::change_of_row"),
    "books": ("Ledger::apply_fed",),
    "coding": ("shares::column_of",),
    "counting": ("shares::share_cells",),
    "sorting": ("taken::Taken::of",),
    "walking": ("bottom_up::walk",),
}
# how many feeds a workload is split into, where it isn't one
SOURCES = {"many": 64}


def make_in(folder, name, scale):
    """Makes a workload in a new folder; gives the paths of its schema and feeds."""
    os.mkdir(folder)
    return make(folder, name, SOURCES.get(name, 1), scale)


class Work:
    """A workload: its files and what its schema names."""

    def __init__(self, files):
        self.files, self.feeds, self.schema = files, files[1:], sql.read_schema(files[0])
        self.dimensions, self.measures = self.schema.dimensions, self.schema.measures


class Ours:
    """A program with the words of ours."""

    def __init__(self, *words):
        self.words = words

    def run(self, work, out):
        return run_into([*self.words, *work.files], out)


def text_of(work, lines, has_groupings):
    """Our text, line by line, made of the lines of a peer."""
    count, kinds = len(work.dimensions), [kind for kind, _ in work.schema.aggregates]
    yield oracle.text_of(work.schema, [])
    for line in lines:
        fields = line.rstrip(b"\n").split(b",")
        if not has_groupings:
            marked = [it.strip(b'"') for it in fields[:count]]
            fields[:count] = [it[1:] if it else rb"\N" for it in marked] + [b"0" if it else b"1" for it in marked]
        rest = iter(fields[2 * count:])
        answers = [mean(next(rest), next(rest)) if kind == "avg" else next(rest) for kind in kinds]
        yield b",".join(fields[:2 * count] + answers) + b"\n"


def mean(total, count):
    """A sum and a count as a mean."""
    total, count = int(total), int(count)
    common = math.gcd(total, count)
    return b"%d/%d" % (total // common, count // common)


def differs(ours, theirs, variances=()):
    """Says the first line in which an answer isn't ours, or gives None; in some columns it may be rounded."""
    for at, (one, other) in enumerate(itertools.zip_longest(ours, theirs), 1):
        if one != other and not (one and other and variances and at > 1 and is_rounded(one, other, variances)):
            return f"line {at} is {other!r}, and ours {one!r}"
    return None


def is_rounded(one, other, variances):
    """Whether a line is another one, but that it has rounded numbers in some columns."""
    ours, theirs = (it.decode().rstrip("\n").split(",") for it in (one, other))
    pairs = [(ours[at], theirs[at]) for at in variances]
    for at in variances:
        ours[at] = theirs[at] = ""
    return ours == theirs and all(map(is_near, *zip(*pairs)))


def is_near(ours, theirs):
    """Whether a number is one of ours, rounded."""
    if "\\N" in (ours, theirs):
        return ours == theirs
    exact = fractions.Fraction(ours)
    return abs(fractions.Fraction(theirs) - exact) <= ROUNDED * exact


def used_by_each(name, words, peers, aggregates=None):
    """Runs a workload, with its own aggregates or with others, by each program; gives the uses of each, and how the answers differed of
    those that did."""
    with tempfile.TemporaryDirectory(prefix="datacube-compare-") as top, contextlib.ExitStack() as servers:
        os.chmod(top, 0o755)
        os.mkdir(f"{top}/out")
        os.chmod(f"{top}/out", 0o777)
        work = Work(make_in(f"{top}/feeds", name, words.scale))
        if aggregates:
            work.schema.aggregates = aggregates
            write(work.files[0], work.schema.toml())
        programs = [Ours(DATACUBE, "print", *words.ours)]
        if words.beside:
            programs.append(Ours(*shlex.split(words.beside), "print"))
        for kind, _ in peers:
            os.mkdir(f"{top}/{kind.__name__}")
            programs.append(servers.enter_context(kind(f"{top}/{kind.__name__}", words.threads)))
        uses, faults = [[] for _ in programs], {}
        for place in range(words.runs):
            for at, program in enumerate(programs):
                out = f"{top}/out/{at}-{place}.csv"
                uses[at].append(program.run(work, out))
                if place == 0:
                    faults[at] = fault_of(work, f"{top}/out/0-0.csv", out, dict(peers).get(type(program)))
                if at or place:
                    os.unlink(out)
    return [Use(*map(min, zip(*it))) for it in uses], faults


def fault_of(work, ours, out, has_groupings):
    """How an answer isn't ours, or None; `has_groupings` is None where it is of a program with the words of ours."""
    start = 2 * len(work.dimensions)
    variances = [start + at for at, (kind, _) in enumerate(work.schema.aggregates) if kind in sql.VARIANCES]
    with open(ours, "rb") as first, open(out, "rb") as second:
        return differs(first, second) if has_groupings is None else differs(first, text_of(work, second, has_groupings), variances)


def compare(asked):
    """Runs the same job by `datacube print` and by its peers, compares the answers, and prints what each took.

    The job: from the feeds of a workload as they lie on the disk, with ids, updates and deletes, to the sorted CSV of the whole cube
    in a file. Programs run in rounds: each once, then each again. Words behind `--` go to `datacube print` before the schema.

    No line of a workload's feeds is refused, so a fact is present where its id's last line is no delete: that each peer finds out by
    itself. In place of a mean the peers write its sum and its count, and ClickHouse, of which some versions have no GROUPING, a mark
    before each text that isn't ALL; our text is made of that outside of the time. Then each answer of the first round has to be ours,
    byte for byte; the status is 1 where one isn't. A server's memory is that of all its processes together. PostgreSQL is on a socket in
    a folder of its own, ClickHouse on a port of 127.0.0.1."""
    with busy(asked.busy):
        return compared(asked, asked.workloads or WORKLOADS, PEERS)


@contextlib.contextmanager
def busy(count):
    """Runs so many programs that use a processor each."""
    programs = [subprocess.Popen([sys.executable, "-c", "while True: pass"]) for _ in range(count)]
    try:
        yield
    finally:
        for it in programs:
            it.kill()
            it.wait()


def statistics(asked):
    """Runs `datacube print` of the workload `tall` with a distinct count, percentiles and a variance, and its peers, as `print` does.

    The aggregates are `count(distinct amount)`, `percentile_disc(0.5,amount)`, `percentile_disc(0.95,amount)` and `var_samp(amount)`; a
    million facts are those of `--scale 4`. PostgreSQL groups the facts themselves by GROUP BY CUBE, and data.table each grouping set, over
    facts that it has put in the order of the measure once. Each answer has to be ours, byte for byte, but a variance, which peers round
    (PostgreSQL to some twenty digits, R to a double): it has to be ours within a part in 10^9. Else the status is 1."""
    return compared(asked, ["tall"], OF_VALUES, STATISTICS)


def compared(asked, names, known, aggregates=None):
    """Runs workloads of these names beside those of the known peers that are asked for; gives the status."""
    peers = installed(asked.peers, known)
    named = [" ".join(["datacube print", *asked.ours]), *filter(None, [asked.beside, *peers])]
    head("", *named)
    faults = []
    for name in names:
        uses, found = used_by_each(name, asked, list(peers.values()), aggregates)
        row(f"`{name}`", *map(cell, uses))
        faults += [f"{name}: {named[at]}: {fault}" for at, fault in found.items() if fault]
    rounds = ", but for variances, which are rounded" if any(kind in sql.VARIANCES for kind, _ in aggregates or ()) else ""
    print("\n".join(f"FAILED {it}" for it in faults) or f"each answer is ours, byte for byte{rounds}")
    return 1 if faults else 0


def by_threads(name, asked, peers, count):
    """The uses of ours and of each peer with so many threads."""
    given = argparse.Namespace(scale=asked.scale, runs=asked.runs, threads=count, beside=None, ours=["--threads", str(count)])
    uses, faults = used_by_each(name, given, peers)
    for fault in filter(None, faults.values()):
        sys.exit(f"{name}: an answer isn't ours: {fault}")
    return uses


def instructions(files):
    """All instructions of a run of ours, and those of each step."""
    with tempfile.TemporaryDirectory() as folder:
        out = f"{folder}/callgrind"
        tool = ["valgrind", "--tool=callgrind", f"--callgrind-out-file={out}"]
        silent = {"check": True, "stdout": subprocess.DEVNULL, "stderr": subprocess.DEVNULL}
        subprocess.run([*tool, DATACUBE, "print", *files], **silent)
        annotate = ["callgrind_annotate", "--inclusive=yes", "--threshold=100", out]
        told = subprocess.run(annotate, check=True, capture_output=True, text=True).stdout
    counts = [(name, int(count.replace(",", ""))) for count, name in re.findall(r"^ *([\d,]+) \([^)]*\)  (.*)$", told, re.M)]
    whole = next(count for name, count in counts if name == "PROGRAM TOTALS")
    of = lambda call: max((count for name, count in counts if re.search(rf"::{call}(::<| \[|$)", name)), default=0)
    return whole, {step: sum(map(of, calls)) for step, calls in STEPS.items()}


def steps(asked):
    """Says where the work of `datacube print` goes: the instructions of a run, and the parts of a hundred of each step.

    They are counted by `valgrind --tool=callgrind`, over the feeds of each workload with the defaults. A step has the instructions of
    the calls that it names and of all that they call."""
    head("workload", "instructions", *STEPS, "the rest")
    for name in asked.workloads or WORKLOADS:
        with tempfile.TemporaryDirectory() as folder:
            whole, counts = instructions(make_in(f"{folder}/feeds", name, asked.scale))
        parts = [100 * count / whole for count in counts.values()]
        row(f"`{name}`", f"{whole / 1e6:,.0f} million", *(f"{it:.0f}" for it in [*parts, 100 - sum(parts)]))


def by_shards(room, files, count, threads):
    """What each shard used, what the merge of them used, and a digest of what it wrote."""
    parts = [f"{room}/part{at}.csv" for at in range(1, count + 1)]
    words = [DATACUBE, "print", "--partial", "--threads", str(threads)]
    used = [run_into([*words, "--shard", f"{at}/{count}", *files], part) for at, part in enumerate(parts, 1)]
    return used, *run([DATACUBE, "merge", files[0], *parts])


def shards(asked):
    """Measures a run by shards beside one run, for 1, 2, 4, 8 and 16 shards of one feed.

    Shards are printed one after another, as machines would that have one each, and merged; the bytes have to be those of one run. What
    N machines would take is the longest shard and then the merge. The least memory that is seen is this program's own."""
    head("", "Shards", "One run", "Longest shard", "Merge", "Both", "Processor seconds of all, by those of one run",
         "Memory of one run", "Largest shard")
    for name in asked.workloads or WORKLOADS:
        with tempfile.TemporaryDirectory() as room:
            files = make(room, name, 1, asked.scale)
            one, wanted = run([DATACUBE, "print", "--threads", str(asked.threads), *files])
            for count in COUNTS:
                used, merge, digest = by_shards(room, files, count, asked.threads)
                if digest != wanted:
                    sys.exit(f"{name}: what {count} shards print, merged, isn't what one run prints")
                longest, most = max(it.wall for it in used), max(it.memory for it in used)
                spent = sum(it.processor for it in used) + merge.processor
                times = [f"{it:.2f} s" for it in (one.wall, longest, merge.wall, longest + merge.wall)]
                row(f"`{name}`", count, *times, f"{spent / one.processor:.1f}", *(f"{it:.0f} MiB" for it in (one.memory, most)))
