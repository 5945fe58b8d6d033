"""The gate: what takes seconds first, then the proofs and the must-fail edits, then whether the released program is what the
proofs give, and what runs programs that they left. Parts that need no proof run side by side.

    scripts/test.sh [--quick | --anew]

The program that the first parts run is one that was built here from these very sources, else the released one. The last
line is `N passed, M failed` over all parts; before it stands a table of the seconds that each part took, and all of them.
"""
import collections
import concurrent.futures
import contextlib
import glob
import os
import re
import shutil
import subprocess
import sys
import tempfile
import threading
import time
from unittest import mock

sys.dont_write_bytecode = True
import edits
import processes
import programs

ROOT = programs.ROOT
BUILT = f"{ROOT}/crates/datacube/out"
RELEASE = f"{ROOT}/release/x86_64-linux"
COUNTS = re.compile(r"(\d+) passed, (\d+) failed")
# (most share their tests among as many processes as there are processors)
PARTS_AT_ONCE = 3
# (where files lie in memory, and the free bytes there from which on temporary files go there)
MEMORY, MEMORY_NEEDED = "/dev/shm", 2**31
# (what of a part of tests by pytest says how one of its files went)
OF_FILE = re.compile(r"(tests/test_\w+\.py): (\d+) passed, (\d+) left out, (\d+) seconds")
# What pytest alone runs before the proofs, in one run that shares all of it among processes, by name, and the files of tests/.
TESTS = "tests by pytest"
BY_PYTEST = {
    "a wrong program": ["spoiled"],
    "starting, installing and packing it": ["installing"],
    "generated cases beside a slow program": ["columns", "feeds", "guesses", "merges", "rooms", "sessions", "views"],
    "a session over a store, the short form": ["store_trials"],
    "hostile use, the short form": ["hostile"],
    "the progress line in a terminal": ["progress"],
    "what is kept of proofs": ["proofs"],
}

# What came of a part: its status, the lines that it said, its seconds of the clock and of processors, and the names that it
# left in the folder for temporary files.
Part = collections.namedtuple("Part", "status lines clock spent left")


class Tally(programs.Tally):
    """What passed and what failed, and the seconds that each part took: of the clock, and of processors."""

    def __init__(self):
        super().__init__()
        self.rows = []

    def note_left(self, names):
        """Counts whether nothing was left in the folder for temporary files."""
        self.note(not names, f"nothing is left in the folder for temporary files{''.join(f': {it}' for it in names[:10])}")

    def run(self, parts):
        """Runs parts side by side; shows of each that ended what it says but for its last line, and adds up what that counts."""
        with concurrent.futures.ThreadPoolExecutor(PARTS_AT_ONCE) as pool:
            names = {pool.submit(run_part, command): name for name, command in parts}
            for ran in concurrent.futures.as_completed(names):
                name, part = names[ran], ran.result()
                print(f"== {name}", flush=True)
                print(*part.lines[:-1], sep="", end="", flush=True)
                self.rows.append((name, part.clock, part.spent))
                self.note_files(name, part.lines)
                self.add(part.status, "".join(part.lines[-1:]).strip())
                self.note_left(part.left)

    def note_files(self, name, lines):
        """Counts of each part that pytest ran with others whether something of each of its files was run, or left out for a reason."""
        went = {path: (passed, left) for path, passed, left, _ in map(re.Match.groups, filter(None, map(OF_FILE.match, lines)))}
        for what, files in BY_PYTEST.items() if name == TESTS else ():
            missing = [it for it in files if went.get(f"tests/test_{it}.py", ("0", "0")) == ("0", "0")]
            self.note(not missing, f"{what}: tests of {', '.join(files)}{''.join(f', none of {it}' for it in missing)}")

    def add(self, status, last):
        """Adds up what a part's last line counts; a part without such a line, or with a status that it doesn't tell of,
        failed, but for one that was left out."""
        if status == programs.LEFT_OUT:
            print("left out")
            return
        found = COUNTS.fullmatch(last)
        passed, failed = map(int, found.groups()) if found else (0, 1)
        if not found:
            print(last, flush=True)
        self.passed, self.failed = self.passed + passed, self.failed + (failed or int(status != 0))


@contextlib.contextmanager
def temporary_files(place=None):
    """A fresh folder for temporary files, as open as /tmp: a part that root runs may run others as somebody else."""
    with tempfile.TemporaryDirectory(prefix="gate-", dir=place, ignore_cleanup_errors=True) as room:
        os.chmod(room, 0o1777)
        yield room


def run_part(command):
    """Runs a command to its end, with a folder of its own for temporary files, and gives what came of it."""
    start = time.monotonic()
    with tempfile.TemporaryFile("w+", encoding="utf-8", errors="replace") as said, temporary_files(place_of(command)) as room:
        how = {"stdin": subprocess.DEVNULL, "stdout": said, "stderr": subprocess.STDOUT, "env": {**os.environ, "TMPDIR": room}}
        ran = subprocess.Popen(command, cwd=ROOT, **how)
        _, status, use = os.wait4(ran.pid, 0)
        clock = time.monotonic() - start
        ran.returncode = os.waitstatus_to_exitcode(status)
        said.seek(0)
        return Part(ran.returncode, said.readlines(), clock, use.ru_utime + use.ru_stime, sorted(os.listdir(room)))


def place_of(command):
    """Where a part's temporary files go: where the caller says, else of tests by pytest, whose stores sync at each commit and whose
    databases are made anew, in memory, where that can be."""
    is_room = not os.environ.get("TMPDIR") and os.access(MEMORY, os.W_OK) and not os.statvfs(MEMORY).f_flag & os.ST_NOEXEC
    free = os.statvfs(MEMORY).f_bavail * os.statvfs(MEMORY).f_frsize if is_room else 0
    return MEMORY if "pytest" in command and free > MEMORY_NEEDED else None


def stream(command, folder, see):
    """Runs a command in a folder and shows what it says but for its last line as it comes; gives its status and that line.
    Each line is handed on."""
    ran = subprocess.Popen(command, cwd=folder, stdin=subprocess.DEVNULL, stdout=subprocess.PIPE, stderr=subprocess.STDOUT, text=True, errors="replace")
    last = ""
    for line in ran.stdout:
        if last:
            print(last, end="", flush=True)
        last = line
        see(line)
    return ran.wait(), last.strip()


class Sampler(threading.Thread):
    """Looks twice a second which crates of a copy the prover is at, and adds up the seconds of each crate's proof, tests and
    edits."""

    def __init__(self, copy):
        super().__init__(daemon=True)
        self.copy, self.ended = copy, threading.Event()
        self.seen = {}
        self.spans = {}

    def run(self):
        while not self.ended.wait(0.5):
            for process in filter(str.isdigit, os.listdir("/proc")):
                with contextlib.suppress(OSError):
                    self.look(process)

    def look(self, process):
        words = programs.read(f"/proc/{process}/cmdline").split(b"\0")
        if not words[0].endswith(b"/rattle") or b"--crate-name" not in words:
            return
        crate = words[words.index(b"--crate-name") + 1].decode()
        folder = os.readlink(f"/proc/{process}/cwd")
        if not folder.startswith(self.copy + "/") and edits.ROOM not in folder:
            return
        key = crate, self.kind(words, folder)
        self.seen[process, processes.stat_of(process)[19]] = key, processes.spent_by(process, has_children=False)
        now = time.time()
        self.spans[key] = self.spans.get(key, (now, now))[0], now

    def kind(self, words, folder):
        if edits.ROOM in folder:
            return "edits"
        return "tests" if b"--test" in words else "building" if b"--crate-checked" in words else "proof"

    def rows(self):
        """The seconds of each crate's parts: from the first to the last look, and of processors."""
        spent = {}
        for key, seconds in self.seen.values():
            spent[key] = spent.get(key, 0) + seconds
        return [(f"{crate}: {kind}", self.spans[crate, kind][1] - self.spans[crate, kind][0], seconds) for (crate, kind), seconds in spent.items()]


def quick_parts(program):
    """The parts that take seconds, and need no kit; those that wait most begin first."""
    shares = len(os.sched_getaffinity(0))
    pytest = lambda *files: programs.pytest(program, *(f"tests/test_{it}.py" for it in files), shares=shares)
    parts = [
        ("the Python package", programs.python_package(program, "-k", "not kill") or ["scripts/python_tests.py", "--program", program]),
        ("what documents show, run", ["scripts/pages.py", "--program", program]),
        ("the library that draws the explorer's charts", ["scripts/d3.py", "check"]),
        ("cases", ["scripts/cases.py", "--program", program]),
        ("documents", ["scripts/documents.py", "--check", "--program", program]),
    ]
    if pytest():
        parts.insert(1, (TESTS, pytest(*(it for files in BY_PYTEST.values() for it in files))))
    else:
        print("left out, since python3-pytest isn't installed:", ", ".join(BY_PYTEST))
    return parts


def long_parts(program):
    """The parts that need no kit, but a database and a browser."""
    kills, generated = programs.python_package(program, "-k", "kill", each=1), programs.pytest(program, "tests/test_sql.py")
    return [
        ("the page in a browser", ["scripts/explorer.sh"]),
        ("the page that counts a file of one's own, in a browser", ["scripts/own_page.sh"]),
        ("the same question in SQL", ["scripts/sql.py", "--program", program]),
        *([("the same question in SQL, generated cases", generated)] if generated else []),
        *([("the Python package, with processes that are killed", kills)] if kills else []),
    ]


def parts_of_proved(program):
    """The parts that run programs which the proofs left."""
    library = programs.pytest(program, "tests/test_hostile.py", "--long", "-k", "calls", shares=len(os.sched_getaffinity(0)))
    return [
        ("cases of the library", ["scripts/library_cases.py"]),
        ("cases of the benchmarks", ["scripts/cases.py", "--folder", "cases/bench", "--program", "crates/bench/out/bench"]),
        *([("calls of the library with memory refused", library)] if library else []),
    ]


def prove(tally, is_anew):
    """Proves everything, tries each must-fail edit, and records what was built."""
    ci = [sys.executable, "-B", f"{ROOT}/scripts/proofs.py", *(["--anew"] if is_anew else [])]
    print("== proofs and tests of all crates, and must-fail edits; where none is kept from an earlier run this takes more than an hour on four processors", flush=True)
    os.environ.setdefault("RT_JOBS", shell("checks_side_by_side"))
    with temporary_files() as room:
        with mock.patch.dict(os.environ, TMPDIR=room), mock.patch.object(tempfile, "tempdir", room):
            found = prove_copy(tally, ci, is_anew)
        tally.note_left(sorted(os.listdir(room)))
    for it in found:
        tally.note(it.is_refused, it.text)
    print(f"{sum(it.is_kept for it in found)} of the {len(found)} must-fail edits were refused in an earlier run on this machine", flush=True)


def prove_copy(tally, ci, is_anew):
    """Does so in a copy of the sources, and gives what came of the edits."""
    with tempfile.TemporaryDirectory(prefix="datacube-gate-") as copy:
        edits.copy_sources(copy)
        start, sampler, trials = time.time(), Sampler(copy), edits.Trials(copy, "must-fail", is_anew)
        sampler.start()
        tally.add(*stream(ci, copy, trials.see))
        found = trials.results()
        sampler.ended.set()
        sampler.join()
        rows = sampler.rows()
        tally.rows += [("proofs, tests and edits", time.time() - start, sum(it[2] for it in rows)), *sorted(rows, key=lambda it: -it[2])]
        take_programs(copy)
        see_page(tally, copy)
        return found


def take_programs(copy):
    """Takes the programs that were built in a copy, and records of which sources `datacube` is."""
    for path in glob.glob(f"{copy}/crates/*/out/*"):
        name = os.path.basename(path)
        if path == f"{copy}/crates/{name}/out/{name}" and os.path.isfile(path):
            os.makedirs(f"{ROOT}/crates/{name}/out", exist_ok=True)
            shutil.copy(path, f"{ROOT}/crates/{name}/out/{name}.new")
            os.replace(f"{ROOT}/crates/{name}/out/{name}.new", f"{ROOT}/crates/{name}/out/{name}")
    if os.path.exists(f"{copy}/crates/datacube/out/datacube"):
        shell(f"record {BUILT} $(sources_of {copy})")


def see_page(tally, copy):
    """Sees that the modules in the page for files of one's own are what the proved crate in a copy gives."""
    if not shutil.which("wasm-opt"):
        print("left out, since there is no wasm-opt: the modules in the page")
        return
    with temporary_files() as room:
        kept, modules = f"{room}/page.bc", [f"{room}/page64.wasm", f"{room}/page32.wasm"]
        steps = ["ir", f"{copy}/crates", f"{copy}/crates/cube_page", kept], ["module", kept, *modules], ["check", *modules]
        start = time.monotonic()
        for words in steps:
            ran = subprocess.run(["scripts/page.py", *words], cwd=ROOT, stdout=subprocess.PIPE, stderr=subprocess.STDOUT, text=True, errors="replace")
            if ran.returncode:
                print(*ran.stdout.splitlines()[-20:], sep="\n", flush=True)
                break
        tally.rows.append(("making the modules of the page", time.monotonic() - start, 0))
        tally.note(ran.returncode == 0, "the modules in the page are what the proved crate gives")


def see_release(tally):
    """Sees that the released program is what the proved sources give."""
    print("== the released program", flush=True)
    sources = shell(f"sources_of {ROOT}")
    lines = {place: contents(f"{place}/datacube.txt").decode().splitlines() for place in (BUILT, RELEASE)}
    recorded = {place: dict(it.split(": ", 1) for it in some) for place, some in lines.items()}
    tally.note(recorded[RELEASE].get("sources") == sources, "the released program was built from these sources")
    tally.note(shell(f"is_whole {RELEASE} && echo yes") == "yes", "its bytes are those that were recorded")
    is_same = recorded[BUILT].get("sources") == sources and contents(f"{BUILT}/datacube") == contents(f"{RELEASE}/datacube")
    tally.note(is_same, "they are those that were built from the proved sources")
    if not is_same:
        print(f"        released by {recorded[RELEASE].get('kit')}, built by {recorded[BUILT].get('kit')}")
        print("        scripts/release.sh makes what was built the released program")


def contents(path):
    return programs.read(path) if os.path.exists(path) else b""


def shell(call):
    """What a function of programs.sh says."""
    return subprocess.run(["sh", "-c", f". {ROOT}/scripts/programs.sh; {call}"], stdout=subprocess.PIPE, text=True).stdout.strip()


def main():
    given = programs.words_of(__doc__, quick=False, anew=False)
    start, tally = time.monotonic(), Tally()
    program = programs.found()
    if program:
        print(f"the program that is run: {os.path.relpath(program, ROOT)}", flush=True)
        tally.run(([] if given.quick else long_parts(program)) + quick_parts(program))
    else:
        tally.note(False, "there is a program to run the cases on")
    if not given.quick:
        prove(tally, given.anew)
        see_release(tally)
        tally.run(parts_of_proved(program or f"{BUILT}/datacube"))
    print("== seconds of the clock, and of processors")
    for name, clock, spent in tally.rows:
        print(f"{clock:8.0f} {spent:8.0f}  {name}")
    print(f"{time.monotonic() - start:8.0f} {sum(os.times()[:4]):8.0f}  everything")
    return tally.end()


if __name__ == "__main__":
    sys.exit(main())
