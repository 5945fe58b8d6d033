"""What scripts share: the program that they run, by what Python its tests are, a folder in which it is run, files, the words of a
script, and what it counts."""
import argparse
import contextlib
import functools
import os
import shutil
import subprocess
import sys
import threading
import time

ROOT = os.path.dirname(os.path.dirname(os.path.realpath(__file__)))
SECONDS = 120
# (the status of what says which packages it lacks)
LEFT_OUT = 77
# (Debian's packages are of its own Python)
DEBIANS = "/usr/bin/python3"


def found():
    """The program that `./datacube` would run, or None; the released one too where it is of other sources."""
    ran = subprocess.run([f"{ROOT}/scripts/program.sh", "--any"], stdout=subprocess.PIPE, text=True)
    return None if ran.returncode else ran.stdout.strip()


def datacube():
    """The same; where there is none, the script ends."""
    return found() or sys.exit("no program is there to run: scripts/build.sh builds it")


@functools.cache
def python_with(package):
    """Debian's Python, or the one that runs this, whichever has a package, or None."""
    has = lambda it: shutil.which(it) and not subprocess.run([it, "-c", f"import {package}"], stderr=subprocess.DEVNULL).returncode
    return next((it for it in (DEBIANS, sys.executable) if has(it)), None)


def pytest(program, *words, shares=1):
    """The command by which pytest runs tests on a program, and tells what passed, or None where it isn't there. The tests are
    shared among so many processes, where Python can do that."""
    python = python_with("pytest")
    quiet = ["-q", "--tb=short", "--no-header", "-p", "no:cacheprovider", "--tally"]
    quiet += ["-n", str(shares), "--dist", "loadgroup"] if shares > 1 and python_with("xdist") == python else []
    return python and [python, "-B", "-m", "pytest", *quiet, "--program", program, *words]


def python_package(program, *words, each=3):
    """The same for the tests of the Python package, which mostly wait, and assert by calls: so many processes for each processor."""
    return pytest(program, "--assert=plain", "python/tests", *words, shares=each * len(os.sched_getaffinity(0)))


def crates(folder=ROOT):
    """What each crate of a folder stands on, by its name, as crates.txt says."""
    lines = [line.partition(":") for line in text_at(f"{folder}/crates.txt").splitlines() if line and line[0] != "#"]
    return {left.split()[0]: right.split() for left, _, right in lines}


def read(path):
    """The bytes of a file."""
    with open(path, "rb") as file:
        return file.read()


def text_at(path):
    """The text of a file, with its line ends."""
    return read(path).decode()


def write(path, data):
    """Writes a file of bytes, or of a text."""
    with open(path, "wb") as file:
        file.write(data.encode() if isinstance(data, str) else data)


def words_of(about, words=None, has_others=False, **options):
    """The words of a script, of which its documentation tells. An option has what it is where it is left out: a number, a text or None,
    and False where it takes no value; a word of its own has what argparse is told of it. `program` is the one that `./datacube` would
    run where none is named. Where it has others, `others` are those that no option takes; `error` ends the script."""
    parser = argparse.ArgumentParser(description=about, formatter_class=argparse.RawDescriptionHelpFormatter)
    for name, it in options.items():
        if isinstance(it, dict):
            parser.add_argument(name, **it)
        else:
            how = {"action": "store_true"} if it is False else {"default": it, "type": str if it is None else type(it)}
            parser.add_argument(f"-{name}" if len(name) == 1 else f"--{name}", **how)
    given, others = parser.parse_known_args(words)
    if others and not has_others:
        parser.error(f"unrecognized arguments: {' '.join(others)}")
    given.others, given.error = others, parser.error
    if "program" in options:
        given.program = os.path.abspath(given.program or datacube())
    return given


class Tally:
    """What passed and what failed."""

    def __init__(self):
        self.passed = self.failed = 0

    def count(self, is_right):
        """Counts one thing that was looked at."""
        self.passed, self.failed = self.passed + bool(is_right), self.failed + (not is_right)

    def note(self, is_right, what):
        """Counts it, and says what it is."""
        self.count(is_right)
        print(f"{'ok     ' if is_right else 'FAILED '} {what}", flush=True)

    def end(self):
        """Says how many passed and failed, in the last line; gives the status."""
        print(f"{self.passed} passed, {self.failed} failed")
        return 1 if self.failed or not self.passed else 0


class Room:
    """A folder in which a program is run on files."""

    def __init__(self, program, folder):
        self.program, self.folder = program, folder

    def write(self, name, data):
        """Writes a file, and gives its name."""
        write(self.path(name), data)
        return name

    def path(self, name):
        return f"{self.folder}/{name}"

    def piped(self, name, pieces, pause=0):
        """A pipe in the place of a file, into which a thread puts pieces, with a pause between them, while somebody reads; gives its name."""
        os.mkfifo(self.path(name))

        def put():
            with contextlib.suppress(BrokenPipeError), open(self.path(name), "wb", buffering=0) as pipe:
                for at, it in enumerate(pieces):
                    time.sleep(pause if at else 0)
                    pipe.write(it)

        threading.Thread(target=put, daemon=True).start()
        return name

    def run(self, words, given=b"", seconds=SECONDS):
        """The status of the program, its output and its standard error."""
        ran = subprocess.run([self.program, *words], cwd=self.folder, input=given, capture_output=True, timeout=seconds)
        return ran.returncode, ran.stdout, ran.stderr
