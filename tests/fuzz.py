#!/usr/bin/env python3
"""Runs all generated tests with new seeds, one file after another, until the time is over.

    tests/fuzz.py --minutes N [--program PATH] [--times N] [--seed N] [--to FOLDER]

The smallest case of what fails is written to FOLDER, the one for temporary files where it is left out, as a file in the form of
cases/*.case. A test that failed is left out from then on. The last line says how many cases passed, and how many tests failed.
"""
import glob
import os
import random
import re
import shutil
import subprocess
import sys
import tempfile
import time

HERE = os.path.dirname(os.path.realpath(__file__))
sys.path.insert(0, f"{HERE}/../scripts")
sys.dont_write_bytecode = True
import programs  # noqa: E402

COUNTS = re.compile(r"^(\d+) passed, (\d+) failed$", re.MULTILINE)


def with_generated_tests():
    """The files that have generated tests."""
    for path in sorted(glob.glob(f"{HERE}/test_*.py")):
        if "@tries(" in programs.text_at(path):
            yield path


def run(words, seed, room, failed):
    """Runs the generated tests of a file, but for those that failed, with a seed; gives how many cases passed, and what it said
    where one failed."""
    call = [*programs.pytest(words.program, words.file, "-m", "generated"), "--times", str(words.times)]
    call += ["--hypothesis-seed", str(seed), "--found", room, *(f"--deselect={it}" for it in failed)]
    ran = subprocess.run(call, cwd=programs.ROOT, stdout=subprocess.PIPE, stderr=subprocess.STDOUT, text=True, errors="replace")
    found = COUNTS.search(ran.stdout)
    return int(found[1]) if found else 0, ran.stdout if ran.returncode not in (0, 5, 77) else None


def kept(room, to, seed):
    """Moves the cases that were found to where they are kept, and says so; gives the tests that found them."""
    tests = []
    for path in glob.glob(f"{room}/*.case"):
        name = os.path.basename(path).partition(".")[0]
        place = shutil.move(path, f"{to}/{name}-{seed}.case")
        print(f"FAILED {name}, seed {seed}; the smallest case is {place}:\n{programs.text_at(place)}", flush=True)
        tests.append(name)
    return tests


def main():
    words = programs.words_of(__doc__, program=None, times=1.0, seed=random.randrange(2**32), to=tempfile.gettempdir(),
                              **{"--minutes": {"type": float, "required": True}})
    end, seed, passed, failed = time.monotonic() + 60 * words.minutes, words.seed, 0, []
    print(f"the first seed is {seed}", flush=True)
    while time.monotonic() < end:
        for words.file in with_generated_tests():
            if time.monotonic() > end:
                break
            with tempfile.TemporaryDirectory(prefix="fuzz-") as room:
                count, said = run(words, seed, room, failed)
                found = [f"{os.path.relpath(words.file, programs.ROOT)}::{it}" for it in kept(room, words.to, seed)]
            if said and not found:
                print(f"FAILED {words.file}, seed {seed}:\n{said}", flush=True)
                found = [os.path.relpath(words.file, programs.ROOT)]
            passed, failed = passed + count, failed + found
        print(f"seeds until {seed}: {passed} cases passed", flush=True)
        seed += 1
    print(f"{passed} passed, {len(failed)} failed")
    return 1 if failed else 0


if __name__ == "__main__":
    sys.exit(main())
