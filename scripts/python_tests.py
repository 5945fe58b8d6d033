#!/usr/bin/env python3
"""Runs the tests of the Python package, and says what it left out and why.

    scripts/python_tests.py [--program PATH] [--long] [-k WORDS] [...]

pytest runs them, under Debian's Python or the one that runs this, whichever has it, shared among processes where
`python3-pytest-xdist` is installed; it takes its own options too. Where there is no pytest, unittest does. `--long` is the long
form of the tests that take minutes. The last line is `N passed, M failed`.
"""
import ast
import os
import re
import subprocess
import sys

sys.dont_write_bytecode = True
import programs

# (the reason that unittest gives for what it leaves out, as Python writes a text)
LEFT_OUT = re.compile(r"\.\.\. skipped ('.*'|\".*\")$", re.MULTILINE)


def unittests():
    """Runs the tests by unittest; gives the numbers that passed and failed."""
    words = ["-B", "-m", "unittest", "discover", "-v", "-s", "python/tests"]
    ran = subprocess.run([sys.executable, *words], cwd=programs.ROOT, stdout=subprocess.PIPE, stderr=subprocess.STDOUT, text=True, errors="replace")
    if ran.returncode:
        print(ran.stdout)
    for it in dict.fromkeys(LEFT_OUT.findall(ran.stdout)):
        print(f"left out: {ast.literal_eval(it)}")
    found = re.search(r"^Ran (\d+) tests?", ran.stdout, re.MULTILINE)
    bad = sum(map(int, re.findall(r"(?:failures|errors)=(\d+)", ran.stdout)))
    skipped = sum(map(int, re.findall(r"skipped=(\d+)", ran.stdout)))
    count = int(found[1]) if found else 0
    return count - bad - skipped, bad or int(ran.returncode != 0)


def main():
    given = programs.words_of(__doc__, has_others=True, program=None, long=False)
    command = programs.python_package(given.program, *(["--long"] if given.long else []), *given.others)
    if command:
        return subprocess.run(command, cwd=programs.ROOT).returncode
    os.environ.update({"DATACUBE": given.program, **({"DATACUBE_LONG": "1"} if given.long else {})})
    passed, failed = unittests()
    print(f"{passed} passed, {failed} failed")
    return 1 if failed else 0


if __name__ == "__main__":
    sys.exit(main())
