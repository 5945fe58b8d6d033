#!/usr/bin/env python3
"""Runs the calls of the library in the folder cases/library/, and generated ones, and says `N passed, M failed`.

    scripts/library_cases.py [-v] [--program PATH] [--first] [NAME...]

The program is crates/cube_calls, as it is built here or as it stands at PATH; the lines on its standard input are the calls, and its word
the file of the schema. Both are tests of tests/test_library.py. Where there is no pytest, the cases are run without the generated calls.
"""
import os
import subprocess
import sys

sys.dont_write_bytecode = True
import cases
import programs


def main():
    driver = f"{programs.ROOT}/crates/cube_calls/out/cube_calls"
    given = programs.words_of(__doc__, v=False, program=driver, first=False, name={"nargs": "*"})
    if not os.access(given.program, os.X_OK):
        sys.exit("no program is there to run: rt run in crates/cube_calls builds it")
    words = ["--library", given.program, *(["-vv"] if given.v else []), *(["-x"] if given.first else [])]
    words += ["-k", " or ".join(f"({' and '.join(it.split())})" for it in given.name)] if given.name else []
    command = programs.pytest(given.program, "tests/test_library.py", *words, shares=len(os.sched_getaffinity(0)))
    if not command:
        return cases.try_named(cases.all_cases("cases/library"), given)
    return subprocess.run(command, cwd=programs.ROOT).returncode


if __name__ == "__main__":
    sys.exit(main())
