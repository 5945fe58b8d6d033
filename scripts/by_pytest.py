#!/usr/bin/env python3
"""Runs tests of tests/ as a command: the last line is `N passed, M failed`, in which each assertion and each generated case counts.

    scripts/by_pytest.py NAME [--program PATH] [--only WORDS] [--short] [--cases N] [-v] [...]

runs the files tests/test_NAME*.py. `--only` takes words, each of which has to stand in a test's name; `--short` is for what has a short
form; `--cases` says how many generated cases are tried, where 100 are; other words are pytest's, or options of conftest.py. Where there
is no pytest, the status is 77.
"""
import glob
import subprocess
import sys

sys.dont_write_bytecode = True
import programs


def main(words):
    given = programs.words_of(__doc__, words, has_others=True, name={}, program=None, only="", short=False, cases=100.0, v=False)
    files = sorted(glob.glob(f"{programs.ROOT}/tests/test_{given.name}*.py"))
    more = [*given.others, *([] if given.short else ["--long"])]
    more += ["-k", " and ".join(given.only.split())] if given.only else []
    more += ["-vv"] if given.v else []
    more += ["-o", "enable_assertion_pass_hook=true", "--times", str(given.cases / 100)]
    command = programs.pytest(given.program, *files, *more)
    if not command:
        print("Debian's package python3-pytest isn't installed\n0 passed, 0 failed")
        return programs.LEFT_OUT
    return subprocess.run(command, cwd=programs.ROOT).returncode


if __name__ == "__main__":
    sys.exit(main(sys.argv[1:]))
