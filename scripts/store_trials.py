#!/usr/bin/env python3
"""Tries what `live --store` promises on the built program: tests/test_store_trials.py.

    scripts/store_trials.py [--program PATH] [--short | --each] [--only WORDS] [--seed N] [...]

The program is the one given, else the one that `./datacube` would run. See by_pytest.py.
"""
import sys

sys.dont_write_bytecode = True
import by_pytest

if __name__ == "__main__":
    sys.exit(by_pytest.main(["store_trials", "-v", *sys.argv[1:]]))
