#!/bin/sh
# Tries the built program under hostile use: tests/test_hostile.py.
#
#   scripts/hostile.sh [--program PATH] [--short] [--only WORDS] [...]
#
# The program is the one given, else the one that `./datacube` would run. The short form takes 45 seconds or so. See by_pytest.py.
exec "$(dirname -- "$(readlink -f -- "$0")")/by_pytest.py" hostile -v "$@"
