#!/bin/sh
# Tries the page explorer/datacube.html, which counts a file of one's own, in headless Chromium: tests/test_own_page.py.
#
#   scripts/own_page.sh [-v] [--only WORDS] [--cases N] [--all-cases] [--large] [--screenshots] [...]
#
# Its module is asked for the cubes of the examples, of the cases that name files alone (some of them; all of them by `--all-cases`)
# and of N generated schemas, feeds and files (100). `--large` has the workloads of the measurements too, drops a file of a million
# lines, and says what they took; `--screenshots` takes the pictures of docs/explorer/ anew. Needs what explorer.sh does.
exec "$(dirname -- "$(readlink -f -- "$0")")/by_pytest.py" own_page "$@"
