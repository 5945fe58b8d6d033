#!/bin/sh
# Tries the page explorer/index.html in headless Chromium, and in Firefox where it is installed: tests/test_explorer*.py.
#
#   scripts/explorer.sh [-v] [--only WORDS] [--rows N] [--screenshots] [...]
#
# It opens the shop's cube, cubes with texts and numbers of every kind, files that are no printed cube, and the cube of a generated
# feed, with N lines or more (1,000,000). `--screenshots` takes the pictures of docs/explorer/ anew. Needs Debian's chromium-driver,
# python3-selenium and python3-pytest; where one isn't there, or the browser doesn't start, the status is 77. See by_pytest.py.
exec "$(dirname -- "$(readlink -f -- "$0")")/by_pytest.py" explorer "$@"
