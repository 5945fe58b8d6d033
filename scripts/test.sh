#!/bin/sh
# The tests: first what takes seconds and needs no kit (the cases, the documents, a wrong program that has to be noticed,
# hostile use), then every proof that no earlier run on this machine did. It needs python3. See gate.py beside this file.
#
#   scripts/test.sh            everything; the gate
#   scripts/test.sh --quick    stops before the proofs
#   scripts/test.sh --anew     everything, and nothing is taken from earlier runs
exec python3 "$(dirname -- "$(readlink -f -- "$0")")/gate.py" "$@"
