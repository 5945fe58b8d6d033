#!/bin/sh
# Tries the wrong bodies that the gate leaves out: see wrong_bodies.py beside this file.
exec python3 "$(dirname -- "$(readlink -f -- "$0")")/wrong_bodies.py" "$@"
