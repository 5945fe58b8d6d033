#!/bin/sh
# Tries cluster/datacube_dask.py on a cluster of processes of its own: see cluster.py beside this file. Debian's
# python3-distributed is of its own Python.
python=/usr/bin/python3
[ -x "$python" ] || python=python3
exec "$python" "$(dirname -- "$(readlink -f -- "$0")")/cluster.py" "$@"
