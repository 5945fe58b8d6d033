#!/bin/sh
# Prints the path of the program to run, or says on standard error why there is none, with status 1.
#
#   scripts/program.sh          one that was built here from these very sources, else the released one, if it is of
#                               these sources and can run here
#   scripts/program.sh --any    the same, else the released one though it is of other sources, which is then said
set -eu
root=$(dirname -- "$(dirname -- "$(readlink -f -- "$0")")")
. "$root/scripts/programs.sh"
if ! find_program "$root"; then
    echo "$why" >&2
    if [ "${1-}" != --any ] || [ -z "$program" ]; then
        exit 1
    fi
fi
echo "$program"
