#!/bin/sh
# Proves the program and what it stands on, builds it, and says whether its bytes are the released ones.
#
#   scripts/build.sh [--jobs N]    N checks side by side; as many as there are processors, and memory for, where left out
#
# The work is done on a copy of the sources, so nothing that lies in a crate's out/ is read, and an edit meanwhile does
# no harm. The program goes to crates/datacube/out, beside a record of the sources that it was built from. The status is
# 0 if it was built, and its bytes are not others than those of a release of the same sources.
set -eu
root=$(dirname -- "$(dirname -- "$(readlink -f -- "$0")")")
. "$root/scripts/programs.sh"
take_jobs "$@"
out=$root/crates/datacube/out
if ! mkdir -p "$out" || [ ! -w "$out" ]; then
    echo "build: there is no leave to write in $out"
    exit 1
fi
prove_copy "$root" datacube "build: not everything is proved, so nothing was built"
cp "$work/crates/datacube/out/datacube" "$out/datacube.new"
rm -f "$out/datacube.txt"
mv "$out/datacube.new" "$out/datacube"
record "$out" "$(sources_of "$work")"

release=$root/release/x86_64-linux
if cmp -s "$out/datacube" "$release/datacube"; then
    echo "build: these are the released bytes, $(recorded "$out" program)"
elif [ "$(recorded "$release" sources)" != "$(recorded "$out" sources)" ]; then
    echo "build: the released program is of other sources; built is $(recorded "$out" program)"
else
    echo "build: the released program is of the same sources, and its bytes are others"
    echo "build: released $(recorded "$release" program) by $(recorded "$release" kit)"
    echo "build: built    $(recorded "$out" program) by $(recorded "$out" kit)"
    exit 1
fi
