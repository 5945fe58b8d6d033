#!/bin/sh
# Makes the program that was built here from these very sources (by scripts/build.sh or scripts/test.sh) the released one.
set -eu
root=$(dirname -- "$(dirname -- "$(readlink -f -- "$0")")")
. "$root/scripts/programs.sh"
out=$root/crates/datacube/out
if [ "$(recorded "$out" sources)" != "$(sources_of "$root")" ] || ! is_whole "$out"; then
    echo "release: no program was built here from these sources: run scripts/build.sh first" >&2
    exit 1
fi
release=$root/release/x86_64-linux
mkdir -p "$release"
cp "$out/datacube" "$release/datacube.new"
chmod 755 "$release/datacube.new"
mv "$release/datacube.new" "$release/datacube"
cp "$out/datacube.txt" "$release/datacube.txt"
cat "$release/datacube.txt"
