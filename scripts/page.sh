#!/bin/sh
# Makes the page for files of one's own, explorer/datacube.html, with modules of the proved crate `cube_page`.
#
#   scripts/page.sh [--jobs N]    N checks side by side; as many as there are processors, and memory for, where left out
#
# The crate and those below it are proved in a copy of the sources, as by scripts/build.sh; what an earlier run of the kit
# proved of the same files on this machine is taken from there. The same sources give the same page. It needs the kit (`rt`) and
# `wasm-opt` of Debian's package binaryen. The status is 0 if the page was made.
set -eu
root=$(dirname -- "$(dirname -- "$(readlink -f -- "$0")")")
. "$root/scripts/programs.sh"
take_jobs "$@"
if ! command -v wasm-opt >/dev/null; then
    echo "page: there is no wasm-opt, which Debian's package binaryen has"
    exit 1
fi
prove_copy "$root" cube_page "page: not everything is proved, so nothing was made"
page=$root/scripts/page.py
if ! "$page" ir "$work/crates" "$work/crates/cube_page" "$work/page.bc" >"$work/log" 2>&1; then
    tail -n 20 "$work/log"
    echo "page: the crate wasn't built"
    exit 1
fi
"$page" module "$work/page.bc" "$work/page64.wasm" "$work/page32.wasm"
"$page" page "$work/page64.wasm" "$work/page32.wasm"
"$page" check "$work/page64.wasm" "$work/page32.wasm"
