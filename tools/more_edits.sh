#!/bin/sh
# more_edits.sh [CRATE ..]: tries the edits below tools/edits, of these crates or of all, which the
# prover has to refuse as it does those of must-fail/. They stand outside the gate, where the first
# edit of a crate costs most of a second proof. Works on a copy of the repository, and ends with the
# status of `rt must-fail`.
set -eu
top=$(cd "$(dirname "$0")/.." && pwd)
copy=$(mktemp -d)
trap 'rm -rf "$copy"' EXIT
[ $# -gt 0 ] || set -- $(ls "$top/tools/edits")
cp -R "$top/crates.txt" "$top/HANDLES" "$copy"
mkdir "$copy/crates"
for crate in $(ls "$top/crates"); do
    mkdir "$copy/crates/$crate"
    for part in "$top/crates/$crate"/*; do
        [ "$(basename "$part")" = out ] || cp -R "$part" "$copy/crates/$crate"
    done
done
for crate in "$@"; do
    mkdir -p "$copy/crates/$crate/must-fail"
    cp "$top/tools/edits/$crate"/*.edit "$copy/crates/$crate/must-fail"
    (cd "$copy/crates/$crate" && rt check)
done
cd "$copy" && rt must-fail "$@"
