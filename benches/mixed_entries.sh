#!/usr/bin/env bash
# Seconds and peak memory of `dwarf_build build` over one unit of mixed entries (mixed_script.sh), from
# the script to the listing.
#
#     benches/mixed_entries.sh [ENTRIES]
set -eu
entries=${1:-100000}
cd "$(dirname "$0")/../crates/dwarf_build"
# Proves and builds the program, which stays in out/.
rt run -- build < stdin > out/first_listing
script=$(mktemp)
trap 'rm -f "$script"' EXIT
../../benches/mixed_script.sh "$entries" > "$script"
/usr/bin/time -f "$entries entries: %e s, %M KB" out/dwarf_build build < "$script" > out/listing
