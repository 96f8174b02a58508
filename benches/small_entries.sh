#!/usr/bin/env bash
# Seconds and peak memory of `dwarf_build build` over one unit of many small entries, all below the
# root, from the script to the listing.
#
#     benches/small_entries.sh [ENTRIES]
set -eu
entries=${1:-1000000}
cd "$(dirname "$0")/../crates/dwarf_build"
# Proves and builds the program, which stays in out/.
rt run -- build < stdin > out/first_listing
script=$(mktemp)
trap 'rm -f "$script"' EXIT
awk -v entries="$entries" 'BEGIN { print "unit 5 8 32"; for (i = 0; i < entries; i++) print "add 0 0 52" }' > "$script"
/usr/bin/time -f "$entries entries: %e s, %M KB" out/dwarf_build build < "$script" > out/listing
