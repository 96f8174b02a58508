#!/usr/bin/env bash
# Seconds, peak memory and bytes of script a second of `dwarf_build build` over many units of mixed
# entries (mixed_script.sh), with references inside units and across them, from the script to the
# listing: 100,000 entries in 100 units, if not said otherwise.
#
#     benches/mixed_units.sh [ENTRIES [UNITS]]
set -eu
entries=${1:-100000}
units=${2:-100}
cd "$(dirname "$0")/../crates/dwarf_build"
# Proves and builds the program, which stays in out/.
rt run -- build < stdin > out/first_listing
script=$(mktemp)
measured=$(mktemp)
trap 'rm -f "$script" "$measured"' EXIT
../../benches/mixed_script.sh "$entries" "$units" > "$script"
/usr/bin/time -o "$measured" -f "%e %M" out/dwarf_build build < "$script" > out/listing
awk -v entries="$entries" -v units="$units" -v bytes="$(stat -c %s "$script")" '
  { printf "%d entries in %d units, a script of %d bytes: %s s, %s KB, %d bytes a second\n",
      entries, units, bytes, $1, $2, bytes / ($1 > 0 ? $1 : 0.01) }' "$measured"
