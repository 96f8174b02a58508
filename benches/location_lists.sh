#!/usr/bin/env bash
# Seconds and peak memory of `dwarf_build build` over one unit with so many location lists, each of one
# range with one operation, from the script to the listing: 50,000, 100,000 and 200,000, if not said
# otherwise.
#
#     benches/location_lists.sh [LISTS ..]
set -eu
[ $# -gt 0 ] || set -- 50000 100000 200000
cd "$(dirname "$0")/../crates/dwarf_build"
# Proves and builds the program, which stays in out/.
rt run -- build < stdin > out/first_listing
script=$(mktemp)
trap 'rm -f "$script"' EXIT
for lists; do
  awk -v lists="$lists" 'BEGIN {
    print "unit 5 8 32"
    for (i = 0; i < lists; i++) printf "loc 0 len %d 16 [ fbreg -%d ]\n", 4096 + 16 * i, i
  }' > "$script"
  /usr/bin/time -f "$lists lists: %e s, %M KB" out/dwarf_build build < "$script" > out/listing
done
