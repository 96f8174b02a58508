#!/usr/bin/env bash
# Seconds and peak memory of `dwarf_build build` over one entry with one expression of so many
# operations, half of them branches, from the script to the listing: 50,000, 100,000 and 200,000, if
# not said otherwise.
#
#     benches/expressions.sh [OPERATIONS ..]
set -eu
[ $# -gt 0 ] || set -- 50000 100000 200000
cd "$(dirname "$0")/../crates/dwarf_build"
# Proves and builds the program, which stays in out/.
rt run -- build < stdin > out/first_listing
script=$(mktemp)
trap 'rm -f "$script"' EXIT
for operations; do
  awk -v operations="$operations" 'BEGIN {
    print "unit 5 8 32"
    printf "set 0 0 DW_AT_location exprloc ["
    for (i = 0; i < operations; i += 2) printf " op DW_OP_nop skip %d", i + 2
    print " ]"
  }' > "$script"
  /usr/bin/time -f "$operations operations: %e s, %M KB" out/dwarf_build build < "$script" > out/listing
done
