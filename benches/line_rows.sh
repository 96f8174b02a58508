#!/usr/bin/env bash
# Seconds and peak memory of `dwarf_build build` over one line program of many rows, each a line and
# a byte further on, from the script to the listing. A script may have some 600,000 such rows.
#
#     benches/line_rows.sh [ROWS]
set -eu
rows=${1:-500000}
cd "$(dirname "$0")/../crates/dwarf_build"
# Proves and builds the program, which stays in out/.
rt run -- build < stdin > out/first_listing
script=$(mktemp)
trap 'rm -f "$script"' EXIT
awk -v rows="$rows" 'BEGIN {
  print "unit 5 8 32\nline 0 text 2f\nfile 0 text 612e63 0\nsequence 0 0x1000"
  for (i = 1; i <= rows; i++) print "row 0 " i " 0 " (i + 1) " 0"
  print "end 0 " rows
}' > "$script"
/usr/bin/time -f "$rows rows: %e s, %M KB" out/dwarf_build build < "$script" > out/listing
