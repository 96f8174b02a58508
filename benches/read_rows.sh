#!/usr/bin/env bash
# Seconds and peak memory of reading all rows of one unit of mixed entries (mixed_script.sh) into one
# entry, with the value of each attribute: `example_read` prints the entries, and then reads the rows
# so many times. What the two runs differ by is reading alone.
#
#     benches/read_rows.sh [ENTRIES] [TIMES]
set -eu
entries=${1:-100000}
times=${2:-10}
cd "$(dirname "$0")/../crates"
# Proves and builds both programs, which stay in out/.
(cd dwarf_build && rt run -- build < stdin > /dev/null)
(cd example_read && rt run -- 1 < stdin > /dev/null)
listing=$(mktemp)
trap 'rm -f "$listing"' EXIT
../benches/mixed_script.sh "$entries" | dwarf_build/out/dwarf_build build > "$listing"
/usr/bin/time -f "$entries entries printed: %e s, %M KB" \
    example_read/out/example_read 1 < "$listing" > /dev/null
/usr/bin/time -f "$entries entries printed, and read $times times: %e s, %M KB" \
    example_read/out/example_read $((times + 1)) < "$listing" | tail -n 1
