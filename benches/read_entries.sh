#!/usr/bin/env bash
# Seconds and peak memory of `example_read` over the listing of one unit of mixed entries
# (mixed_script.sh): the listing's hex, all units with all rows, and their text.
#
#     benches/read_entries.sh [ENTRIES]
set -eu
entries=${1:-100000}
cd "$(dirname "$0")/../crates"
# Proves and builds both programs, which stay in out/.
(cd dwarf_build && rt run -- build < stdin > /dev/null)
(cd example_read && rt run < stdin > /dev/null)
listing=$(mktemp)
trap 'rm -f "$listing"' EXIT
../benches/mixed_script.sh "$entries" | dwarf_build/out/dwarf_build build > "$listing"
/usr/bin/time -f "$entries entries: %e s, %M KB" example_read/out/example_read < "$listing" > /dev/null
