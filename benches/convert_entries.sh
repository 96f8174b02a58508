#!/usr/bin/env bash
# Seconds and peak memory of `dwarf_build convert` over the listing of one unit of mixed entries
# (mixed_script.sh): the sections are read, converted, written and listed again.
#
#     benches/convert_entries.sh [ENTRIES]
set -eu
entries=${1:-100000}
cd "$(dirname "$0")/../crates/dwarf_build"
# Proves and builds the program, which stays in out/.
rt run -- build < stdin > out/first_listing
script=$(mktemp)
listing=$(mktemp)
trap 'rm -f "$script" "$listing"' EXIT
../../benches/mixed_script.sh "$entries" > "$script"
out/dwarf_build build < "$script" > "$listing"
for _ in 1 2 3 4 5; do
  /usr/bin/time -f "$entries entries, $(wc -c < "$listing") bytes: %e s, %U s in the program, %M KB" \
    out/dwarf_build convert < "$listing" > out/converted
done
cmp "$listing" out/converted && echo "the listing is the same"
