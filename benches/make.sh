#!/usr/bin/env bash
# Seconds and peak memory of `dwarf_build make` for so many variables, in units of a thousand, with
# references to the root of the first, from the words to the summary: 100,000 and 1,000,000, if not
# said otherwise.
#
#     benches/make.sh [VARIABLES ..]
set -eu
[ $# -gt 0 ] || set -- 100000 1000000
cd "$(dirname "$0")/../crates/dwarf_build"
# Proves and builds the program, which stays in out/.
rt run -- build < stdin > out/first_listing
for variables; do
  /usr/bin/time -f "$variables variables: %e s, %M KB" out/dwarf_build make "$variables"
done
