#!/usr/bin/env bash
# Seconds and peak memory of converting and writing files of so many units of 1,000 entries each:
# all units at once, and a unit at a time, each of which is given up once it is written. Both write
# the same bytes, whose sum is printed. Where valgrind is there, the instructions of each, less
# those of making the file.
#
#     benches/unit_at_a_time.sh [UNITS ..]
set -eu
[ $# -gt 0 ] || set -- 100 1000
cd "$(dirname "$0")/.."
work=$(mktemp -d)
trap 'rm -rf "$work"' EXIT
# Proves and builds the program among copies of the crates.
cp -a crates crates.txt HANDLES "$work"
mkdir -p "$work/crates/unit_at_a_time/src"
cp benches/unit_at_a_time/program.txt "$work/crates/unit_at_a_time/src/main.rt"
echo "unit_at_a_time: dw_base dw_writer dw_strings dw_line dw_entries dw_unit dw_read dw_read_units dw_dwarf anyhow" >> "$work/crates.txt"
(cd "$work/crates/unit_at_a_time" && rt run -- none 1 > /dev/null)
program=$work/crates/unit_at_a_time/out/unit_at_a_time

instructions() {
    valgrind --tool=cachegrind --cache-sim=no --cachegrind-out-file=/dev/null "$program" "$@" 2>&1 |
        awk '/I +refs/ { gsub(",", "", $NF); print $NF }'
}
for units; do
    for how in none whole each; do
        /usr/bin/time -f "$units units, $how: %e s, %M KB" "$program" "$how" "$units"
    done
    if command -v valgrind > /dev/null; then
        made=$(instructions none "$units")
        echo "$units units: $(($(instructions whole "$units") - made)) instructions for the whole," \
            "$(($(instructions each "$units") - made)) a unit at a time"
    fi
done
