#!/usr/bin/env bash
# Seconds and peak memory of conversions of one unit of mixed entries (mixed_script.sh): of all of
# them, and of those that a filter keeps which requires one in so many. Where valgrind is there,
# the instructions of each, less those of reading the listing. Then the same of entries each the
# only child of the one before, of entries that all name one, and of entries that name each other
# in a ring, all of which are kept.
#
#     benches/filter_entries.sh [ENTRIES] [EVERY]
set -eu
entries=${1:-100000}
every=${2:-10}
cd "$(dirname "$0")/.."
work=$(mktemp -d)
trap 'rm -rf "$work"' EXIT
# Proves and builds the program among copies of the crates.
cp -a crates crates.txt HANDLES "$work"
mkdir -p "$work/crates/filter_entries/src"
cp benches/filter_entries/program.txt "$work/crates/filter_entries/src/main.rt"
echo "filter_entries: dw_base dw_read dw_read_units dw_ends dw_filter dw_dwarf anyhow" >> "$work/crates.txt"
(cd "$work/crates/dwarf_build" && rt run -- build < stdin > /dev/null)
(cd "$work/crates/filter_entries" && rt run -- read < ../dw_aranges/stdin > /dev/null)
program=$work/crates/filter_entries/out/filter_entries
benches/mixed_script.sh "$entries" | "$work/crates/dwarf_build/out/dwarf_build" build > "$work/mixed"

# A unit of version 5 whose root is the abbreviation 1, from the bytes behind its header in hex.
listing() {
    awk -v abbrev="$1" '
        { text = text $0 }
        END {
            n = length(text) / 2 + 8
            size = sprintf("%02x%02x%02x00", n % 256, n / 256 % 256, n / 65536)
            print "order little\n.debug_abbrev " length(abbrev) / 2 " " abbrev
            print ".debug_info " n + 4 " " size "0500010800000000" text
        }'
}
place() { printf 'function place(n) { return sprintf("%%02x%%02x%%02x00", n %% 256, n / 256 %% 256, n / 65536) }'; }
awk -v n="$entries" 'BEGIN {
        printf "01"
        for (i = 1; i < n; i++) printf "02"
        printf "03"
        for (i = 1; i <= n; i++) printf "00"
    }' | listing 01110100000234010000033400000000 > "$work/chain"
awk -v n="$entries" "$(place)"'BEGIN {
        printf "01"
        for (i = 0; i < n; i++) printf "02" place(13)
        printf "00"
    }' | listing 0111010000023400491300000000 > "$work/star"
awk -v n="$entries" "$(place)"'BEGIN {
        printf "01"
        for (i = 0; i < n; i++) printf "02" place(13 + 5 * ((i + 1) % n))
        printf "00"
    }' | listing 0111010000023400491300000000 > "$work/ring"

instructions() {
    valgrind --tool=cachegrind --cache-sim=no --cachegrind-out-file=/dev/null "$program" $1 < "$2" 2>&1 |
        awk '/I +refs/ { gsub(",", "", $NF); print $NF }'
}
for name in mixed chain star ring; do
    /usr/bin/time -f "$name, all: %e s, %M KB" "$program" < "$work/$name"
    /usr/bin/time -f "$name, one in $every required: %e s, %M KB" "$program" "$every" < "$work/$name"
    if command -v valgrind > /dev/null; then
        read=$(instructions read "$work/$name")
        echo "$name: $(($(instructions "" "$work/$name") - read)) instructions for all," \
            "$(($(instructions "$every" "$work/$name") - read)) with the filter"
    fi
done
