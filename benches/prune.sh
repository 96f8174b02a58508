#!/usr/bin/env bash
# Seconds and peak memory of `dw_prune` over the listing of a unit of mixed entries
# (mixed_script.sh), a third of which are functions of 16 bytes, behind a thousand live ranges of
# one function each; and of `dwarf_build convert` over the same listing. Where valgrind is there,
# the instructions of both. What is pruned, pruned again and so once more, is to stay as it is.
#
#     benches/prune.sh [ENTRIES]
#
# DWARF_BUILD and DW_PRUNE name the programs, if they are not to be proved and built first.
set -eu
entries=${1:-100000}
cd "$(dirname "$0")/../crates"
if [ -z "${DWARF_BUILD:-}" ]; then
    (cd dwarf_build && rt run -- build < stdin > /dev/null)
    DWARF_BUILD=$PWD/dwarf_build/out/dwarf_build
fi
if [ -z "${DW_PRUNE:-}" ]; then
    (cd dw_prune && rt run < stdin > /dev/null)
    DW_PRUNE=$PWD/dw_prune/out/dw_prune
fi
work=$(mktemp -d)
trap 'rm -rf "$work"' EXIT

# A function has its first address and its length in the place of a size and a line.
../benches/mixed_script.sh "$entries" | awk '
    $1 == "set" && $3 % 3 == 1 && $4 == "DW_AT_byte_size" {
        print $1, $2, $3, "DW_AT_low_pc address", 4198400 + $3 * 16; next }
    $1 == "set" && $3 % 3 == 1 && $4 == "DW_AT_decl_line" {
        print $1, $2, $3, "DW_AT_high_pc data4 16"; next }
    { print }' | "$DWARF_BUILD" build > "$work/listing"
awk -v entries="$entries" 'BEGIN {
    step = int(entries / 3000)
    for (r = 0; r < 1000; r++) {
        begin = 4198400 + (3 * r * step + 1) * 16
        print "live", begin, begin + 16
    }
}' > "$work/live"
cat "$work/live" "$work/listing" > "$work/input"
/usr/bin/time -f "convert of $entries entries: %e s, %M KB" "$DWARF_BUILD" convert \
    < "$work/listing" > "$work/converted"
/usr/bin/time -f "prune of $entries entries: %e s, %M KB" "$DW_PRUNE" < "$work/input" > "$work/pruned"
awk '$1 == ".debug_info" { print $2, "bytes of .debug_info" }' "$work/listing" "$work/pruned"
if command -v valgrind > /dev/null; then
    for run in "convert $DWARF_BUILD convert" "prune $DW_PRUNE"; do
        set -- $run
        name=$1
        shift
        input=$work/input
        [ "$name" = prune ] || input=$work/listing
        valgrind --tool=callgrind --callgrind-out-file="$work/calls" "$@" < "$input" \
            2> "$work/said" > /dev/null
        sed -n "s/.*Collected : /$name, instructions: /p" "$work/said"
    done
fi
cat "$work/live" "$work/pruned" | "$DW_PRUNE" > "$work/again"
cat "$work/live" "$work/again" | "$DW_PRUNE" | cmp - "$work/again" && echo "pruned again it stays"
