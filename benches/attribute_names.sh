#!/bin/sh
# attribute_names.sh [PROGRAM]: converts listings of one entry with 12,500, 25,000 and 50,000
# attributes, each under a name of its own, and prints the seconds that each takes.
set -eu
program=${1:-crates/dwarf_build/out/dwarf_build}
work=$(mktemp -d)
trap 'rm -rf "$work"' EXIT
for count in 12500 25000 50000; do
    # Version 5, addresses of 8 bytes, the table at 0; attributes from 0x3000 on, of one byte each.
    awk -v count="$count" '
        function uleb(n) {
            while (n >= 128) { printf "%02x", n % 128 + 128; n = int(n / 128) }
            printf "%02x", n
        }
        function sum(n,   k) { for (k = 1; n >= 128; k++) n = int(n / 128); return k }
        BEGIN {
            size = 1 + 1 + 1 + 3
            for (i = 0; i < count; i++) size += sum(12288 + i) + 1
            printf ".debug_abbrev %d 011100", size
            for (i = 0; i < count; i++) { uleb(12288 + i); printf "0b" }
            printf "000000\n"
            length_ = 8 + 1 + count
            printf ".debug_info %d %02x%02x%02x%02x0500010800000000", length_ + 4, length_ % 256, int(length_ / 256) % 256, int(length_ / 65536) % 256, 0
            printf "01"
            for (i = 0; i < count; i++) printf "07"
            printf "\n"
        }' > "$work/listing"
    begin=$(date +%s.%N)
    "$program" convert < "$work/listing" > "$work/out"
    end=$(date +%s.%N)
    echo "$count attributes: $(echo "$begin $end" | awk '{ printf "%.3f", $2 - $1 }') s, $(wc -c < "$work/out") bytes"
done
