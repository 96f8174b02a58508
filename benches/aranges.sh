#!/usr/bin/env bash
# Seconds and peak memory of `dw_aranges` over the listing of units of version 5 with ten ranges
# each: `table` makes the whole section and prints it, `find` tells the unit of the last range.
# Then the section is put into an object beside the units, where readelf and llvm-dwarfdump, if
# they are there, have to show each range once and to warn of nothing.
#
#     benches/aranges.sh [UNITS]
set -eu
units=${1:-10000}
cd "$(dirname "$0")/../crates"
# Proves and builds the program, which stays in out/.
(cd dw_aranges && rt run -- table < stdin > /dev/null)
program=$PWD/dw_aranges/out/dw_aranges
work=$(mktemp -d)
trap 'rm -rf "$work"' EXIT
cd "$work"

# A unit is its header, the code of its root and the place of its list. The lists stand behind one
# header of 12 bytes, each with ten items `start_length` of 10 bytes and its end.
awk -v units="$units" '
    function little(n, size,  text) {
        for (text = ""; size > 0; size--) { text = text sprintf("%02x", n % 256); n = int(n / 256) }
        return text
    }
    BEGIN {
        print ".debug_abbrev 8 0111005517000000"
        printf ".debug_rnglists %d %s05000800%s", 12 + units * 101, little(8 + units * 101, 4), "00000000"
        for (u = 0; u < units; u++) {
            for (r = 0; r < 10; r++) printf "07%s10", little(4096 + (u * 10 + r) * 32, 8)
            printf "00"
        }
        printf "\n.debug_info %d ", units * 17
        for (u = 0; u < units; u++) printf "0d00000005000108%s01%s", "00000000", little(12 + u * 101, 4)
        print ""
    }' > listing

last=$((4096 + (units * 10 - 1) * 32))
/usr/bin/time -f "table of $units units: %e s, %M KB" "$program" table < listing > table
/usr/bin/time -f "find among $units units: %e s, %M KB" "$program" find "$last" < listing > found
[ "$(cat found)" = "$(((units - 1) * 17))" ] || echo "another unit was found: $(cat found)"

section() {
    awk -v name="$1" '$1 == name { print $3 }' "$2" | xxd -r -p > "bytes$1"
    objcopy --add-section "$1=bytes$1" object
}
echo '' | cc -c -x c -o object -
for name in .debug_abbrev .debug_rnglists .debug_info; do section "$name" listing; done
section .debug_aranges table
if command -v readelf > /dev/null; then
    readelf --debug-dump=aranges object 2> warnings |
        awk 'NF == 2 && $2 ~ /^0+10$/ { n++ } END { print "readelf shows " n + 0 " ranges" }'
    cat warnings
fi
if command -v llvm-dwarfdump > /dev/null; then
    llvm-dwarfdump --debug-aranges object 2> warnings |
        awk '/^\[0x/ { n++ } END { print "llvm-dwarfdump shows " n + 0 " ranges" }'
    cat warnings
fi
