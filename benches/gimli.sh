#!/usr/bin/env bash
# What `dwarf_build` takes beside gimli 0.27, and beside no more than moving as many bytes: seconds
# (the least of so many rounds, in each of which all run one after the other), peak memory and,
# where valgrind is there, instructions. The tasks are `make`, `build` of mixed_script.sh and
# large_script.sh, and `convert` of what these two build. What gimli does is in gimli/. Which
# sections it spells otherwise is told under the table.
#
# It needs cargo, time, and gimli 0.27 with its write half as Debian 12 has it:
#
#     apt-get install cargo time librust-gimli-dev librust-indexmap-dev valgrind
#
#     benches/gimli.sh [ROUNDS [PROGRAM]]
set -eu
rounds=${1:-5}
registry=/usr/share/cargo/registry
benches=$(cd "$(dirname "$0")" && pwd)
missing() {
    echo "gimli.sh: $1 is missing; apt-get install $2" >&2
    exit 1
}
command -v cargo > /dev/null || missing cargo cargo
[ -x /usr/bin/time ] || missing /usr/bin/time time
compgen -G "$registry/gimli-0.27.*/src/write" > /dev/null || missing "gimli 0.27" librust-gimli-dev
compgen -G "$registry/indexmap-1.*" > /dev/null || missing "indexmap 1" librust-indexmap-dev
valgrind=$(command -v valgrind || true)

if [ $# -gt 1 ]; then
    program=$(realpath "$2")
else
    # Proves and builds the program, which stays in out/.
    (cd "$benches/../crates/dwarf_build" && rt run -- build < stdin > /dev/null)
    program=$benches/../crates/dwarf_build/out/dwarf_build
fi
work=$(mktemp -d)
trap 'rm -rf "$work"' EXIT
cd "$work"
cp -r "$benches/gimli" baseline
(cd baseline && CARGO_HOME=$work/cargo cargo build --release --offline --quiet \
    --config 'source.crates-io.replace-with="debian"' \
    --config "source.debian.directory=\"$registry\"" --target-dir "$work/target")
gimli=$work/target/release/gimli_bench

for name in mixed large; do
    "$benches/${name}_script.sh" > "$name.script"
    "$program" build < "$name.script" > "$name.listing"
done

seconds() { # PROGRAM INPUT WORDS ..
    local program=$1 input=$2 begin=$EPOCHREALTIME
    shift 2
    "$program" "$@" < "$input" > printed
    awk -v begin="$begin" -v end="$EPOCHREALTIME" 'BEGIN { printf "%.3f\n", end - begin }'
}

row() { # WHO PROGRAM INPUT WORDS ..
    local who=$1 program=$2 input=$3 instructions=-
    shift 3
    local least=$(sort -n "seconds.$who" | head -n 1)
    local memory=$(/usr/bin/time -f %M "$program" "$@" < "$input" 2>&1 > printed | tail -n 1)
    if [ -n "$valgrind" ]; then
        instructions=$(valgrind --tool=callgrind --callgrind-out-file=/dev/null \
            "$program" "$@" < "$input" 2>&1 > printed | awk '/Collected/ { print $NF }')
    fi
    echo "$who $least $memory $instructions"
}

task() { # TITLE INPUT MADE PRINTED WORDS ..
    local title=$1 input=$2 made=$3 printed=$4
    shift 4
    "$program" "$@" < "$input" > ours
    "$gimli" "$@" < "$input" > theirs
    rm -f seconds.*
    for _ in $(seq "$rounds"); do
        seconds "$program" "$input" "$@" >> seconds.ours
        seconds "$gimli" "$input" "$@" >> seconds.gimli
        seconds "$gimli" "$input" floor "$made" "$printed" >> seconds.floor
    done
    {
        row ours "$program" "$input" "$@"
        row gimli "$gimli" "$input" "$@"
        row floor "$gimli" "$input" floor "$made" "$printed"
    } > rows
    awk -v title="$title" '
        function part(column) {
            if (now["gimli", column] + 0 == 0) return "-"
            return sprintf("%.2f", now["ours", column] / now["gimli", column])
        }
        {
            for (i = 2; i <= 4; i++) now[$1, i] = $i
            printf "%-22s %-6s %7s s %8.1f MB %14s\n", title, $1, $2, $3 / 1024, $4
        }
        END { printf "%-22s %-6s %7s   %8s    %14s\n", title, "ratio", part(2), part(3), part(4) }' rows
    awk -v title="$title" '
        FNR == NR { theirs[$1] = $0; next }
        theirs[$1] != $0 { other = other " " $1 }
        END { print title ": gimli " (other == "" ? "prints the same" : "spells otherwise:" other) }' \
        theirs ours >> agreement
}

bytes_made() { awk 'NR > 1 { n += $2 } END { print n }' "$1"; }
size() { stat -c %s "$1"; }

echo "$(nproc) processors, load $(cut -d ' ' -f 1 /proc/loadavg), the least of $rounds rounds"
made=$("$program" make 1000000 | awk '{ print $6 + $8 }')
task "make 1000000" /dev/null "$made" 0 make 1000000
for name in mixed large; do
    made=$(bytes_made "$name.listing")
    listed=$(size "$name.listing")
    task "build $name" "$name.script" "$made" "$listed" build
    task "convert $name" "$name.listing" "$made" "$listed" convert
done
cat agreement
