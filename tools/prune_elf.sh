#!/bin/sh
# Leaves out of the debugging sections of a linked ELF file what describes code and data that the
# linker dropped, and puts what stays into a copy of the file.
#
#     tools/prune_elf.sh FILE OUT
#
# Live is what the sections hold that are loaded and can be run or written. DW_PRUNE names the
# program (dw_prune from PATH, if not said). All else is done and said by convert_elf.sh, beside
# this script, with `dw_prune` in the place of `dwarf_build convert`.
set -u
LC_ALL=C
export LC_ALL

fail() {
    printf 'prune_elf: %s\n' "$*" >&2
    exit 1
}

if [ $# -ne 2 ] || [ -z "$1" ] || [ -z "$2" ]; then
    echo 'usage: [DW_PRUNE=PROGRAM] [OBJCOPY=PROGRAM] prune_elf.sh FILE OUT' >&2
    exit 2
fi
case $1 in /*) file=$1 ;; *) file=./$1 ;; esac
DW_PRUNE=$(command -v -- "${DW_PRUNE:-dw_prune}") || fail "no program ${DW_PRUNE:-dw_prune}:" \
    "set DW_PRUNE to dw_prune, which 'rt run' leaves at crates/dw_prune/out/dw_prune"
work=$(mktemp -d) || fail "can't write in ${TMPDIR:-/tmp}: make room there"
trap 'rm -rf "$work"' EXIT
trap 'exit 129' HUP
trap 'exit 130' INT
trap 'exit 143' TERM

readelf -SW -- "$file" > "$work/headers" || fail "readelf (status $?) can't list the sections of" \
    "$file: what it says stands above"
# Behind the number of a section come its name, type, address, offset, size, width and flags.
sed -n 's/^ *\[ *[0-9]*\] //p' "$work/headers" |
    awk '$7 ~ /A/ && $7 ~ /[WX]/ && $7 !~ /T/ && $5 !~ /^0+$/ { print $3, $5 }' > "$work/loaded" ||
    fail "awk (status $?) failed"
while read -r begin size; do
    printf 'live 0x%x 0x%x\n' "$((0x$begin))" "$((0x$begin + 0x$size))"
done < "$work/loaded" > "$work/live" || fail "can't write in $work: make room there"

LIVE=$work/live
export LIVE DW_PRUNE
cat > "$work/program" <<'WORDS' || fail "can't write in $work: make room there"
#!/bin/sh
cat -- "$LIVE" - | "$DW_PRUNE"
WORDS
chmod +x "$work/program" || fail "can't make $work/program a program"
DWARF_BUILD=$work/program "$(dirname -- "$0")/convert_elf.sh" "$1" "$2"
