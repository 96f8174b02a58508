#!/bin/sh
# Takes the debugging sections of a linked ELF file through `dwarf_build convert`, and puts what
# comes out into a copy of the file.
#
#     tools/convert_elf.sh FILE OUT
#
# DWARF_BUILD names the program (dwarf_build from PATH, if not said), and OBJCOPY an objcopy that
# knows the machine of the file. Status 0: the copy is at OUT. Status 2: the words are wrong. Any
# other: a word on standard error says what failed, and what stood at OUT stands there still.
set -u
# What readelf prints is looked at, so it has to be in one language; and bytes aren't characters.
LC_ALL=C
export LC_ALL

program=${DWARF_BUILD:-dwarf_build}
objcopy=${OBJCOPY:-objcopy}
# The sections that units lead to, as convert prints them, and the two that it reads besides.
written='.debug_abbrev .debug_str .debug_line_str .debug_line .debug_ranges .debug_rnglists
    .debug_loc .debug_loclists .debug_info'
read_only='.debug_addr .debug_str_offsets'
# What names units, strings or lines by where they stood, and would lead elsewhere afterwards.
stale='.debug_aranges .debug_names .gdb_index .debug_pubnames .debug_pubtypes .debug_gnu_pubnames
    .debug_gnu_pubtypes .apple_names .apple_types .apple_namespac .apple_objc .debug_macro
    .debug_macinfo'

say() {
    printf 'convert_elf: %s\n' "$*" >&2
}

fail() {
    say "$@"
    exit 1
}

# readelf complains of much that is none of ours; what it says is shown where it fails.
elf() {
    readelf "$@" 2> "$work/said" && return
    status=$?
    cat "$work/said" >&2
    return $status
}

# Whether the file has a section. There is a space before and behind each name.
has() {
    case $sections in *" $1 "*) return 0 ;; esac
    return 1
}

# The bytes of a section; of one that the file hasn't, none.
take() {
    true > "$work/bytes" || fail "can't write in $work: make room there"
    has "$1" || return 0
    # objcopy writes to a binary file only what is loaded, which debugging sections aren't.
    "$objcopy" -O binary --only-section="$1" --set-section-flags "$1=alloc" \
        "$work/plain" "$work/bytes" ||
        fail "$objcopy (status $?) can't take $1 out of $file: what it says stands above"
}

# A line of the listing, by files: a shell is slow with megabytes in a variable.
list() {
    take "$1"
    length=$(($(wc -c < "$work/bytes")))
    size=$(awk -v name="$1" '$1 == name { print $3; exit }' "$work/flags") ||
        fail "awk (status $?) failed"
    [ "$length" -eq "$((0x${size:-0}))" ] || fail "$objcopy takes other bytes out of" \
        "$file for $1 than the $((0x${size:-0})) that readelf counts: set OBJCOPY to another"
    if [ "$length" -eq 0 ]; then
        echo "$1 0 -" >> "$work/listing"
    else
        xxd -p "$work/bytes" > "$work/hex" || fail "xxd (status $?) can't spell $1 of $file"
        { printf '%s %d ' "$1" "$length" && tr -d '\n' < "$work/hex" && echo; } >> "$work/listing"
    fi || fail "can't write in $work: make room there"
}

# What a status of the program means (docs/FORMAT.md, "Exit status"); $2 is the line it printed.
explain() {
    case $1 in
        1) say "$program isn't a dwarf_build that can convert: set DWARF_BUILD to one" ;;
        2) say "$program doesn't read the listing of $file: $2" \
            "(is it as old as this script? set DWARF_BUILD)" ;;
        3) say "$program doesn't convert $file: $2" ;;
        4) say "$program can't read its input: see what stands in the way, and do it again" ;;
        5) say "$program can't write what it converted: make room in $work" ;;
        6) say "$program has too little memory for $file: free some, and do it again" ;;
        7) say "the sections of $file are too long for $program: as a listing, two digits a" \
            "byte, they have $(($(wc -c < "$work/listing"))) bytes, and it reads 16777216;" \
            "compile less of it with -g" ;;
        8) say "$program can't have the words of its command line" ;;
        126 | 127) say "$program can't be run: set DWARF_BUILD to the program" ;;
        *) say "$program ended with status $1, which dwarf_build hasn't (past 128: a signal)" ;;
    esac
    case $2 in
        'refused: UnknownForm') say "a form is none of the standard's; dwz writes such forms:" \
            "take the file from before dwz" ;;
        'refused: UnknownVersion' | 'refused: UnsupportedVersion') say \
            "units of versions 2 to 5 are converted: compile with one of -gdwarf-2 to -gdwarf-5" ;;
        'refused: '*) say "what the name means stands in crates/dw_sources/src/convert_error.rt," \
            "crates/dw_read/src/error.rt and crates/dw_base/src/error.rt" ;;
    esac
}

if [ $# -ne 2 ] || [ -z "$1" ] || [ -z "$2" ]; then
    echo 'usage: [DWARF_BUILD=PROGRAM] [OBJCOPY=PROGRAM] convert_elf.sh FILE OUT' >&2
    exit 2
fi
# A name that begins with - or @ would be read as an option, or as a file of options.
case $1 in /*) file=$1 ;; *) file=./$1 ;; esac
case $2 in /*) out=$2 ;; *) out=./$2 ;; esac

[ -f "$file" ] && [ -r "$file" ] || fail "$file isn't a file that can be read"
# A move into a folder, or over a device, isn't what was asked for.
case $out in */) fail "$out names a folder: name a file" ;; esac
if [ -e "$out" ] && [ ! -f "$out" ]; then
    fail "$out is there and isn't a file: name another"
fi
command -v -- "$program" > /dev/null || fail "no program $program: set DWARF_BUILD to" \
    "dwarf_build, which 'rt run' leaves at crates/dwarf_build/out/dwarf_build"
command -v -- "$objcopy" > /dev/null || fail "no program $objcopy: install binutils, or set" \
    "OBJCOPY"
for tool in readelf xxd awk; do
    command -v $tool > /dev/null || fail "no program $tool: install it"
done

# All that is made is made beside OUT, so that the last step is a move within one file system.
work=$(mktemp -d "${out%/*}/.convert_elf.XXXXXX") || fail \
    "can't write beside $out: name another place"
trap 'rm -rf "$work"' EXIT
trap 'exit 129' HUP
trap 'exit 130' INT
trap 'exit 143' TERM

elf -h "$file" > "$work/header" || fail "readelf (status $?) finds no ELF file in $file: name" \
    "one that was linked"
case $(sed -n 's/^ *Type: *\([A-Z]*\).*/\1/p' "$work/header") in
    EXEC | DYN) ;;
    *REL*) fail "$file is relocatable: its sections hold zeros where a linker puts numbers; link" \
        "it first" ;;
    *) fail "$file is no linked ELF file (readelf -h, Type)" ;;
esac
case $(sed -n 's/^ *Data: *//p' "$work/header") in
    *'little endian') order=little ;;
    *'big endian') order=big ;;
    *) fail "$file has no byte order (readelf -h, Data)" ;;
esac

# objcopy would fill with zeros what stands in another file.
elf -SW "$file" > "$work/headers" || fail "readelf (status $?) can't list the sections of $file:" \
    "what it says stands above"
absent=$(awk '/^ *\[ *[0-9]+\] \.z?debug_[a-z_]+ +NOBITS/ { sub(/^[^.]*/, ""); print $1 }' \
    "$work/headers") || fail "awk (status $?) failed"
[ -z "$absent" ] || fail "$file doesn't hold the bytes of" $absent "(readelf -S, NOBITS): take" \
    "the file that does"
# Compressed sections (-gz) become plain, and .zdebug_info becomes .debug_info.
"$objcopy" --decompress-debug-sections "$file" "$work/plain" || fail \
    "$objcopy (status $?) can't copy $file: if it doesn't know the machine, set OBJCOPY to one" \
    "that does"
elf -SW "$work/plain" > "$work/headers" || fail "readelf (status $?) can't list the sections" \
    "of $file: what it says stands above"
# Each section's name, flags and size in hex. The field of flags is missing where there are none.
awk '/^ *\[ *[0-9]+\]/ { sub(/^ *\[ *[0-9]+\] */, ""); print $1, (NF > 9 ? $7 : "-"), $5 }' \
    "$work/headers" > "$work/flags" || fail "awk (status $?) can't read what readelf printed"
sections=" $(awk '{ printf "%s ", $1 }' "$work/flags")" || fail "awk (status $?) failed"

compressed=$(awk '/^\.zdebug_/ || /^\.debug_/ && $2 ~ /C/ { print $1 }' "$work/flags") ||
    fail "awk (status $?) failed"
[ -z "$compressed" ] || fail "$objcopy doesn't decompress" $compressed "of $file: set OBJCOPY to" \
    "one that does, or link without -gz"
case $sections in
    *.dwo\ * | *' .debug_cu_index '* | *' .debug_tu_index '*) fail "$file has the sections of" \
        "split files (.dwo), which convert doesn't read: compile without -gsplit-dwarf" ;;
esac
has .debug_types && fail "$file has type units (.debug_types), which aren't read: compile" \
    "without -fdebug-types-section"
has .debug_info || fail "$file has no .debug_info: compile with -g, and take the file from" \
    "before strip, or the one that .gnu_debuglink names"

# From version 5 on type units stand in .debug_info, and skeletons are told by their roots alone.
elf --debug-dump=info,no-follow-links --dwarf-depth=1 -W "$work/plain" > "$work/units" ||
    fail "readelf (status $?) can't read the units of $file: what it says stands above"
kind=$(awk '/^ *Unit Type: *DW_UT_type/ { print "types"; exit }
    /^ *Unit Type: *DW_UT_skeleton/ || /^ *<[0-9a-f]+> *DW_AT_(GNU_)?dwo_name/ {
        print "skeleton"; exit }' "$work/units") || fail "awk (status $?) failed"
case $kind in
    types) fail "$file has type units, which would become units of another kind: compile without" \
        "-fdebug-types-section" ;;
    skeleton) fail "$file has its entries in split files (.dwo), whose names convert leaves out," \
        "so that they would be lost: compile without -gsplit-dwarf" ;;
esac
# What others name by its place can't be moved. The byte says which of the two files it is.
if has .debug_sup; then
    take .debug_sup
    supplementary=$(xxd -s 2 -l 1 -p "$work/bytes") || fail "xxd (status $?) can't read .debug_sup"
    [ "$supplementary" = 00 ] || fail "$file is a supplementary file, whose entries other files" \
        "name by their places: it can't be converted alone"
fi

echo "order $order" > "$work/listing" || fail "can't write in $work: make room there"
for section in $written $read_only; do
    list "$section"
done
"$program" convert < "$work/listing" > "$work/converted"
status=$?
if [ $status -ne 0 ]; then
    explain $status "$(head -n 1 "$work/converted")"
    exit 1
fi

# The hex of each section goes into a file of its own, after a look at whether all is there.
(cd "$work" && names="$written .debug_frame .eh_frame" order=$order awk '
    BEGIN { count = split(ENVIRON["names"], names) }
    NR == 1 { if ($0 != "order " ENVIRON["order"]) { bad = 1; exit } else next }
    $1 != names[NR - 1] || $2 !~ /^[0-9]+$/ || length($3) != 2 * $2 { bad = 1; exit }
    { print $1, $2 > "lengths"; if ($2 > 0) { print $3 > ($1 ".hex"); close($1 ".hex") } }
    END { exit bad || NR != count + 1 }' converted) ||
    fail "$program printed no whole listing: is it as old as this script? set DWARF_BUILD"

# The arguments of the last objcopy are gathered as those of the script, which are read already.
set --
for section in $written; do
    length=$(awk -v name="$section" '$1 == name { print $2 }' "$work/lengths") ||
        fail "awk (status $?) failed"
    if [ "$length" -gt 0 ]; then
        xxd -r -p "$work/$section.hex" > "$work/$section" ||
            fail "xxd (status $?) can't read the hex of $section"
        [ "$(wc -c < "$work/$section")" -eq "$length" ] || fail "xxd reads fewer bytes of" \
            "$section than $program printed"
        if has "$section"; then
            set -- "$@" --update-section "$section=$work/$section"
        else
            set -- "$@" --add-section "$section=$work/$section"
        fi
    elif has "$section"; then
        set -- "$@" --remove-section="$section"
    fi
done
# Nothing leads to these any more.
for section in $read_only; do
    has "$section" && set -- "$@" --remove-section="$section"
done
gone=
for section in $stale; do
    has "$section" && gone="$gone $section" && set -- "$@" --remove-section="$section"
done
# Relocations that a linker kept (-q) are those of the old bytes.
for section in $written $read_only $stale; do
    for kept in ".rel$section" ".rela$section"; do
        has "$kept" && set -- "$@" --remove-section="$kept"
    done
done

"$objcopy" "$@" "$work/plain" "$work/copy" || fail "$objcopy (status $?) can't put the sections" \
    "into a copy of $file: what it says stands above"
mv -f "$work/copy" "$out" || fail "can't move the copy to $out: name another place"
[ -z "$gone" ] || say "left out of $out, since it tells places as they were:$gone"
