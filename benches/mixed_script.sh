#!/usr/bin/env bash
# Prints the script of units of mixed entries, in trees as they come at random: names, references,
# numbers of both forms and sibling attributes. 100,000 entries in one unit, if not said otherwise,
# make a script of nearly 16 MB. Where there are several units, every tenth entry names one of any
# unit, before or behind its own, and a name has half as many bytes, so that the script stays below
# the length that a script may have.
#
#     benches/mixed_script.sh [ENTRIES [UNITS]]
set -eu
entries=${1:-100000}
units=${2:-1}
awk -v entries="$entries" -v units="$units" '
  function below(n) { seed = (seed * 16807) % 2147483647; return seed % n }
  BEGIN {
    seed = 7
    split("DW_TAG_base_type DW_TAG_subprogram DW_TAG_variable", tags, " ")
    each = int(entries / units)
    for (u = 0; u < units; u++) {
      print "unit 5 8 32"
      for (i = 1; i <= each; i++) {
        print "add " u " " below(i) " " tags[i % 3 + 1]
        name = sprintf("%07d", i)
        if (units > 1) name = substr(name, 4)
        gsub(/[0-9]/, "3&", name)
        print "set " u " " i " DW_AT_name string " name
        if (i % 2) print "set " u " " i " DW_AT_type unit_ref " below(i)
        print "set " u " " i " DW_AT_byte_size data1 4"
        if (i % 3) print "set " u " " i " DW_AT_decl_line udata " i
        if (i % 5 == 0) print "sibling " u " " i " 1"
        if (units > 1 && i % 10 == 0)
          print "set " u " " i " DW_AT_specification info_ref " below(units) ":" below(each + 1)
      }
    }
  }'
