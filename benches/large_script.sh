#!/usr/bin/env bash
# Prints the script of units as a compiler makes them: functions with parameters, blocks and
# variables, structures with members, types, strings, expressions, location and range lists, line
# programs, and references inside units and across them. Two units of three are of version 5, the
# others of version 4. There are so many functions in units of fifty each; 8,500, if not said
# otherwise, make 66,800 entries and a script of some 16 MB.
#
#     benches/large_script.sh [FUNCTIONS]
set -eu
functions=${1:-8500}
awk -v functions="$functions" '
  function hex(text,  i, made) {
    made = ""
    for (i = 1; i <= length(text); i++) made = made sprintf("%02x", code[substr(text, i, 1)])
    return made
  }
  function below(n) { seed = (seed * 16807) % 2147483647; return seed % n }
  function add(parent, tag) { print "add " u " " parent " DW_TAG_" tag; return ++last }
  function set(entry, name, value) { print "set " u " " entry " DW_AT_" name " " value }
  function declare(entry, kind) {
    set(entry, "name", "str_ref " below(600))
    set(entry, "decl_file", "file_index " below(3))
    set(entry, "decl_line", "data2 " below(4000) + 1)
    set(entry, "type", "unit_ref " kind)
  }
  function begin_unit(version,  i) {
    print "unit " version " 8 32"
    last = 0
    set(0, "producer", "str_ref 0")
    set(0, "language", "language 12")
    set(0, "name", "string " hex("unit" u ".c"))
    set(0, "comp_dir", version == 5 ? "line_str_ref 0" : "string " hex("/src/library"))
    set(0, "low_pc", "address 0")
    line = "range " u
    for (i = 0; i < 6; i++) line = line " ends " base + i * 512 " " base + i * 512 + 400
    print line
    set(0, "ranges", "range_ref 0")
    print "line " u (version == 5 ? " line_str 0" : " text " hex("/src/library"))
    for (i = 0; i < 3; i++)
      print "file " u (version == 5 ? " line_str " i + 1 : " text " hex("part" i ".c")) " 0"
    print "sequence " u " " base
    for (i = 0; i < 80; i++) {
      row = "row " u " " i * 5 + below(4) " " below(3)
      print row " " 10 + i + below(9) " " below(40)
    }
    print "end " u " 420"
    for (i = 0; i < 4; i++) {
      add(0, "base_type")
      set(last, "name", "str_ref " i + 1)
      set(last, "encoding", "encoding 5")
      set(last, "byte_size", "data1 " 2 ^ i)
      set(add(0, "pointer_type"), "type", "unit_ref " last - 1)
    }
  }
  function structure(  own, i) {
    own = add(0, "structure_type")
    set(own, "name", "str_ref " below(600))
    set(own, "byte_size", "udata " 8 * 4)
    print "sibling " u " " own " 1"
    for (i = 0; i < 4; i++) {
      declare(add(own, "member"), 1 + below(8))
      set(last, "data_member_location", "udata " 8 * i)
    }
  }
  function subprogram(at,  own, block) {
    own = add(0, "subprogram")
    declare(own, 1 + below(8))
    set(own, "external", "flag_present")
    set(own, "low_pc", "address " at)
    set(own, "high_pc", "data8 " 60 + below(100))
    set(own, "frame_base", "exprloc [ op DW_OP_call_frame_cfa ]")
    print "sibling " u " " own " 1"
    declare(add(own, "formal_parameter"), 1 + below(8))
    set(last, "location", "exprloc [ fbreg -" 8 + 4 * below(9) " ]")
    declare(add(own, "formal_parameter"), 1 + below(8))
    line = "loc " u " ends " at " " at + 9 " [ reg " below(6) " ]"
    line = line " ends " at + 9 " " at + 50
    print line " [ entry_value [ reg " below(6) " ] op DW_OP_stack_value ]"
    set(last, "location", "loc_ref " lists++)
    block = add(own, "lexical_block")
    set(block, "low_pc", "address " at + 4)
    set(block, "high_pc", "data8 " 10 + below(30))
    declare(add(block, "variable"), 1 + below(8))
    line = "breg " below(16) " -" below(64) " deref_type 4 1"
    set(last, "location", "exprloc [ " line " op DW_OP_stack_value ]")
    if (u > 0 && below(4) == 0) set(last, "specification", "info_ref " u - 1 ":" 1 + below(8))
  }
  BEGIN {
    for (i = 32; i < 127; i++) code[sprintf("%c", i)] = i
    seed = 11
    for (i = 0; i < 600; i++) print "str " hex("a_name_of_the_library_" i)
    print "line_str " hex("/src/library")
    for (i = 0; i < 3; i++) print "line_str " hex("part" i ".c")
    units = int((functions + 49) / 50)
    for (u = 0; u < units; u++) {
      base = 4194304 + u * 65536
      lists = 0
      begin_unit(u % 3 == 2 ? 4 : 5)
      for (f = 0; f < 50 && u * 50 + f < functions; f++) {
        subprogram(base + 200 * f)
        if (f % 2) structure()
        if (f % 5 == 0) {
          declare(add(0, "variable"), 1 + below(8))
          set(last, "location", "exprloc [ addr " 6291456 + below(1048576) " ]")
        }
      }
    }
  }'
