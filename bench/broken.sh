#!/usr/bin/env bash
# Reads broken files of a user's kind: what an editor, a transfer or another program leaves in place
# of a BLIF, KISS2 or genlib file. Each must be refused with the file's name, the line or the name
# at fault and the cause, status 1; nothing is printed, and no file is written.
# Usage: bench/broken.sh [PROGRAM]
set -u
top=$(cd "$(dirname "$(readlink -f "$0")")/.." && pwd) || exit 1
. "$top/bench/told.sh" || exit 1
cd "$work" || exit 1

# Reads a file, which would then be printed and written.
broken() { # the file's name, what is told of it, its text as printf takes it
  local command wrong
  case $1 in
    *.blif) command="read_blif $1; print_stats; write_blif written" ;;
    *.kiss) command="read_kiss $1; write_kiss; write_kiss written" ;;
    *.genlib) command="read_library $1; gen 1 8; print_stats; write_blif written" ;;
  esac
  printf "$3" >"$1"
  "$program" -c "$command" >out 2>err
  wrong=$(compare $? 1 "sis: line 1: $1: $2" "")
  [ ! -e written ] || wrong+="a file was written; "
  rm -f "$1" written
  [ "$(ls)" = $'err\nout' ] || wrong+="files are left: $(ls); "
  count "$1" "$wrong"
}

# What a program or an editor puts in place of a circuit.
broken verilog.blif "line 3: bad row" '\n\nmodule m(input a, output y);\nassign y = ~a;\n'
broken espresso.blif "line 2: unknown word" '# a PLA\n.i 2\n.o 1\n11 1\n.e\n'
broken web_page.blif "line 1: bad row" '<!DOCTYPE html>\n<html><body>404 Not Found</body></html>\n'
broken zip.blif "line 1: bad row" 'PK\003\004\024\000\000\000\010\000\n.model m\n.end\n'
broken swap_file.blif "line 1: bad row" 'b0VIM 9.0\000\000\000\020\000\000\000root\000\000\000.end'
broken byte_order_mark.blif "line 1: bad row" '\357\273\277.model m\n.inputs a\n.outputs a\n.end\n'
broken utf16.blif "line 1: bad row" '\377\376.\000m\000o\000d\000e\000l\000 \000m\000\n\000'
broken old_mac_line_ends.blif "line 1: bad arity" '.model m\r.inputs a\r.outputs a\r.end\r'

# What an edit, a copy or a transfer does to a circuit whose first three lines are right.
ports='.model m\n.inputs a b\n.outputs y\n'
broken cut_in_a_row.blif "line 5: bad row" "$ports.names a b y\n1"
broken cut_in_a_word.blif "line 4: unknown word" "$ports.nam"
broken cut_in_a_latch.blif "line 4: bad latch" "$ports.latch a"
broken cut_in_a_name.blif "undriven sum" '.inputs a b\n.outputs sum\n.names a b su'
broken cut_before_a_name.blif "two drivers of b" "$ports.names a b"
broken cut_in_a_joined_line.blif "undriven y" '.outputs y\n.inputs a \\'
broken merge_conflict.blif "line 6: bad row" \
  "$ports.names a b y\n11 1\n<<<<<<< HEAD\n10 1\n=======\n01 1\n>>>>>>> other\n.end\n"
broken prompt_and_no_end.blif "line 6: bad row" "$ports.names a b y\n11 1\njane@host:~\$ \n"
broken two_files_and_no_end.blif "line 6: model twice" "$ports.names a b y\n11 1\n$ports.end\n"
broken dos_line_ends.blif "line 6: bad row" \
  '.model m\r\n.inputs a \\\r\n b\r\n.outputs y\r\n.names a b y\r\n1 1\r\n.end\r\n'
broken tabs.blif "line 7: mixed phase" \
  ".model\tm\n.inputs\ta\tb\n\n.outputs\ty\n.names\ta\tb\ty\n1\t1\t1\n0\t0\t0\n"
broken no_break_space.blif "line 5: bad row" "$ports.names a\302\240b y\n11 1\n.end\n"
broken blank_after_backslash.blif "line 3: bad row" '.model m\n.inputs a \\ \n b\n.outputs a\n'
broken row_too_long.blif "line 6: bad row" "$ports.names a b y\n11 1\n111 1\n.end\n"
broken two_tables_of_a_name.blif "two drivers of y" "$ports.names a y\n1 1\n.names b y\n1 1\n.end\n"
broken input_twice.blif "a listed twice" '.inputs a b a\n.outputs y\n.names a b y\n11 1\n.end\n'
broken of_yosys.blif "line 4: unknown word" "$ports.attr src \"m.v:1\"\n.names a b y\n11 1\n.end\n"
broken no_library.blif "line 4: no library" "$ports.gate nand2 a=a b=b O=y\n.end\n"

# Machines.
broken cut_in_a_row.kiss "line 4: bad row" '.i 1\n.o 1\n0 A A 0\n1 A'
broken cut_in_the_header.kiss "no rows" '.i 1\n.o 1\n.p 4\n'
broken circuit.kiss "line 1: bad header" "$ports.names a b y\n11 1\n.end\n"
broken byte_order_mark.kiss "line 1: bad header" '\357\273\277.i 1\n.o 1\n0 A A 0\n.e\n'
broken dos_line_ends.kiss "line 4: bad row" '.i 2\r\n.o 1\r\n00 A A 0\r\n0 A B 0\r\n.e\r\n'
broken reset_misspelt.kiss "no reset a" '.i 1\n.o 1\n.r a\n0 A A 0\n1 A A 1\n.e\n'
broken two_ways_from_a_state.kiss "rows 1 and 2 clash" '.i 1\n.o 1\n- A A 0\n1 A B 0\n- B A 0\n.e\n'

# Libraries.
inverter='GATE inv 1 O=!a; PIN * INV 1 999 1 0 1 0\n'
broken liberty.genlib "line 1: bad entry" 'library (cells) {\n  cell (inv) { area : 1; }\n}\n'
broken cut_in_a_gate.genlib "line 2: bad entry" "${inverter}GATE nand2 2 O=!(a*"
broken cut_in_a_pin.genlib "line 2: bad entry" "${inverter}GATE buf 1 O=a; PIN a NONINV 1 999 1 0"
broken comma_in_a_number.genlib "line 2: bad number" \
  "${inverter}GATE buf 1,5 O=a; PIN * NONINV 1 9 1 0 1 0\n"
broken open_bracket.genlib "line 1: bad expression" 'GATE nand2 2 O=!(a*b; PIN * INV 1 9 1 0 1 0'
broken and_as_in_c.genlib "bad pin a" \
  'GATE and2 2 O=a&b; PIN a NONINV 1 9 1 0 1 0 PIN b NONINV 1 9 1 0 1 0\n'
broken gate_twice.genlib "gate inv twice" "${inverter}GATE inv 2 O=!a; PIN * INV 1 9 1 0 1 0\n"
ended
