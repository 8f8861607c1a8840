#!/usr/bin/env bash
# Files of other tools: a sequential circuit is written as BLIF by yosys and by ABC (Debian's packages), and a library as genlib by ABC, which
# maps the circuit to its gates; `sis` reads, sweeps and writes each circuit, the mapped one by either library, and ABC says whether the result is
# equivalent to the file. Left out, with a word, where they are missing.
top=$(cd "$(dirname "$(readlink -f "$0")")/.." && pwd)
. "$top/bench/common.sh"

for tool in yosys berkeley-abc; do
  command -v "$tool" > /dev/null || { echo "$tool is not installed (a package of Debian): left out"; exit 0; }
done

# A counter that can be loaded, and a recognizer of the bits 1 0 1 1, over one clock.
cat > "$work/a.v" <<'V'
module top(input clk, input load, input [7:0] data, input bit_in, output reg [7:0] count, output found, output parity);
  reg [3:0] last;
  always @(posedge clk) begin
    count <= load ? data : count + 8'd1;
    last <= {last[2:0], bit_in};
  end
  assign found = last == 4'b1011;
  assign parity = ^count ^ found;
endmodule
V

own_library > "$work/own.genlib"
cd "$work" || exit 1
yosys -q -p "read_verilog a.v; hierarchy -top top; proc; opt; techmap; opt; abc -g AND,OR,XOR,NAND,NOR; opt_clean; write_blif yosys.blif" > yosys.log 2>&1 || { tail -3 yosys.log; exit 1; }
berkeley-abc -c "read_blif yosys.blif; strash; write_blif abc.blif" > abc.log 2>&1
berkeley-abc -c "read_blif yosys.blif; strash; dch; if -K 6; write_blif lut.blif" >> abc.log 2>&1
berkeley-abc -c "read_genlib own.genlib; write_genlib abc.genlib; read_blif yosys.blif; strash; map; write_blif mapped.blif" >> abc.log 2>&1
cp mapped.blif mapped_by_own.blif

status=0
for file in yosys abc lut mapped mapped_by_own; do
  library=abc
  [ $file = mapped_by_own ] && library=own
  if ! "$top/out/sis" -c "read_library $library.genlib; read_blif $file.blif; print_stats; sweep; print_stats; write_blif $file.swept.blif"; then
    echo "$file.blif: refused"; status=1; continue
  fi
  verdict=$(berkeley-abc -c "read_genlib own.genlib; dsec $file.blif $file.swept.blif" 2>&1 | grep -i "equivalent\|undecided\|fail" | head -1)
  echo "$file.blif: ABC's dsec says: ${verdict:-nothing}"
  case $verdict in *"are equivalent"*) ;; *) status=1 ;; esac
done
exit $status
