#!/usr/bin/env bash
# Files of several models: yosys (a package of Debian) writes each design below as BLIF with its
# modules kept, `sis` reads and writes it, and ABC (Debian's berkeley-abc), which reads the modules
# too, says whether the two are equivalent. The last designs are to be refused: an input without an
# actual, clocks that are gated or differ, and cells that have no model. With a folder as argument
# (the tests of yosys's sources), the same for each of its Verilog files with modules in others.
# Counts what is equal, refused, and left out since yosys or ABC does not do its part.
folder=${1:+$(readlink -f "$1")}
top=$(cd "$(dirname "$(readlink -f "$0")")/.." && pwd)
. "$top/bench/common.sh"

for tool in yosys berkeley-abc; do
  command -v "$tool" > /dev/null || { echo "no $tool (a package of Debian): left out"; exit 0; }
done

cat > "$work/parts.v" <<'V'
// Leaves.
module full_adder(input a, b, c, output s, co);
  assign s = a ^ b ^ c;
  assign co = a & b | c & (a ^ b);
endmodule
module flop(input clk, d, output reg q = 0);
  always @(posedge clk) q <= d;
endmodule
module bank #(parameter W = 4)(input clk, en, input [W-1:0] d, output reg [W-1:0] q = 0);
  always @(posedge clk) if (en) q <= d;
endmodule
module mux2(input a, b, s, output y);
  assign y = s ? b : a;
endmodule
// Of leaves.
module adder4(input [3:0] a, b, input c, output [3:0] s, output co);
  wire [2:0] k;
  full_adder u0(a[0], b[0], c, s[0], k[0]);
  full_adder u1(a[1], b[1], k[0], s[1], k[1]);
  full_adder u2(a[2], b[2], k[1], s[2], k[2]);
  full_adder u3(a[3], b[3], k[2], s[3], co);
endmodule
module adder16(input [15:0] a, b, input c, output [15:0] s, output co);
  wire [3:1] k;
  adder4 u0(a[3:0], b[3:0], c, s[3:0], k[1]);
  adder4 u1(a[7:4], b[7:4], k[1], s[7:4], k[2]);
  adder4 u2(a[11:8], b[11:8], k[2], s[11:8], k[3]);
  adder4 u3(a[15:12], b[15:12], k[3], s[15:12], co);
endmodule
module adder_sub(input [3:0] a, b, input sub, output [3:0] y, output same);
  adder4 core(.a(a), .b(b ^ {4{sub}}), .c(sub), .s(y), .co());
  assign same = y == 0;
endmodule
module alu8(input [7:0] a, b, input [1:0] op, output reg [7:0] y, output zero);
  wire [7:0] sum, less;
  wire k;
  adder4 low(a[3:0], b[3:0], 1'b0, sum[3:0], k);
  adder4 high(.a(a[7:4]), .b(b[7:4]), .c(k), .s(sum[7:4]), .co());
  adder_sub only(a[3:0], b[3:0], 1'b1, less[3:0], );
  assign less[7:4] = a[7:4];
  always @* case (op) 0: y = sum; 1: y = less; 2: y = a & b; default: y = a ^ b; endcase
  assign zero = y == 0;
endmodule
module mux16(input [15:0] d, input [3:0] s, output y);
  wire [7:0] p; wire [3:0] q; wire [1:0] r;
  genvar i;
  generate
    for (i = 0; i < 8; i = i + 1) begin : a mux2 m(d[2*i], d[2*i+1], s[0], p[i]); end
    for (i = 0; i < 4; i = i + 1) begin : b mux2 m(p[2*i], p[2*i+1], s[1], q[i]); end
    for (i = 0; i < 2; i = i + 1) begin : c mux2 m(q[2*i], q[2*i+1], s[2], r[i]); end
  endgenerate
  mux2 last(r[0], r[1], s[3], y);
endmodule
module multiplier4(input [3:0] a, b, output [7:0] y);
  wire [3:0] s1, s2; wire c1, c2;
  adder4 r1({1'b0, a[3] & b[0], a[2] & b[0], a[1] & b[0]}, a & {4{b[1]}}, 1'b0, s1, c1);
  adder4 r2({c1, s1[3:1]}, a & {4{b[2]}}, 1'b0, s2, c2);
  adder4 r3({c2, s2[3:1]}, a & {4{b[3]}}, 1'b0, y[6:3], y[7]);
  assign y[2:0] = {s2[0], s1[0], a[0] & b[0]};
endmodule
module count_ones(input [6:0] d, output [2:0] n);
  wire s1, c1, s2, c2, c3;
  full_adder u0(d[0], d[1], d[2], s1, c1);
  full_adder u1(d[3], d[4], d[5], s2, c2);
  full_adder u2(s1, s2, d[6], n[0], c3);
  full_adder u3(c1, c2, c3, n[1], n[2]);
endmodule
// A tree of itself, by its parameter: seven models, nested as deep.
module tree #(parameter D = 7)(input [2**D-1:0] d, output y);
  generate
    if (D == 0) assign y = d[0];
    else begin
      wire p, q;
      tree #(D-1) low(d[2**(D-1)-1:0], p);
      tree #(D-1) high(d[2**D-1:2**(D-1)], q);
      assign y = D % 2 ? p ^ q : ~(p & q);
    end
  endgenerate
endmodule
// With a clock.
module shift8(input clk, d, output q);
  wire [7:0] t;
  genvar i;
  generate for (i = 0; i < 8; i = i + 1) begin : s
    flop f(clk, i == 0 ? d : t[i == 0 ? 0 : i - 1], t[i]);
  end endgenerate
  assign q = t[7];
endmodule
module shift64(input clk, d, output q);
  wire [8:0] t;
  assign t[0] = d, q = t[8];
  shift8 s[7:0](clk, t[7:0], t[8:1]);
endmodule
module counter4(input clk, en, clear, output [3:0] q, output full);
  wire [3:0] next;
  adder4 plus(.a(q), .b(4'b0), .c(en), .s(next), .co(full));
  bank state(clk, 1'b1, clear ? 4'b0 : next, q);
endmodule
module counter16(input clk, en, clear, output [15:0] q, output full);
  wire [2:0] k;
  counter4 c0(clk, en, clear, q[3:0], k[0]);
  counter4 c1(clk, k[0], clear, q[7:4], k[1]);
  counter4 c2(clk, k[1], clear, q[11:8], k[2]);
  counter4 c3(clk, k[2], clear, q[15:12], full);
endmodule
module accumulator(input clk, load, input [7:0] d, input [1:0] op, output [7:0] q, output zero);
  wire [7:0] y;
  alu8 unit(q, d, op, y, zero);
  bank #(8) state(clk, 1'b1, load ? d : y, q);
endmodule
module fifo(input clk, put, take, input [3:0] d, output [3:0] q, output full, empty);
  wire [3:0] head, tail, r0, r1, r2, r3;
  wire p = put & ~full, t = take & ~empty;
  counter4 h(.clk(clk), .en(p), .clear(1'b0), .q(head), .full());
  counter4 l(.clk(clk), .en(t), .clear(1'b0), .q(tail), .full());
  bank b0(clk, p & head[1:0] == 0, d, r0);
  bank b1(clk, p & head[1:0] == 1, d, r1);
  bank b2(clk, p & head[1:0] == 2, d, r2);
  bank b3(clk, p & head[1:0] == 3, d, r3);
  assign q = tail[1] ? (tail[0] ? r3 : r2) : (tail[0] ? r1 : r0);
  assign empty = head == tail, full = head[1:0] == tail[1:0] & ~empty;
endmodule
module fifo_pair(input clk, put, take, input [3:0] d, output [3:0] q, output full, empty);
  wire [3:0] m; wire none, no;
  fifo first(clk, put, ~no & ~none, d, m, full, none);
  fifo second(clk, ~none, take, m, q, no, empty);
endmodule
module serial_out(input clk, go, input [7:0] d, output line, busy);
  wire [3:0] n; wire [8:0] s;
  counter4 bits(clk, busy, go, n, );
  bank #(9) word(clk, 1'b1, go ? {d, 1'b0} : {1'b1, s[8:1]}, s);
  flop run(clk, go | busy & n != 9, busy);
  assign line = busy ? s[0] : 1'b1;
endmodule
module serial_in(input clk, line, output [7:0] d, output done);
  wire [3:0] n; wire [8:0] t; wire on, was;
  flop run(clk, on ? n != 9 : ~line, on);
  flop last(clk, on, was);
  counter4 bits(clk, on, ~on, n, );
  bank #(9) word(clk, on, {line, t[8:1]}, t);
  assign d = t[7:0], done = was & ~on;
endmodule
module serial_pair(input clk, go, input [7:0] d, output [7:0] q, output done, busy);
  wire line;
  serial_out out(clk, go, d, line, busy);
  serial_in in(clk, line, q, done);
endmodule
module lfsr(input clk, en, output [7:0] q);
  bank #(8) state(clk, en, {q[6:0], ~(q[7] ^ q[5] ^ q[4] ^ q[3])}, q);
endmodule
module crc8(input clk, d, output [7:0] q);
  wire f = q[7] ^ d;
  genvar i;
  generate for (i = 0; i < 8; i = i + 1) begin : s
    flop b(clk, i == 0 ? f : (i < 3 ? q[i == 0 ? 0 : i - 1] ^ f : q[i == 0 ? 0 : i - 1]), q[i]);
  end endgenerate
endmodule
module pulse(input clk, input [3:0] width, output y);
  wire [3:0] n;
  counter4 c(clk, 1'b1, 1'b0, n, );
  assign y = n < width;
endmodule
module pulses(input clk, input [15:0] width, output [3:0] y);
  pulse p[3:0](clk, width, y);
endmodule
module debounce(input clk, key, output y);
  wire [3:0] n; wire full, a, b;
  flop s0(clk, key, a);
  flop s1(clk, a, b);
  counter4 c(clk, b != y, b == y, n, full);
  flop out(clk, full ? b : y, y);
endmodule
module lights(input clk, car, output [2:0] main, side);
  wire [3:0] n; wire [1:0] at; wire last = n == (at[0] ? 4'd3 : 4'd11);
  counter4 timer(clk, 1'b1, last & (at != 0 | car), n, );
  bank #(2) state(clk, last & (at != 0 | car), at + 2'd1, at);
  assign main = at == 0 ? 3'b001 : at == 1 ? 3'b010 : 3'b100;
  assign side = at == 2 ? 3'b001 : at == 3 ? 3'b010 : 3'b100;
endmodule
module arbiter(input clk, input [3:0] ask, output [3:0] grant);
  wire [3:0] turn;
  bank state(clk, |grant, {grant[2:0], grant[3]}, turn);
  wire [7:0] twice = {ask, ask} & ~({ask, ask} - {4'b0, turn == 0 ? 4'd1 : turn});
  assign grant = twice[7:4] | twice[3:0];
endmodule
module falling(input clk, d, output q);
  wire a;
  half_clock h(clk, d, a);
  half_clock g(.d(a), .clk(clk), .q(q));
endmodule
module half_clock(input clk, d, output reg q);
  initial q = 1;
  always @(negedge clk) q <= d;
endmodule
module through(input a, b, output x, y, z);
  assign x = a, y = a, z = b;
endmodule
module wires(input a, b, c, output x, y, z, w);
  wire m;
  through t(a, b, x, m, y);
  through u(.a(m), .b(1'b1), .x(z), .y(), .z(w));
endmodule
module idle(input clk, d, output q, r);
  wire unused;
  shift8 dropped(clk, d, unused);
  full_adder part(.a(d), .b(d), .c(1'b1), .s(q), .co());
  full_adder loose(.a(d), .b(1'b0), .s(r), .co());
endmodule
module system(input clk, go, key, input [7:0] d, output [7:0] q, output [3:0] y, output done);
  wire pressed, busy; wire [7:0] r, sum;
  debounce k(clk, key, pressed);
  serial_pair s(clk, go & pressed, d, r, done, busy);
  accumulator acc(clk, ~pressed, r, {busy, pressed}, sum, );
  pulses p(clk, {sum, r}, y);
  assign q = sum;
endmodule
// What the rules refuse: gated and several clocks, cells that have no model.
module gated(input clk, en, d, output q);
  wire own = clk & en;
  flop f(own, d, q);
endmodule
module two_clocks(input clk, other, d, output q);
  wire m;
  flop f(clk, d, m);
  flop g(other, m, q);
endmodule
module crossed(input clk, d, output q, r);
  flop f(clk, d, q);
  half_clock g(clk, d, r);
endmodule
module level(input en, d, output reg q = 0);
  always @* if (en) q = d;
endmodule
module levels(input en, d, output q);
  wire m;
  level a(en, d, m);
  level b(en, m, q);
endmodule
module cleared(input clk, n, d, output reg q);
  always @(posedge clk, negedge n) if (!n) q <= 0; else q <= d;
endmodule
module clears(input clk, n, d, output q);
  wire m;
  cleared a(clk, n, d, m);
  cleared b(clk, n, m, q);
endmodule
(* blackbox *) module pad(input a, output y);
endmodule
module padded(input a, b, output y);
  wire m;
  pad p(a, m);
  full_adder f(.a(m), .b(b), .c(1'b0), .s(y), .co());
endmodule
V

equal_ones="adder4 adder16 adder_sub alu8 mux16 multiplier4 count_ones tree shift8 shift64
  counter4 counter16 accumulator fifo fifo_pair serial_out serial_in serial_pair lfsr
  crc8 pulse pulses debounce lights arbiter falling wires system levels"
refused_ones="idle gated two_clocks crossed clears padded"
cells='-cell $_DFF_?_ 01 -cell $_DFF_???_ 01 -cell $_DLATCH_?_ 01'
cd "$work" || exit 1

write_design() { # name, Verilog file, hierarchy's option
  local steps="hierarchy $3; proc; opt; memory; opt; techmap; opt; dfflegalize $cells"
  steps="$steps; abc -g AND,OR,XOR,NAND,NOR; opt_clean"
  timeout 60 yosys -q -p "read_verilog $2; $steps; write_blif $1.blif" > "$1.log" 2>&1
}

# What ABC says of its flat network of a file and ours. Without -c its check takes a loop through a
# latch of a module for one of tables.
verdict() { # name
  local check=cec
  grep -q '^\.latch' "$1.flat.blif" && check=dsec
  timeout 60 berkeley-abc -c "$check $1.flat.blif $1.ours.blif" 2>&1 |
    grep -io "networks are[a-z ]* equivalent\|undecided\|.*miter.*" | head -1
}

# Sets `said` to how a design went: equal, refused: CAUSE, left out: CAUSE, or what is wrong.
try_design() { # name
  (berkeley-abc -c "read_blif -c $1.blif; write_blif $1.flat.blif"; true) > "$1.log" 2>&1
  if ! "$top/out/sis" -c "read_blif $1.blif; write_blif $1.ours.blif" 2> "$1.err"; then
    said="refused: $(cat "$1.err")"
  elif [ ! -s "$1.flat.blif" ]; then
    said="left out: ABC does not read it"
  elif grep -q '^\.outputs *$' "$1.flat.blif"; then
    said="left out: it has no outputs"
  else
    said=$(verdict "$1")
    case $said in *"are equivalent"*) said=equal ;; esac
  fi
}

equal=0 refused=0 left=0 status=0
count_design() { # name; its Verilog file; hierarchy's option; what is wanted: equal, refused or any
  if ! write_design "$1" "$2" "$3"; then
    said="left out: yosys does not write it"
  else
    try_design "$1"
  fi
  case $said in
    equal) equal=$((equal + 1)) ;;
    refused*) refused=$((refused + 1)) ;;
    "left out"*) left=$((left + 1)) ;;
    *) status=1 ;;
  esac
  case $said in "$4"*) ;; *) [ "$4" = any ] || status=1 ;; esac
  printf '%-24s models %2d, instances %2d: %s\n' "$1" \
    "$(grep -sc '^\.model' "$1.blif")" "$(grep -sc '^\.subckt' "$1.blif")" \
    "${said:-ABC says nothing}"
}

for design in $equal_ones; do count_design "$design" parts.v "-top $design" equal; done
for design in $refused_ones; do count_design "$design" parts.v "-top $design" refused; done
if [ -n "$folder" ]; then
  for file in $(find "$folder" -name '*.v' | sort); do
    [ "$(grep -c '^ *module ' "$file")" -ge 2 ] || continue
    count_design "$(basename "$file" .v)" "$file" -auto-top any
  done
fi
echo "equal: $equal, refused: $refused, left out: $left"
exit $status
