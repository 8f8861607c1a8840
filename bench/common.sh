# What the benchmarks share: time, processor time and peak memory of a command by GNU time (Debian's time), and the same script run by `sis`
# and by ABC (Debian's berkeley-abc). Read by the scripts beside it, which set $top (the repository); $work is a folder for
# files that goes with the script.

[ -x "$(type -P time)" ] || { echo "GNU time (Debian's time) is wanted" >&2; exit 1; }
"$top/bin/sis" -c quit || exit 1 # proves and builds the program where it does not stand yet
work=$(mktemp -d) || exit 1
trap 'rm -rf "$work"' EXIT

measure() { # name, command ..
  local name=$1; shift
  command time -q -f "%e %U %S %M %x" -o "$work/time" "$@" >/dev/null 2>&1
  awk -v name="$name" '{ printf "  %-4s %.2f s, processor %.2f s, peak %d kB, status %d\n", name, $1, $2 + $3, $4, $5 }' "$work/time"
}

# Runs a script on $work/a.blif, once with each program; each writes a file of its own. ABC is stopped after a minute (status 124).
compare() { # the commands between reading and writing; ABC's, where they are other ones
  (cd "$work" && measure sis "$top/out/sis" -c "read_blif a.blif; $1; write_blif b.blif")
  if command -v berkeley-abc >/dev/null; then
    (cd "$work" && measure abc timeout 60 berkeley-abc -c "read_blif a.blif; ${2:-$1}; write_blif c.blif")
  else
    echo "  abc  not installed (Debian's berkeley-abc): left out"
  fi
}

# A chain: each table reads the one before it and one of the inputs in turn.
chain() {
  awk -v tables="$1" 'BEGIN {
    printf ".model chain\n.inputs"; for (i = 0; i < 16; i++) printf " i%d", i
    printf "\n.outputs t%d\n", tables - 1
    for (k = 0; k < tables; k++) {
      before = k == 0 ? "i15" : "t" (k - 1)
      printf ".names %s i%d t%d\n", before, k % 15, k
      r = k % 4
      if (r == 0) print "11 1"; else if (r == 1) print "11 0"; else if (r == 2) print "1- 1\n-1 1"; else print "10 1\n01 1"
    }
    print ".end"
  }'
}

# A random circuit: inputs i0..i15, latches l0..l7 of init 0, and tables over any two different signals before them; the
# outputs are the last eight tables, which are the latches' inputs too. The draws are those of a 64-bit linear
# congruential generator: x = x * 6364136223846793005 + 1442695040888963407, of which x / 2^33 is taken. Up to 20,000 tables
# `gen` makes the same circuit.
random() {
  if [ "$1" -ge 8 ] && [ "$1" -le 20000 ]; then
    "$top/out/sis" -c "gen 1 $1; write_blif"
    return
  fi
  python3 - "$1" <<'PY'
import sys
tables, x = int(sys.argv[1]), 1
def pick(m):
    global x
    x = (x * 6364136223846793005 + 1442695040888963407) % 2**64
    return (x >> 33) % m
signals = [f"i{k}" for k in range(16)] + [f"l{k}" for k in range(8)]
lines = []
for k in range(tables):
    a, b = pick(24 + k), pick(24 + k)
    if a == b: b = (a + 1) % (24 + k)
    rows = [["11 1"], ["11 0"], ["1- 1", "-1 1"], ["10 1", "01 1"]][pick(4)]
    lines += [f".names {signals[a]} {signals[b]} t{k}"] + rows
    signals.append(f"t{k}")
last = [f"t{k}" for k in range(tables - 8, tables)]
print(".model gen\n.inputs " + " ".join(signals[:16]) + "\n.outputs " + " ".join(last))
for k, name in enumerate(last): print(f".latch {name} l{k} 0")
print("\n".join(lines) + "\n.end")
PY
}

# A random circuit in which each table that nothing reads is an output, so that no program drops it.
living() { # tables
  random "$1" | python3 -c '
import sys
lines = sys.stdin.read().split("\n")
tables = [line.split()[1:] for line in lines if line.startswith(".names")]
outputs = next(line for line in lines if line.startswith(".outputs"))
read = {name for table in tables for name in table[:-1]} | set(outputs.split())
more = "".join(" " + table[-1] for table in tables if table[-1] not in read)
print("\n".join(line + more if line == outputs else line for line in lines), end="")
'
}

# A library in the manner of the mcnc ones.
own_library() {
  cat <<'L'
# name, area, function, delays
GATE inv1   1  O=!a;            PIN * INV 1 999 0.9 0.3 0.9 0.3
GATE buf1   1  O=a;             PIN * NONINV 1 999 0.9 0.3 0.9 0.3
GATE nand2  2  O=!(a*b);        PIN * INV 1 999 1.0 0.2 1.0 0.2
GATE nor2   2  O=!(a+b);        PIN * INV 1 999 1.4 0.5 1.4 0.5
GATE and2   3  O=a*b;           PIN * NONINV 1 999 1.9 0.3 1.9 0.3
GATE xor2   5  O=a*!b+!a*b;     PIN * UNKNOWN 2 999 1.9 0.5 1.9 0.5
GATE aoi21  3  O=!(a*b+c);      PIN a INV 1 999 1.6 0.4 1.6 0.4
                                PIN b INV 1 999 1.6 0.4 1.6 0.4 PIN c INV 1 999 1.6 0.4 1.6 0.4
GATE oai22  4  O=!((a+b)*(c+d)); PIN * INV 1 999 2.0 0.4 2.0 0.4
GATE zero   0  O=CONST0;
GATE one    0  O=CONST1;
L
}
