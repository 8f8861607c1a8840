#!/usr/bin/env bash
# Maps random circuits, swept and split into two-input tables, by two libraries: the one of
# others.sh and examples/gates.genlib. Told are the processor time and the peak memory of `map`, and
# its area and gates, beside those of Debian's berkeley-abc (`map -a`, which maps the shared graph
# and not its trees), and whether ABC finds the netlist equivalent to the circuit. The netlist is
# read back and mapped again: as it was read, and simplified.
# Usage: bench/map.sh [TABLES ..]   (3400 and 20000 where none is named)
set -u
top=$(cd "$(dirname "$(readlink -f "$0")")/.." && pwd) || exit 1
. "$top/bench/common.sh" || exit 1
sizes=("$@"); [ ${#sizes[@]} -gt 0 ] || sizes=(3400 20000)

# Runs one program without the commands that map, and with them; the difference is what they take.
# The least of three runs counts.
mapping() { # name, program, the commands before, those that map, those after
  python3 - "$work" "$@" <<'PY'
import os, re, subprocess, sys
work, name, program, before, mapping, after = sys.argv[1:]
def run(script):
    best = None
    for turn in range(3):
        timed = ["time", "-q", "-f", "%M", "-o", f"{work}/time", program, "-c", script]
        child = subprocess.Popen(timed, cwd=work, stdout=subprocess.PIPE, stderr=subprocess.DEVNULL)
        answer = child.stdout.read().decode()
        used = os.wait4(child.pid, 0)[2]
        taken, peak = used.ru_utime + used.ru_stime, int(open(f"{work}/time").read())
        if best is None or taken < best[0]: best = (taken, peak, answer)
    return best
alone, whole = run(before), run(f"{before}; {mapping}")
run(f"{before}; {mapping}; {after}")
area = re.findall(r"area *= *([0-9.]+)", whole[2])
gates = re.findall(r"gates=([0-9]+)", whole[2]) + re.findall(r"nd *= *([0-9]+)", whole[2])
print(f"  {name:4} {mapping.split(';')[0]} {whole[0] - alone[0]:.2f} s of {whole[0]:.2f} s in all,"
      f" peak {whole[1]} kB; area {(area or ['not told'])[-1]}, gates {(gates or ['not told'])[0]}")
PY
}

# Whether ABC finds the netlist of `sis` equivalent to the circuit that was mapped.
equivalent() { # library
  local verdict
  verdict=$(cd "$work" && timeout 600 berkeley-abc -c "read_genlib $1; dsec b.blif m.blif" 2>&1 |
    grep -i "equivalent\|undecided\|fail" | head -1)
  echo "  ABC's dsec says: ${verdict:-nothing}"
  case $verdict in *"are equivalent"*) ;; *) status=1 ;; esac
}

# Reads the netlist back by its library, maps it again as it was read, and with simplified tables.
again() { # library
  local lines
  lines=$(cd "$work" && "$top/out/sis" -c "read_library $1; read_blif m.blif; map -s; simplify
    map -s") || { echo "  the netlist is not read back"; status=1; return; }
  awk '{ print "  read back" (NR == 1 ? "" : ", simplified") " and mapped again: " $2 ", " $3 }' \
    <<<"$lines"
}

status=0
own_library > "$work/own.genlib"
cp "$top/examples/gates.genlib" "$work/gates.genlib"
for tables in "${sizes[@]}"; do
  living "$tables" > "$work/a.blif"
  split="read_blif a.blif; sweep; tech_decomp; write_blif b.blif; print_stats"
  stats=$(cd "$work" && "$top/out/sis" -c "$split") || exit 1
  for library in own.genlib gates.genlib; do
    echo "$tables random tables, $library; split: $stats"
    mapping sis "$top/out/sis" "read_library $library; read_blif b.blif" "map -s" \
      "write_blif -n m.blif"
    if command -v berkeley-abc >/dev/null; then
      mapping abc berkeley-abc "read_genlib $library; read_blif b.blif; strash" \
        "map -a; print_stats" "write_blif c.blif"
      equivalent "$library"
    else
      echo "  abc  not installed (Debian's berkeley-abc): left out"
    fi
    again "$library"
  done
done
exit $status
