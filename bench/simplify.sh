#!/usr/bin/env bash
# Simplifies with `sis`, and reports the time and the peak memory beside `sweep` on the same file: a random circuit of two-input tables;
# tables of 20 and of 30 inputs and 400 random rows; and one of 20 inputs whose ten rows say where it is 0, which has 1,024 rows then. Beside
# them stands `mfs` of ABC (Debian's berkeley-abc) on the same file: another method, by windows of the circuit and a SAT solver.
# Usage: bench/simplify.sh [TABLES ..]   (2000 and 20000 where none is named)
set -u
top=$(cd "$(dirname "$0")/.." && pwd) || exit 1
. "$top/bench/common.sh" || exit 1
sizes=("$@"); [ ${#sizes[@]} -gt 0 ] || sizes=(2000 20000)

both() { # what is measured
  echo "$1"
  for command in sweep simplify; do
    echo " $command"
    case $command in
      sweep) compare sweep ;;
      simplify) compare simplify "logic; mfs" ;;
    esac
  done
}

for tables in "${sizes[@]}"; do
  random "$tables" >"$work/a.blif"
  both "random circuit of $tables tables"
done

# One table over so many inputs; the rows come from the standard input.
one_table() { # inputs
  inputs=$(seq -f 'i%g' -s ' ' 0 $(($1 - 1)))
  printf '.model one\n.inputs %s\n.outputs y\n.names %s y\n' "$inputs" "$inputs"
  cat
  echo .end
}

# Rows in which each place is a literal of either kind or a dash, all three as likely.
random_rows() { # rows, inputs
  python3 - "$1" "$2" <<'PY'
import sys
x = 1
def pick(m):
    global x
    x = (x * 6364136223846793005 + 1442695040888963407) % 2**64
    return (x >> 33) % m
for _ in range(int(sys.argv[1])): print("".join("01-"[pick(3)] for _ in range(int(sys.argv[2]))), 1)
PY
}

for width in 20 30; do
  random_rows 400 "$width" | one_table "$width" >"$work/a.blif"
  both "a table of $width inputs and 400 random rows"
done
python3 -c 'for i in range(10): print("-" * (2 * i) + "11" + "-" * (18 - 2 * i), 0)' | one_table 20 >"$work/a.blif"
both "a table of 20 inputs whose 10 rows say where it is 0"
