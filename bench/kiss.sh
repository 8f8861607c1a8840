#!/usr/bin/env bash
# Reads and writes machines: tables of 20 rows for each state over 10 inputs and 8 outputs, in file order and shuffled.
# Usage: bench/kiss.sh [STATES ..]; without numbers 500, 1000 and 1600 (a machine has at most 32,767 rows).
top=$(cd "$(dirname "$(readlink -f "$0")")/.." && pwd)
. "$top/bench/common.sh"

# The input cubes of a state part its points: 12 of four literals and 8 of five.
machine() { # states, 1 to shuffle the rows
  python3 - "$1" "$2" <<'PY'
import random, sys
states, shuffled = int(sys.argv[1]), sys.argv[2] == "1"
rng = random.Random(7)
cubes = [f"{k:04b}------" for k in range(12)] + [f"{k:05b}-----" for k in range(24, 32)]
rows = [f"{cube} s{state} s{rng.randrange(states)} {rng.randrange(256):08b}" for state in range(states) for cube in cubes]
if shuffled:
    rng.shuffle(rows)
print(".i 10\n.o 8\n.r s0")
print("\n".join(rows))
print(".e")
PY
}

for states in ${*:-500 1000 1600}; do
  for shuffled in 0 1; do
    echo "$states states, $((states * 20)) rows, $([ $shuffled = 1 ] && echo shuffled || echo state by state)"
    machine "$states" "$shuffled" > "$work/a.kiss"
    (cd "$work" && measure sis "$top/out/sis" -c "read_kiss a.kiss; write_kiss b.kiss")
  done
done
