#!/usr/bin/env bash
# Sweeps a chain and a random circuit of two-input tables, and a chain of buffers whose end many tables read, with `sis` and
# with ABC (Debian's berkeley-abc), and reports the time and the peak memory of each.
# Usage: bench/sweep.sh [TABLES ..]   (2000 and 20000 where none is named)
set -u
top=$(cd "$(dirname "$0")/.." && pwd) || exit 1
. "$top/bench/common.sh" || exit 1
sizes=("$@"); [ ${#sizes[@]} -gt 0 ] || sizes=(2000 20000)

# A chain of buffers written from its end to its start, half of the tables, and as many two-input tables that read its end.
fans() {
  awk -v tables="$1" 'BEGIN {
    n = int(tables / 2)
    printf ".model fans\n.inputs a"; for (i = 0; i < 16; i++) printf " i%d", i
    printf "\n.outputs"; for (k = 0; k < n; k++) printf " r%d", k
    printf "\n"
    for (k = n - 1; k >= 0; k--) printf ".names %s b%d\n1 1\n", (k == 0 ? "a" : "b" (k - 1)), k
    for (k = 0; k < n; k++) printf ".names b%d i%d r%d\n11 1\n", n - 1, k % 16, k
    print ".end"
  }'
}

for kind in chain random fans; do
  for tables in "${sizes[@]}"; do
    "$kind" "$tables" >"$work/a.blif"
    printf '%s of %s tables, %s bytes\n' "$kind" "$tables" "$(wc -c <"$work/a.blif")"
    compare "sweep; print_stats"
  done
done
