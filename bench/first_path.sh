#!/usr/bin/env bash
# Reads, prints and writes a circuit of two-input tables with `sis` and with ABC (Debian's
# berkeley-abc), and reports the time and the peak memory of each.
# Usage: bench/first_path.sh [TABLES ..]   (20000 and 65000 where none is named)
set -u
top=$(cd "$(dirname "$0")/.." && pwd) || exit 1
. "$top/bench/common.sh" || exit 1
sizes=("$@"); [ ${#sizes[@]} -gt 0 ] || sizes=(20000 65000)

# A circuit of that many tables: each reads two of the signals before it, by a fixed random rule.
make() {
  awk -v tables="$1" '
  function draw() { x = (x * 69069 + 12345) % 4294967296; return int(x / 65536) }
  function pick(k) { return (draw() * 65536 + draw()) % (inputs + k) }
  function name(s) { return s < inputs ? "i" s : "t" (s - inputs) }
  BEGIN {
    x = 7; inputs = 16
    printf ".model random\n.inputs"; for (i = 0; i < inputs; i++) printf " i%d", i
    printf "\n.outputs"; for (i = tables - 8; i < tables; i++) printf " t%d", i; printf "\n"
    for (k = 0; k < tables; k++) {
      a = pick(k); b = pick(k); if (b == a) b = (a + 1) % (inputs + k)
      printf ".names %s %s t%d\n", name(a), name(b), k
      r = draw() % 4
      if (r == 0) print "11 1"; else if (r == 1) print "11 0"; else if (r == 2) print "1- 1\n-1 1"; else print "10 1\n01 1"
    }
    print ".end"
  }'
}

for tables in "${sizes[@]}"; do
  make "$tables" >"$work/a.blif"
  printf '%s tables, %s bytes\n' "$tables" "$(wc -c <"$work/a.blif")"
  compare print_stats
done
