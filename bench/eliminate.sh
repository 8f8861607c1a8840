#!/usr/bin/env bash
# Eliminates and collapses with `sis` and with ABC (Debian's berkeley-abc), and reports the time and the peak memory of each: a
# random circuit of two-input tables and a chain of as many under `eliminate` with the thresholds 0, 4 and -1, beside `sweep`; and a
# circuit of 16 inputs and 300 tables under `collapse`.
# Usage: bench/eliminate.sh [TABLES ..]   (2000 and 20000 where none is named)
set -u
top=$(cd "$(dirname "$0")/.." && pwd) || exit 1
. "$top/bench/common.sh" || exit 1
sizes=("$@"); [ ${#sizes[@]} -gt 0 ] || sizes=(2000 20000)

for kind in chain random; do
  for tables in "${sizes[@]}"; do
    "$kind" "$tables" >"$work/a.blif"
    printf '%s of %s tables, %s bytes\n' "$kind" "$tables" "$(wc -c <"$work/a.blif")"
    for commands in sweep "eliminate 0" "eliminate 4" "eliminate -1"; do
      echo " $commands"
      case $commands in
        sweep) compare "sweep" ;;
        *) compare "$commands" "logic; eliminate -V ${commands#eliminate }" ;;
      esac
    done
  done
done

# A circuit of 16 inputs: each table reads one of the latest sixteen signals and one input.
narrow() {
  awk -v tables="$1" 'BEGIN {
    x = 11
    printf ".model narrow\n.inputs"; for (i = 0; i < 16; i++) printf " s%d", i
    printf "\n.outputs"; for (k = tables + 8; k < tables + 16; k++) printf " s%d", k
    printf "\n"
    for (k = 16; k < tables + 16; k++) {
      x = (x * 69069 + 12345) % 4294967296; a = k - 1 - int(x / 65536) % 16
      x = (x * 69069 + 12345) % 4294967296; b = int(x / 65536) % 16
      if (b == a) b = (b + 1) % 16
      x = (x * 69069 + 12345) % 4294967296; r = int(x / 65536) % 4
      printf ".names s%d s%d s%d\n%s\n", a, b, k, (r == 0 ? "11 1" : r == 1 ? "11 0" : r == 2 ? "1- 1\n-1 1" : "01 1")
    }
    print ".end"
  }'
}

narrow 300 >"$work/a.blif"
echo "16 inputs, 300 tables"
echo " collapse"
compare collapse
