#!/usr/bin/env bash
# Extracts, resubstitutes and decomposes with `sis`, and reports the time and the peak memory beside `sweep` on the same file: random circuits
# of two-input tables, as they are and after `eliminate`, tables of random rows, pairs of tables of which one divides the other, and blocks of
# tables that share a sum or a product. `fx` stands beside ABC's `fx` (Debian's berkeley-abc), which
# looks at two-cube and two-literal divisors as well, with weights of its own; ABC has no command like the others: `st`, by which it makes a graph
# of two-input nodes of the same file, stands beside them, told as what it is.
# Usage: bench/extract.sh [TABLES ..]   (2000 and 20000 where none is named)
set -u
top=$(cd "$(dirname "$0")/.." && pwd) || exit 1
. "$top/bench/common.sh" || exit 1
sizes=("$@"); [ ${#sizes[@]} -gt 0 ] || sizes=(2000 20000)

each() { # what is measured, and the commands
  echo "$1"; shift
  for command in "$@"; do
    echo " $command"
    case $command in
      sweep | fx) compare "$command" "$command" ;;
      *) compare "$command" "st" ;;
    esac
  done
}

after() { # commands that change the file before anything is measured
  (cd "$work" && "$top/out/sis" -c "read_blif a.blif; $1; write_blif made.blif" && mv made.blif a.blif)
}

rows() { # inputs, rows, and of a hundred places how many are literals
  python3 - "$1" "$2" "$3" <<'PY'
import sys
width, count, literals, x = int(sys.argv[1]), int(sys.argv[2]), int(sys.argv[3]), 1
def pick(m):
    global x
    x = (x * 6364136223846793005 + 1442695040888963407) % 2**64
    return (x >> 33) % m
inputs = " ".join(f"i{k}" for k in range(width))
print(f".model one\n.inputs {inputs}\n.outputs y\n.names {inputs} y")
for _ in range(count): print("".join("01"[pick(2)] if pick(100) < literals else "-" for _ in range(width)), 1)
print(".end")
PY
}

pairs() { # how many pairs; one table of each divides the other, which reads two inputs more: its own, or the same for all ("common")
  awk -v pairs="$1" -v common="${2:-}" 'BEGIN {
    printf ".model pairs\n.inputs"
    for (i = 0; i < pairs; i++) { printf " a%d b%d", i, i; if (!common || i == 0) printf " c%d d%d", i, i }
    printf "\n.outputs"; for (i = 0; i < pairs; i++) printf " g%d f%d", i, i
    printf "\n"
    for (i = 0; i < pairs; i++) {
      k = common ? 0 : i
      printf ".names a%d b%d g%d\n1- 1\n-1 1\n.names a%d b%d c%d d%d f%d\n1-11 1\n-111 1\n", i, i, i, i, i, k, k, i
    }
    print ".end"
  }'
}

# How many blocks of two tables, and what both have: a sum of two inputs ("sum", or "twice" beside one more table that has a row twice), or a
# product of two ("own"), of which all tables read one ("common").
blocks() {
  awk -v blocks="$1" -v kind="$2" 'BEGIN {
    printf ".model blocks\n.inputs a"
    for (i = 0; i < blocks; i++) printf " a%d b%d c%d d%d e%d", i, i, i, i, i
    printf "\n.outputs"; for (i = 0; i < blocks; i++) printf " f%d g%d", i, i
    if (kind == "twice") printf " h"
    printf "\n"
    for (i = 0; i < blocks; i++) {
      first = kind == "common" ? "a" : "a" i
      if (kind == "common" || kind == "own") printf ".names %s b%d c%d d%d f%d\n111- 1\n11-1 1\n.names %s b%d e%d g%d\n111 1\n", first, i, i, i, i, first, i, i, i
      else printf ".names a%d b%d c%d d%d f%d\n1-1- 1\n-11- 1\n1--1 1\n-1-1 1\n.names a%d b%d e%d g%d\n1-1 1\n-11 1\n", i, i, i, i, i, i, i, i, i
    }
    if (kind == "twice") print ".names a a0 h\n11 1\n11 1"
    print ".end"
  }'
}

for tables in "${sizes[@]}"; do
  random "$tables" >"$work/a.blif"
  each "random circuit of $tables tables" sweep fx gkx gcx resub decomp tech_decomp
  after "eliminate 4"
  each "the same after eliminate 4" sweep fx gkx gcx resub decomp tech_decomp
done

random 3000 >"$work/a.blif"
after "eliminate 2"
each "random circuit of 3000 tables after eliminate 2" sweep fx gkx gcx

for literals in 25 50 67; do
  rows 40 200 "$literals" >"$work/a.blif"
  each "a table of 40 inputs and 200 random rows, of whose places $literals in a hundred are literals" sweep fx
done

rows 20 400 67 >"$work/a.blif"
each "a table of 20 inputs and 400 random rows" sweep decomp tech_decomp

for count in "${sizes[@]}"; do
  pairs "$count" >"$work/a.blif"
  each "$count pairs of tables, of which one divides the other" sweep resub
done
pairs 2000 common >"$work/a.blif"
each "2000 such pairs that read two common inputs besides" sweep resub

for count in 500 1000 2000; do
  blocks "$count" sum >"$work/a.blif"
  each "$count blocks of two tables that share a sum of two inputs" sweep fx gkx gcx resub decomp tech_decomp
  blocks "$count" twice >"$work/a.blif"
  each "the same beside a table with a row twice" fx
  blocks "$count" own >"$work/a.blif"
  each "$count blocks of two tables that share a product of two inputs" sweep fx gkx gcx
  blocks "$count" common >"$work/a.blif"
  each "$count blocks of two tables that share a product of two inputs, one of which all tables read" sweep fx gkx gcx resub decomp tech_decomp
done
