#!/usr/bin/env bash
# Kernels, tautologies and Shannon lists of covers that are dear to any plain method: the product of N sums of two literals, as its
# 2^N rows (2^N - 1 kernels of 3^N rows in all); a chain of implications (a tautology whose width is its number of rows); the
# pigeonhole table of N holes (a tautology, whose list is one row). Reports the processor time and the peak memory of the calls
# `kernels`, `is_tautology` and `on_list`, which the trial program of library calls makes.
# Usage: bench/covers.sh [PROGRAM]   (crates/library_trials/out/library_trials where none is named; `cd crates/library_trials && rt run
# < /dev/null` proves and builds it)
set -u
top=$(cd "$(dirname "$0")/.." && pwd) || exit 1
program=${1:-$top/crates/library_trials/out/library_trials}
[ -x "$program" ] || { echo "covers.sh: no program $program" >&2; exit 1; }
work=$(mktemp -d) || exit 1
trap 'rm -rf "$work"' EXIT

cases() {
  python3 - "$work" <<'PY'
import itertools, sys
work = sys.argv[1]
def put(name, call, rows, rest=""):
    text = f"{call} {len(rows[0])}:" + "".join(row + "/" for row in rows) + rest + "\n==\n"
    open(f"{work}/{name}", "w").write(text)
def row(width, literals):
    places = ["-"] * width
    for place, bit in literals: places[place] = bit
    return "".join(places)
for n in (10, 11, 12, 13, 14):
    rows = [row(2 * n, [(2 * k + b, "1") for k, b in enumerate(pick)]) for pick in itertools.product((0, 1), repeat=n)]
    put(f"kernels of {n} sums", "kernels", rows)
for n in (250, 500, 1000):
    rows = [row(n, [(0, "0")])] + [row(n, [(k, "1"), (k + 1, "0")]) for k in range(n - 1)] + [row(n, [(n - 1, "1")])]
    put(f"tautology of a chain of {n:4}", "is_tautology", rows)
for n in (5, 6, 7):
    width = n * (n + 1)
    rows = [row(width, [(p * n + h, "0") for h in range(n)]) for p in range(n + 1)]
    rows += [row(width, [(p * n + h, "1"), (q * n + h, "1")]) for h in range(n) for p in range(n + 1) for q in range(p)]
    put(f"tautology of {n} holes", "is_tautology", rows)
    put(f"list of {n} holes", "on_list", rows, " true 32767")
PY
}

cases
for file in "$work"/*; do
  python3 - "$program" "$file" <<'PY'
import os, resource, subprocess, sys
program, file = sys.argv[1:]
answer = subprocess.run([program], stdin=open(file), stdout=subprocess.PIPE).stdout
used = resource.getrusage(resource.RUSAGE_CHILDREN)
told = answer.decode().split("\n", 1)[1].strip() # behind the line of the case
short = told if len(told) < 40 else f"{len(told)} characters"
print(f"{os.path.basename(file):30} {used.ru_utime:.2f} s, peak {used.ru_maxrss} kB: {short}")
PY
done
