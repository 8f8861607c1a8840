#!/usr/bin/env bash
# Functions of all signals of a circuit in one table of decision nodes, beside the C library BuDDy
# (Debian's libbdd-dev) on the same file, variables and operations: processor time, nodes that were
# made by the second, and bytes a node, by the peak of memory over that of an empty circuit.
# Usage: bench/functions.sh [PROGRAM]   (crates/library_trials/out/library_trials where none is
# named; `cd crates/library_trials && rt run < /dev/null` proves and builds it)
set -u
top=$(cd "$(dirname "$(readlink -f "$0")")/.." && pwd)
program=${1:-$top/crates/library_trials/out/library_trials}
[ -x "$program" ] || { echo "functions.sh: no program $program" >&2; exit 1; }
work=$(mktemp -d) || exit 1
trap 'rm -rf "$work"' EXIT

circuits() {
  python3 - "$work" <<'PY'
import sys
work = sys.argv[1]
AND, OR, XOR, NAND = ["11 1"], ["1- 1", "-1 1"], ["10 1", "01 1"], ["11 0"]
class Circuit:
    def __init__(self, name, inputs):
        self.name, self.inputs, self.tables = name, inputs, []
    def table(self, inputs, rows):
        self.tables.append((inputs, rows))
        return f"t{len(self.tables) - 1}"
    def full(self, a, b, c):
        half = self.table([a, b], XOR)
        carry = self.table([self.table([a, b], AND), self.table([half, c], AND)], OR)
        return self.table([half, c], XOR), carry
    def put(self):
        last = f".outputs t{len(self.tables) - 1}"
        lines = [".model m", ".inputs " + " ".join(self.inputs), last]
        for place, (inputs, rows) in enumerate(self.tables):
            lines += [f".names {' '.join(inputs)} t{place}"] + rows
        open(f"{work}/{self.name}.blif", "w").write("\n".join(lines + [".end"]) + "\n")
def chain(name, inputs, taken, rows):
    it, last = Circuit(name, inputs), taken[0]
    for one in taken[1:]: last = it.table([last, one], rows)
    it.put()
def adder(name, bits, inputs):
    it = Circuit(name, inputs)
    carry = it.table(["a0", "b0"], AND)
    for k in range(1, bits): _, carry = it.full(f"a{k}", f"b{k}", carry)
    it.put()
def multiplier(bits):
    it = Circuit(f"multiplier of {bits} bits", [f"{x}{k}" for k in range(bits) for x in "ab"])
    row = [it.table([f"a{k}", "b0"], AND) for k in range(bits)]
    for j in range(1, bits):
        more = [it.table([f"a{k}", f"b{j}"], AND) for k in range(bits)]
        upper, carry, made = row[1:], None, []
        for k in range(bits):
            above = upper[k] if k < len(upper) else None
            terms = [x for x in (above, more[k], carry) if x]
            if len(terms) == 3: total, carry = it.full(*terms)
            elif len(terms) == 2:
                total, carry = it.table(terms, XOR), it.table(terms, AND)
            else: total, carry = terms[0], None
            made.append(total)
        row = made + ([carry] if carry else [])
    it.put()
def queens(n):
    cells = [(r, c) for r in range(n) for c in range(n)]
    it = Circuit(f"{n} queens", [f"q{r}_{c}" for r, c in cells])
    last = None
    def also(one):
        nonlocal last
        last = one if last is None else it.table([last, one], AND)
    for r in range(n):
        also(it.table([f"q{r}_{c}" for c in range(n)],
            ["-" * c + "1" + "-" * (n - c - 1) + " 1" for c in range(n)]))
    for a in cells:
        for b in cells:
            if a < b and (a[0] == b[0] or a[1] == b[1] or abs(a[0] - b[0]) == abs(a[1] - b[1])):
                also(it.table([f"q{a[0]}_{a[1]}", f"q{b[0]}_{b[1]}"], NAND))
    it.put()
many = [f"x{k}" for k in range(1000)]
for word, rows in (("xor", XOR), ("and", AND)):
    chain(f"{word} of 1000, the next at the bottom", many, many, rows)
    chain(f"{word} of 1000, the next at the top", many[::-1], many, rows)
pairs = lambda bits: [f"{x}{k}" for k in range(bits) for x in "ab"]
apart = lambda bits: [f"{x}{k}" for x in "ab" for k in range(bits)]
adder("adder of 64 bits, good order", 64, pairs(64))
adder("adder of 16 bits, bad order", 16, apart(16))
adder("adder of 64 bits, bad order", 64, apart(64))
multiplier(8)
queens(6)
chain("nothing", ["a", "b"], ["a", "b"], AND)
PY
}

# The same with BuDDy: each table is the sum of its rows, each row the product of its literals.
cat > "$work/beside.c" <<'C'
#include <bdd.h>
#include <stdio.h>
#include <stdlib.h>
#include <string.h>
static char *names[200000]; static BDD made[200000]; static int count;
static int find(const char *name) {
  for (int k = count - 1; k >= 0; k--) if (!strcmp(names[k], name)) return k;
  return -1;
}
static void put(const char *name, BDD f) {
  names[count] = strdup(name); made[count++] = bdd_addref(f);
}
int main(int argc, char **argv) {
  static char line[1 << 20]; FILE *file = fopen(argv[1], "r"); (void)argc;
  bdd_init(1 << 20, 1 << 18); bdd_setmaxincrease(1 << 22); bdd_gbc_hook(NULL);
  BDD last = bddfalse; int inputs[64], width = 0, phase = 1; char *output = NULL;
  while (fgets(line, sizeof line, file)) {
    char *word = strtok(line, " \n");
    if (!word) continue;
    if (word[0] == '.') {
      if (output) { put(output, phase ? last : bdd_not(last)); output = NULL; }
      if (!strcmp(word, ".inputs")) {
        char *all[4096]; int n = 0;
        while ((word = strtok(NULL, " \n"))) all[n++] = word;
        bdd_setvarnum(n);
        for (int k = 0; k < n; k++) put(all[k], bdd_ithvar(k));
      } else if (!strcmp(word, ".names")) {
        char *all[64]; int n = 0;
        while ((word = strtok(NULL, " \n"))) all[n++] = word;
        for (width = 0; width < n - 1; width++) inputs[width] = find(all[width]);
        output = strdup(all[n - 1]); last = bddfalse; phase = 1;
      }
    } else {
      char *value = strtok(NULL, " \n"); BDD row = bddtrue;
      phase = value[0] == '1';
      for (int k = 0; k < width; k++) {
        if (word[k] == '1') row = bdd_addref(bdd_and(row, made[inputs[k]]));
        if (word[k] == '0') row = bdd_addref(bdd_and(row, bdd_not(made[inputs[k]])));
      }
      last = bdd_addref(bdd_or(last, row));
    }
  }
  bddStat all; bdd_stats(&all);
  printf("%ld %d\n", (long)all.produced, bdd_nodecount(made[count - 1]));
  return 0;
}
C
beside=
if cc -O2 -o "$work/beside" "$work/beside.c" -lbdd 2>"$work/said"; then beside=$work/beside
else echo "  BuDDy is not installed (Debian's libbdd-dev): left out"; fi

circuits
for file in "$work"/*.blif; do
  python3 - "$program" "$file" "$beside" "$work" <<'PY'
import os, subprocess, sys
program, file, beside, work = sys.argv[1:]
def run(words, given=None):
    timed = ["timeout", "120", "time", "-q", "-f", "%U %S %M", "-o", work + "/time", *words]
    given = open(given) if given else subprocess.DEVNULL
    said = subprocess.run(timed, stdin=given, stdout=subprocess.PIPE).stdout.decode()
    user, system, peak = open(work + "/time").read().split()[-3:]
    return said.strip(), float(user) + float(system), int(peak)
def case(blif):
    lines = "".join(line + "\\n\n" for line in open(blif).read().split("\n")[:-1])
    open(work + "/case", "w").write("signals shared 1048575\n" + lines + "==\n")
    return run([program], work + "/case")
_, _, least = case(work + "/nothing.blif")
name = os.path.basename(file)[:-5]
if name != "nothing":
    said, used, peak = case(file)
    size = said.split("\n")[-1]
    line = f"{name:36} sis {used:.2f} s, peak {peak} kB, {size[:40]}"
    if beside and "TooBig" not in size:
        told, theirs, their_peak = run([beside, file])
        made, count = map(int, told.split())
        line += f"; BuDDy {theirs:.2f} s, {their_peak} kB, {count}; {made} nodes made"
        if used > 0.05:
            line += f": {made / used / 1e6:.1f} million a second"
            line += f", {(peak - least) * 1024 / made:.0f} bytes each"
    print(line)
PY
done
