#!/usr/bin/env bash
# Covers of random circuits by the gates of two libraries: (a) 20 gates of up to four literals, (b) the products and sums of up to
# six literals, each as it is and complemented, and an inverter. The trial program of library calls reads, makes the forest and covers it;
# reported are the processor time and the peak memory of each part, the heap that the forest and its covers take, and what Debian's
# berkeley-abc takes for `map -a` (which maps the shared graph and not its trees) in the same run, where it is installed.
# Usage: bench/cover.sh [PROGRAM [TABLES ..]]   (crates/library_trials/out/library_trials where none is named, which `cd crates/library_trials
# && rt run` proves and builds; without numbers 3400 and 20000 tables)
set -u
top=$(cd "$(dirname "$(readlink -f "$0")")/.." && pwd) || exit 1
. "$top/bench/common.sh"
program=${1:-$top/crates/library_trials/out/library_trials}
[ -x "$program" ] || { echo "cover.sh: no program $program" >&2; exit 1; }
[ $# -gt 0 ] && shift

libraries() {
  python3 - "$work" <<'PY'
import sys
work = sys.argv[1]
def put(name, gates):
    pin = "PIN * INV 1 999 1 0 1 0"
    lines = [f"GATE {cell} {area} O={text}; {pin}" for cell, area, text in gates] + ["GATE one 0 O=CONST1;", "GATE zero 0 O=CONST0;"]
    open(f"{work}/{name}.genlib", "w").write("\n".join(lines) + "\n")
def joined(sign, count): return sign.join("abcdef"[:count])
def family(most):
    made = [("inv", 1, "!a")]
    for n in range(2, most + 1):
        made += [(f"nand{n}", n, f"!({joined('*', n)})"), (f"nor{n}", n, f"!({joined('+', n)})"),
                 (f"and{n}", n + 1, joined("*", n)), (f"or{n}", n + 1, joined("+", n))]
    return made
put("a", family(4) + [("buf", 2, "a"), ("aoi21", 3, "!(a*b+c)"), ("oai21", 3, "!((a+b)*c)"), ("aoi22", 4, "!(a*b+c*d)"),
    ("oai22", 4, "!((a+b)*(c+d))"), ("xor", 5, "a*!b+!a*b"), ("xnor", 5, "a*b+!a*!b")])
put("b", family(6))
PY
}

# Reads both files, makes the patterns and the forest, and covers; the parts of it alone are measured beside it, so that what
# covering takes is what is left. The least of three runs counts.
cover() { # the library
  python3 - "$program" "$work" "$1" <<'PY'
import os, subprocess, sys
program, work, name = sys.argv[1:]
def escaped(file): return open(f"{work}/{file}").read().replace("\\", "\\\\").replace("\n", "\\n") + "\n"
library, circuit = escaped(f"{name}.genlib"), escaped("a.blif")
def run(text):
    open(f"{work}/case", "w").write(text)
    best = None
    for turn in range(3):
        timed = ["time", "-q", "-f", "%M", "-o", f"{work}/time", program]
        child = subprocess.Popen(timed, stdin=open(f"{work}/case"), stdout=subprocess.PIPE)
        answer = child.stdout.read().decode()
        _, _, used = os.wait4(child.pid, 0)
        taken, peak = used.ru_utime + used.ru_stime, open(f"{work}/time").read()
        if best is None or taken < best[0]: best = (taken, int(peak), answer.split("\n")[1:])
    return best
patterns = run(f"patterns\n{library}==\n")
forest = run(f"vertices\n{circuit}==\n")
whole = run(f"totals\n{library}and\n{circuit}==\n")
vertices = int(forest[2][0])
count = sum(int(line.split()[1]) for line in patterns[2] if line.split() and line.split()[-1].isdigit())
covering = whole[0] - patterns[0] - forest[0]
print(f"  sis  {whole[0]:.3f} s in all: patterns {patterns[0]:.3f} ({count}), forest {forest[0]:.3f} ({vertices} vertices), covering {covering:.3f}")
print(f"       peak {whole[1]} kB: patterns {patterns[1]}, forest {forest[1]}; beside the library {(whole[1] - patterns[1]) * 1024 // vertices} bytes a vertex,"
      f" beside the forest {(whole[1] - forest[1]) * 1024 // vertices}")
print(f"       {whole[2][0]}")
PY
}

# What the heap comes to behind the circuit that was read: how far it rises again once reading, which takes most, is over. That is the
# memory of the forest, of its covers and of the library's patterns, which are made then. What the library takes is the most that the heap
# holds of it beside a circuit of one table; the rest is told for each vertex. By valgrind's massif, where it is installed.
heap() { # the library
  if ! command -v valgrind >/dev/null; then
    echo "       heap not told: valgrind is not installed"
    return
  fi
  python3 - "$program" "$work" "$1" <<'PY'
import re, subprocess, sys
program, work, name = sys.argv[1:]
def escaped(text): return text.replace("\\", "\\\\").replace("\n", "\\n") + "\n"
circuit, library = escaped(open(f"{work}/a.blif").read()), escaped(open(f"{work}/{name}.genlib").read())
one = escaped(".model one\n.inputs a b\n.outputs y\n.names a b y\n11 1\n.end\n")
def run(text, tool):
    open(f"{work}/case", "w").write(text)
    return subprocess.run(tool + [program], stdin=open(f"{work}/case"), capture_output=True, text=True).stdout
def held(circuit): # the heap from step to step
    massif = ["valgrind", "-q", "--tool=massif", "--max-snapshots=1000", "--detailed-freq=1000", f"--massif-out-file={work}/massif"]
    run(f"totals\n{library}and\n{circuit}==\n", massif)
    return [int(a) + int(b) for a, b in re.findall(r"mem_heap_B=(\d+)\nmem_heap_extra_B=(\d+)", open(f"{work}/massif").read())]
vertices = int(run(f"vertices\n{circuit}==\n", []).split("\n")[1])
patterns, steps = max(held(one)), held(circuit)
most = steps.index(max(steps))
least, rise, stands = steps[most], 0, 0
for bytes in steps[most:]:
    least = min(least, bytes)
    if bytes - least > rise: rise, stands = bytes - least, least
print(f"       heap, bytes a vertex: at most {steps[most] // vertices}, the circuit {stands // vertices}, the forest and its covers"
      f" {(rise - patterns) // vertices}; the library {patterns // 1000} kB")
PY
}

# The same library and circuit in ABC: to the graph that is mapped, and mapped for area.
abc() { # the library
  if ! command -v berkeley-abc >/dev/null; then
    echo "  abc  not installed (Debian's berkeley-abc): left out"
    return
  fi
  python3 - "$work" "$1" <<'PY'
import os, re, subprocess, sys
work, name = sys.argv[1:]
def run(more):
    command = f"read_genlib {name}.genlib; read_blif a.blif; strash{more}"
    child = subprocess.Popen(["berkeley-abc", "-c", command], cwd=work, stdout=subprocess.PIPE, stderr=subprocess.DEVNULL)
    answer = child.stdout.read().decode()
    _, _, used = os.wait4(child.pid, 0)
    return used.ru_utime + used.ru_stime, used.ru_maxrss, answer
before, mapped = run(""), run("; map -a; print_stats")
area = re.findall(r"area = *([0-9.]+)", mapped[2])
print(f"  abc  {mapped[0]:.3f} s in all, mapping {mapped[0] - before[0]:.3f}; peak {mapped[1]} kB; area {area[-1] if area else 'not told'}")
PY
}

libraries
for tables in ${*:-3400 20000}; do
  living "$tables" > "$work/a.blif"
  for name in a b; do
    echo "$tables random tables, library $name"
    cover "$name"
    heap "$name"
    abc "$name"
  done
done
