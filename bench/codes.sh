#!/usr/bin/env bash
# Codes the states of machines, by their numbers and one hot: how long it takes, and whether ABC
# finds both circuits equal.
# Usage: bench/codes.sh; ABC (Debian's berkeley-abc) is left out where it is not installed.
top=$(cd "$(dirname "$(readlink -f "$0")")/.." && pwd)
. "$top/bench/common.sh"

# A machine of 20 rows a state over 10 inputs and 8 outputs; the input cubes of a state part its
# points.
large() { # states
  python3 - "$1" <<'PY'
import random, sys
states, rng = int(sys.argv[1]), random.Random(7)
cubes = [f"{k:04b}------" for k in range(12)] + [f"{k:05b}-----" for k in range(24, 32)]
print(".i 10\n.o 8\n.r s0")
for state in range(states):
    for cube in cubes: print(f"{cube} s{state} s{rng.randrange(states)} {rng.randrange(256):08b}")
print(".e")
PY
}

# Completely specified machines: a counter with an enable, a finder of a sequence of bits, a
# traffic light with a timer and a sensor.
small() { # name
  python3 - "$1" <<'PY'
import sys
name = sys.argv[1]
rows, inputs, outputs = [], 1, 1
if name.startswith("counter"):
    states = int(name[7:])
    for k in range(states):
        rows += [f"0 c{k} c{k} 0", f"1 c{k} c{(k + 1) % states} {int(k + 1 == states)}"]
elif name.startswith("finder"):
    word = name[6:]
    for k in range(len(word)):
        for bit in "01":
            seen = word[:k] + bit
            most = min(len(seen), len(word) - (seen == word))
            longest = next(n for n in range(most, -1, -1) if seen.endswith(word[:n]))
            rows.append(f"{bit} f{k} f{longest} {int(seen == word)}")
else:
    inputs, outputs = 2, 4  # a car waits, the timer is over; green, yellow of either road
    for state, wait, stay, go, lights in (("main", "1-", "0-", "main_end", "1000"),
                                          ("main_end", "-1", "-0", "side", "0100"),
                                          ("side", "-1", "-0", "side_end", "0010"),
                                          ("side_end", "-1", "-0", "main", "0001")):
        rows += [f"{stay} {state} {state} {lights}", f"{wait} {state} {go} {lights}"]
print(f".i {inputs}\n.o {outputs}\n" + "\n".join(rows) + "\n.e")
PY
}

for size in "1000 natural" "200 onehot"; do
  read -r states style <<<"$size"
  echo "$states states, $((states * 20)) rows, $style"
  large "$states" > "$work/a.kiss"
  (cd "$work" && measure sis "$top/out/sis" -c "read_kiss a.kiss; state_assign $style; print_stats")
  (cd "$work" && measure read "$top/out/sis" -c "read_kiss a.kiss")
done

if ! command -v berkeley-abc >/dev/null; then
  echo "ABC is not installed (Debian's berkeley-abc): no circuits are compared"
  exit
fi
for name in counter5 counter8 finder1011 finder110100 light; do
  small "$name" > "$work/a.kiss"
  (cd "$work" && "$top/out/sis" -c "read_kiss a.kiss; state_assign; write_blif n.blif
    state_assign onehot; write_blif h.blif" >/dev/null) || exit 1
  printf '%-14s' "$name"
  (cd "$work" && berkeley-abc -c "dsec n.blif h.blif" 2>&1) |
    grep -i "equivalent\|undecided" | head -1
done
