#!/usr/bin/env bash
# Simplifies circuits fully, beside ABC's `mfs`: random ones, by inputs and tables, an arithmetic
# unit of 60 inputs, and sums of products of 14 inputs as gates; whether ABC finds both circuits
# equal, and how many literals are left, in rows and in factored form.
# Usage: bench/full_simplify.sh; ABC (Debian's berkeley-abc) is left out where it is not installed.
top=$(cd "$(dirname "$(readlink -f "$0")")/.." && pwd)
. "$top/bench/common.sh"

# Tables of two to four inputs, each of some rows, over signals before them; those that nothing
# reads are outputs.
small() { # inputs tables
  python3 - "$1" "$2" <<'PY'
import random, sys
inputs, tables = int(sys.argv[1]), int(sys.argv[2])
rng = random.Random(inputs * 1000 + tables)
signals = [f"i{k}" for k in range(inputs)]
lines, read = [], set()
for k in range(tables):
    near = signals[-(inputs + 8):]
    chosen = rng.sample(near, min(len(near), rng.randrange(2, 5)))
    read |= set(chosen)
    drawn = {"".join(rng.choice("01-") for _ in chosen) for _ in range(rng.randrange(1, 4))}
    rows = {row for row in drawn if row.strip("-")} or {"1" * len(chosen)}
    lines += [f".names {' '.join(chosen)} t{k}"] + [f"{row} 1" for row in sorted(rows)]
    signals.append(f"t{k}")
outputs = [f"t{k}" for k in range(tables) if f"t{k}" not in read]
print(".model small\n.inputs " + " ".join(signals[:inputs]) + "\n.outputs " + " ".join(outputs))
print("\n".join(lines) + "\n.end")
PY
}

# A unit of 8 bits with 60 inputs, in gates of two inputs: two operands chosen of four, added, taken
# from one another or combined bit by bit, turned over, moved by a place; parity, zero, greater.
unit() {
  python3 - <<'PY'
AND, OR, XOR, tables = ["11 1"], ["1- 1", "-1 1"], ["10 1", "01 1"], []
def t(rows, *inputs):
    tables.append((inputs, rows))
    return f"t{len(tables) - 1}"
def mux(s, x, y): return t(OR, t(AND, s, x), t(["01 1"], s, y))
def tree(rows, them):
    while len(them) > 1: them = them[2:] + [t(rows, them[0], them[1])]
    return them[0]
left = [t(AND, mux("s0", f"a{k}", f"c{k}"), f"m{k}") for k in range(8)]
right = [t(XOR, mux("s1", f"b{k}", f"d{k}"), "s2") for k in range(8)]
carry, out = "s3", []
for k, (x, y) in enumerate(zip(left, right)):
    half, both = t(XOR, x, y), t(AND, x, y)
    total, carry = t(XOR, half, carry), t(OR, both, t(AND, half, carry))
    logic = mux("s6", half, mux("s5", both, t(OR, x, y)))
    out.append(t(XOR, mux("s4", total, logic), t(AND, "s7", f"p{k}")))
moved = [mux("s8", out[k - 1] if k else "s9", x) for k, x in enumerate(out)]
parity, zero, greater = tree(XOR, moved), t(["0 1"], tree(OR, moved)), "s10"
for k in range(8): greater = mux(t(XOR, left[k], f"p{k}"), left[k], greater)
outputs = moved + [t(AND, carry, "s11"), parity, zero, greater, t(XOR, parity, carry)]
inputs = [f"s{k}" for k in range(12)] + [f"{x}{k}" for k in range(8) for x in "abcdmp"]
print(".model unit\n.inputs", *inputs, "\n.outputs", *outputs)
for place, (them, rows) in enumerate(tables):
    print(".names", *them, f"t{place}"); print(*rows, sep="\n")
print(".end")
PY
}

# The unit of 4 bits of the 74181 with its carry, zero and parity, over 14 inputs: each output as an
# irredundant sum of products (S. Minato's). ABC makes some 1,600 tables of four inputs of it.
products() {
  python3 - <<'PY'
n, outs = 14, [0] * 8
for point in range(1 << n):
    bit = [point >> (n - 1 - k) & 1 for k in range(n)]
    a, b, s, m, carry = bit[:4], bit[4:8], bit[8:12], bit[12], bit[13]
    f = []
    for k in range(4):
        lo = 1 - (a[k] | b[k] & s[0] | (1 - b[k]) & s[1])
        hi = 1 - (a[k] & (1 - b[k]) & s[2] | a[k] & b[k] & s[3])
        f.append(lo ^ hi ^ (1 if m else carry))
        carry = 1 - lo if hi == 0 else 1 - hi if lo else carry & hi
    values = f + [carry, 1 - max(f), f[0] ^ f[1] ^ f[2] ^ f[3], f[3] ^ carry]
    for k, value in enumerate(values): outs[k] |= value << point
def isop(low, up, k):
    if low == 0: return [], 0
    if up == (1 << (1 << k)) - 1: return ["-" * k], up
    half = 1 << (k - 1)
    mask = (1 << half) - 1
    l0, l1, u0, u1 = low & mask, low >> half, up & mask, up >> half
    c0, f0 = isop(l0 & ~u1, u0, k - 1)
    c1, f1 = isop(l1 & ~u0, u1, k - 1)
    both, fb = isop(l0 & ~f0 | l1 & ~f1, u0 & u1, k - 1)
    rows = ["0" + c for c in c0] + ["1" + c for c in c1] + ["-" + c for c in both]
    return rows, (f0 | fb) | (f1 | fb) << half
names = [f"{x}{k}" for x in "abs" for k in range(4)] + ["m", "c"]
print(".model products\n.inputs", *names, "\n.outputs", *[f"y{k}" for k in range(8)])
for k, values in enumerate(outs):
    print(".names", *names, f"y{k}")
    for row in isop(values, values, n)[0]: print(row, 1)
print(".end")
PY
}

literals() { # file
  if command -v berkeley-abc >/dev/null; then
    (cd "$work" && berkeley-abc -q "read_blif $1; print_stats -f" | sed 's/.*nd = */  tables /')
  else
    (cd "$work" && "$top/out/sis" -c "read_blif $1; print_stats") | sed 's/.*nodes=/  tables /'
  fi
}

both() { # simplifies $work/a.blif by both programs
  (cd "$work" && measure sis timeout 120 "$top/out/sis" \
    -c "read_blif a.blif; full_simplify; write_blif b.blif")
  literals a.blif
  [ -e "$work/b.blif" ] && literals b.blif
  if command -v berkeley-abc >/dev/null && [ -e "$work/b.blif" ]; then
    (cd "$work" && measure abc berkeley-abc -c "read_blif a.blif; mfs; write_blif c.blif")
    literals c.blif
    (cd "$work" && berkeley-abc -c "cec a.blif b.blif" 2>&1) | grep -i "equivalent" | head -1
  fi
  rm -f "$work"/[bc].blif
}

for size in "8 20" "8 100" "8 400" "10 100" "10 400" "12 100" "12 400" "14 100" "16 100"; do
  read -r inputs tables <<<"$size"
  echo "$inputs inputs, $tables tables"
  small "$inputs" "$tables" > "$work/a.blif"
  both
done
echo "a unit of 60 inputs"
unit > "$work/a.blif"
both
if command -v berkeley-abc >/dev/null; then
  echo "sums of products of 14 inputs, as tables of four inputs"
  products > "$work/p.blif"
  (cd "$work" && berkeley-abc -q "read_blif p.blif; strash; if -K 4; write_blif a.blif" >/dev/null)
  both
fi
