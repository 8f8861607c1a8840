#!/usr/bin/env bash
# Tells which parts of a crate take longest to check: bench/check_times.sh NAME [COUNT], in seconds, the longest first.
#
# A check keeps each module that it has gone through in a file of out/incremental. With one job it goes through them one by one, so here stands how
# long each file was written behind the one before. Of a function F there are F.Lts (its steps, with all that it lets go at each way out),
# F.Tie and F.Proof (its proof), and others; the other names are those of files of specs/ and proofs/. What an earlier check kept goes first, so
# that the whole crate is checked; the libraries below it should stand.
set -euo pipefail

[ $# -ge 1 ] || { echo "check_times: name a crate" >&2; exit 2; }
top=$(readlink -f "${BASH_SOURCE[0]}") && top=${top%/bench/*}
cd "$top/crates/$1"
rm -rf out/incremental
rt check --jobs 1 >/dev/null 2>&1 || echo "check_times: rt check does not prove $1: what it went through stands below" >&2
find out/incremental -type f -printf '%T@ %f\n' | LC_ALL=C sort -n | awk -v crate="$1" '
  { if (NR > 1) { sub(/\.oantt$/, "", $2); sub(/\.decls$/, "", $2); sub("^Rattle-" crate "-(proofs|specs)\\.", "", $2); printf "%.1f %s\n", $1 - before, $2 }; before = $1 }
' | sort -rn | awk -v most="${2:-20}" 'NR <= most'
