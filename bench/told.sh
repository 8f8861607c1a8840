# What the scripts that try failures share: the program, a folder for files, which goes with the
# script, and the judgement of each case. Read by the scripts beside it, which set $top (the
# repository) and take the program as their first word; without one it is proved and built.

program=${1:-$top/out/sis}
[ $# -gt 0 ] || "$top/bin/sis" -c quit || exit 1
program=$(readlink -f "$program") && [ -x "$program" ] || { echo "no program ${1:-}" >&2; exit 1; }
work=$(mktemp -d) || exit 1
trap 'rm -rf "$work"' EXIT
cases=0 failed=0

# Counts a case, and tells of it where something is wrong.
count() { # its name, what is wrong
  cases=$((cases + 1))
  [ -n "$2" ] || return 0
  failed=$((failed + 1))
  printf 'FAILED  %s: %s\n' "$1" "$2"
}

# Compares the status of a call, and the files `err` and `out` that hold its outputs.
compare() { # the status, the one wanted, the line wanted on the error output, the output wanted
  [ "$1" = "$2" ] || printf 'status %s, not %s; ' "$1" "$2"
  [ "$(cat err; echo .)" = "${3:+$3$'\n'}." ] || printf 'told "%s", not "%s"; ' "$(<err)" "$3"
  [ "$(cat out; echo .)" = "$4." ] || printf 'output of %s bytes, not %s; ' "$(wc -c <out)" "${#4}"
}

# The last line, and the status of the script.
ended() {
  echo "$cases cases, $failed failed"
  [ "$failed" = 0 ]
}
