#!/usr/bin/env bash
# Refuses memory. First each growth in turn in short scripts, and some with all later ones; then all
# growth past a limit (ulimit -v), in a script on a circuit of 20,000 tables. A run must end with
# status 4 and with what the commands before wrote, on the output and in files, or as with ample
# memory. The line on the error output, which may be missing, names the command.
# Usage: bench/no_memory.sh [PROGRAM]   (some minutes; the first part wants a C compiler, cc)
set -u
top=$(cd "$(dirname "$(readlink -f "$0")")/.." && pwd) || exit 1
. "$top/bench/told.sh" || exit 1
cd "$work" || exit 1

# The allocator of the C library, which refuses call REFUSED, and all from there on where ON is set.
# It leaves the number of calls in the file on descriptor 9.
cat >refuse.c <<'C'
#include <errno.h>
#include <stdio.h>
#include <stdlib.h>
void *__libc_malloc(size_t), *__libc_realloc(void *, size_t);
static long calls, first;
static int on;
__attribute__((constructor)) static void begin(void) {
  calls = 0, first = atol(getenv("REFUSED")), on = getenv("ON") != NULL;
}
__attribute__((destructor)) static void end(void) { dprintf(9, "%ld\n", calls); }
static int refused(void) {
  calls++;
  return first && (calls == first || (on && calls > first)) && (errno = ENOMEM);
}
void *malloc(size_t size) { return refused() ? NULL : __libc_malloc(size); }
void *realloc(void *old, size_t size) { return refused() ? NULL : __libc_realloc(old, size); }
C

# Runs the script `script`, of one command a line, in the folder `now`, a copy of `files`; there the
# output goes to the file `out`.
words=(-k -f ../script)
run() { # a command that runs the program with the words behind it
  rm -rf now && cp -r files now
  (cd now && "$@" "${words[@]}") <script >now/out 2>err 9>calls
}

# Keeps what the first commands write with ample memory: `after/K` is the folder after K of them.
keep() { # the commands, one a line
  rm -rf after && mkdir after
  last=$(wc -l <<<"$1")
  for ((k = 0; k <= last; k++)); do
    head -n "$k" <<<"$1" >script
    run "$program" && [ ! -s err ] || { echo "the script fails: $(<err)" >&2; exit 1; }
    mv now "after/$k"
  done
}

# Judges the run before: sets $wrong to what is wrong, and $way to how the run ended.
judge() { # its status
  local said k
  wrong=''
  IFS= read -rd '' said <err
  if [ "$1" = 0 ] && [ -z "$said" ]; then
    way=ample
    diff -r now "after/$last" >/dev/null || wrong="it is not as with ample memory"
  elif [ "$1" = 4 ] && [ -z "$said" ]; then
    way=silent
    for k in after/*; do ! diff -r now "$k" >/dev/null || return; done
    wrong="what is written is not that of whole commands"
  elif [ "$1" = 4 ] && [[ $said =~ ^'sis: line '([0-9]+)$': no memory\n'$ ]]; then
    way=told k=${BASH_REMATCH[1]}
    k=$((k > 0 ? k - 1 : 0))
    diff -r now "after/$k" >/dev/null || wrong="what is written is not that of $k commands"
  else
    way=other wrong="status $1, told $said"
  fi
}

# Counts how the runs before ended.
reset_ways() { declare -gA ways=([told]=0 [silent]=0 [ample]=0 [other]=0); }
ways_told() {
  echo "status 4 with its line ${ways[told]}, without ${ways[silent]}, as with ample memory" \
    "${ways[ample]}"
}

# Refuses each growth of a script in turn.
each() { # the script's name, its commands, one a line
  local growths n step=1
  keep "$2"
  REFUSED=0 run env LD_PRELOAD="$work/refuse.so" "$program"
  growths=$(<calls)
  echo "$1: $growths growths"
  for on in "" ON=1; do
    reset_ways
    [ -z "$on" ] || step=$((growths / 50 + 1))
    for ((n = 1; n <= growths; n += step)); do
      REFUSED=$n run env $on LD_PRELOAD="$work/refuse.so" "$program"
      judge $?
      ways[$way]=$((ways[$way] + 1))
      count "$1, growth $n${on:+ and all later ones}" "$wrong"
    done
    echo "  ${on:+with all later ones, by steps of $step: }$(ways_told)"
  done
}

# Runs a script under limits on the program's size, from the least under which the program is loaded
# up to one that is enough.
limits() { # the script's name, its commands, one a line; the step, in kB
  local least=1024 limit
  keep "$2"
  echo quit >script
  until { run limited $least; } 2>/dev/null; do least=$((least + 128)); done
  echo "$2" >script
  reset_ways
  for ((limit = least; ways[ample] == 0 && limit < 1000000; limit += $3)); do
    run limited $limit
    judge $?
    ways[$way]=$((ways[$way] + 1))
    count "$1, limit $limit kB" "$wrong"
  done
  echo "$1: limits from $least to $((limit - $3)) kB by steps of $3 kB"
  echo "  $(ways_told)"
}
limited() { # kB, further words of the program
  ulimit -v "$1" && shift && exec "$program" "$@"
}

mkdir files && cd files || exit 1
printf '.model a\n.inputs x\n.outputs x\n.end\n' >a
printf '.model m\n.inputs a b c\n.outputs y\n.names a b c y\n11- 0\n--1 0\n.end\n' >m
printf '.i 1\n.o 1\n0 A A 0\n1 A B 0\n- B C 1\n0 C A -\n.e\n' >k
printf '.inputs a b c d\n.outputs f\n.names a b c d f\n1-1- 1\n1--1 1\n-11- 1\n-1-1 1\n' >f
printf '.inputs a b\n.outputs y\n.names a b x\n11 1\n.names x a b y\n11- 1\n' >s
printf '.inputs a b\n.outputs y\n.names a b y\n10 1\n01 1\n.exdc\n.names a y\n1 1\n' >d
for gate in 'inv 1 O=!a' 'nand2 2 O=!(a*b)' 'nand3 3 O=!(a*b*c)' 'aoi21 3 O=!(a*b+c)'; do
  echo "GATE $gate; PIN * INV 1 999 1 0 1 0"
done >L
cd ..

if cc -O1 -shared -fPIC -o refuse.so refuse.c; then
  words=(-k)
  each "a script on the input" $'read_blif a\nprint_stats\nwrite_blif\nwrite_blif b'
  words=(-k -f ../script)
  each map $'read_library L\nread_blif m\nmap\nwrite_blif -n\nwrite_blif -n n'
  each state_assign $'read_kiss k\nstate_assign\nwrite_blif b\nwrite_kiss c\nwrite_blif'
  each fx $'read_blif f\nfx\nwrite_blif b'
  each simplify $'read_blif s\nsimplify\nwrite_blif b\nprint'
  each full_simplify $'read_blif d\nfull_simplify\nwrite_blif b\nprint'
else
  echo "left out: each growth in turn, as there is no C compiler"
fi
(cd files && "$program" -c "gen 1 20000; write_blif big") || exit 1
limits "20,000 tables" $'read_library L\nread_blif big\nwrite_blif b\nsweep\nwrite_blif c
eliminate 0\nsimplify\nwrite_blif d\ntech_decomp\nmap -s\nwrite_blif -n e' 512
ended
