#!/usr/bin/env bash
# Has real files and streams fail: a full disk, a closed stream, a pipe whose reader ends, a folder
# in place of a file, a file without permission, an interrupted read; and names devices, pipes and
# links as files. The status, both outputs and the files that are left are compared with what
# docs/REFUSALS.md and POSIX say.
# Usage: bench/real_outside.sh [PROGRAM]   (some 5 s; the small disk is for root alone)
set -u
top=$(cd "$(dirname "$(readlink -f "$0")")/.." && pwd) || exit 1
. "$top/bench/told.sh" || exit 1
trap 'umount "$work/disk" 2>/dev/null; rm -rf "$work"' EXIT
cp "$program" "$work/sis" && chmod 755 "$work" && cd "$work" || exit 1

# Both outputs are appended to files, which each case finds empty.
exec 3>&1 >>out 2>>err

# Judges the call before.
told() { # its status, its name; wanted: the status, the error line, the output; what else is wrong
  count "$2" "$(compare "$1" "$3" "${4:-}" "${5:-}")${6:-}" >&3
  : >out; : >err
}

left_out() { echo "left out: $1" >&3; }

# Say what is wrong where a file does not hold a text, or is there.
holds() { [ "$(cat "$1" 2>/dev/null; echo .)" = "$2." ] || echo "$1 does not hold its text; "; }
absent() { [ ! -e "$1" ] || echo "$1 was made; "; }

circuit=$'.model a\n.inputs x\n.outputs x\n.end\n'
empty=$'.model top\n.inputs\n.outputs\n.end\n'
printf %s "$circuit" >a
mkdir folder
mkfifo pipe
full=/dev/full null=/dev/null stdout=/dev/stdout
if [ "$(id -u)" = 0 ]; then # whose files could take the place of the machine's devices
  ln -s /proc/self/fd/1 stdout && stdout=stdout
  mknod full c 1 7 && mknod null c 1 3 && echo x >null && full=full null=null
fi
: >err
./sis -c "gen 1 4000; write_blif whole"; told $? "a file is written" 0

# A device that is full, and streams that are closed.
./sis -c "echo hi" >$full; told $? "a full output" 3 "sis: line 1: output failed"
./sis -k -c "read_blif a; write_blif b
write_blif $full; write_blif c"
told $? "a full device as the file" 3 "sis: line 2: store failed" "" \
  "$(holds b "$circuit"; absent c)"
./sis -k -c "frob; echo hi" 2>$full; told $? "a full error output" 3
./sis -f s -c t 2>$full; told $? "a full error output for the usage" 2
./sis -c "echo hi" >&-; told $? "a closed output" 3 "sis: line 1: output failed"
./sis <&-; told $? "a closed input" 3 "sis: line 0: input failed"
./sis -k -c "frob; echo hi" 2>&-; told $? "a closed error output" 3
rm b
./sis -c "read_blif a; write_blif b; echo hi" >&-
told $? "a file, and then a closed output" 3 "sis: line 1: output failed" "" "$(holds b "$circuit")"
rm b
./sis -k -c "read_blif a; frob; write_blif b" 2>&- <&-
told $? "a closed error output, and then a file" 3 "" "" "$(absent b)"

# A pipe whose reader ends, before the first byte and after some.
{ sleep 0.5; ./sis -c $'echo hi\nwrite_blif b'; } | head -c 0
told "${PIPESTATUS[0]}" "a pipe without a reader" 3 "sis: line 1: output failed"
yes "echo 0123456789" | head -n 20000 >many
./sis -f many | head -c 5; status=${PIPESTATUS[0]}
said=$(sed 's/line [0-9]*/line L/' err); printf '%s\n' "$said" >err
told "$status" "a pipe whose reader ends" 3 "sis: line L: output failed" 01234

# A folder in place of a file.
./sis -k -c "read_blif folder; echo hi"; told $? "a folder is read" 3 "sis: line 1: store failed"
./sis -k -c "read_blif a; write_blif folder; echo hi"
told $? "a folder is written" 3 "sis: line 1: store failed"
./sis -c "source folder"; told $? "a folder is run" 3 "sis: line 1: store failed"
./sis -f folder; told $? "a folder as the script" 3 "sis: line 0: store failed"
./sis <folder; told $? "a folder as the input" 3 "sis: line 0: input failed"

# A folder or a file that is not there.
./sis -c "read_blif none/a"; told $? "a missing folder is read" 1 "sis: line 1: no file none/a"
./sis -k -c "read_blif none; echo hi"
told $? "a missing file" 1 "sis: line 1: no file none" $'hi\n'
./sis -f none; told $? "a missing script" 1 "sis: line 0: no file none"
./sis -c "read_blif a; write_blif none/b"
told $? "a missing folder is written" 3 "sis: line 1: store failed" "" "$(absent none)"
ln -s none link
./sis -c "read_blif link"; told $? "a link to nothing is read" 1 "sis: line 1: no file link"

# Files and folders without permission.
other=()
[ "$(id -u)" != 0 ] || other=(setpriv --reuid=65534 --regid=65534 --clear-groups)
if "${other[@]}" true; then
  printf %s "$circuit" >secret; chmod 000 secret
  printf old >shut; chmod 444 shut
  printf old >open; chmod 666 open
  mkdir closed; printf %s "$circuit" >closed/a; printf old >closed/open; chmod 666 closed/open
  chmod 555 closed
  "${other[@]}" ./sis -k -c "read_blif secret; echo hi"
  told $? "a file without permission is read" 3 "sis: line 1: store failed"
  "${other[@]}" ./sis -f secret
  told $? "a script without permission" 3 "sis: line 0: store failed"
  "${other[@]}" ./sis -c "read_blif a; write_blif shut"
  told $? "a file without permission is written" 3 "sis: line 1: store failed" "" \
    "$(holds shut old)"
  "${other[@]}" ./sis -c "read_blif closed/a; write_blif closed/b"
  told $? "a folder without permission to make files" 3 "sis: line 1: store failed" "" \
    "$(absent closed/b)"
  "${other[@]}" ./sis -c "read_blif a; write_blif closed/open"
  told $? "an old file there that may be written" 0 "" "" "$(holds closed/open "$circuit")"
  chmod 755 closed
else
  left_out "files without permission, as this root has no setpriv"
fi

# Signals while the script is awaited, and a read that is interrupted.
waits() { # the signals that are sent
  ./sis <pipe &
  exec 4>pipe
  sleep 0.5
  for signal in $1; do kill -s "$signal" $!; sleep 0.2; done
  [ "$1" = TERM ] || echo "read_blif a; write_blif b; echo hi" >&4
  exec 4>&-
  wait $! 2>/dev/null
}
rm -f b
waits "WINCH STOP CONT"
told $? "signals that end no program" 0 "" $'hi\n' "$(holds b "$circuit")"
rm -f b
waits TERM
told $? "a signal that ends it" 143 "" "" "$(absent b)"
if strace -o trace true; then
  : >err
  interrupted=(strace -o trace -e inject=read:error=EINTR:when=1)
  "${interrupted[@]}" -P "$work/a" ./sis -k -c "read_blif a; echo hi"
  told $? "an interrupted read of a file" 3 "sis: line 1: store failed"
  "${interrupted[@]}" -P "$work/many" ./sis <many
  told $? "an interrupted read of the input" 3 "sis: line 0: input failed"
else
  left_out "an interrupted read, as no strace can trace here"
  : >err
fi

# Devices, pipes and links.
./sis -c "echo 1; read_blif a; write_blif $stdout; echo 2" | cat
told "${PIPESTATUS[0]}" "/dev/stdout, a pipe, is written" 0 "" $'1\n'"$circuit"$'2\n'
./sis -c "read_blif a; write_blif $stdout" >b
told $? "/dev/stdout, a file, is written" 0 "" "" "$(holds b "$circuit")"
./sis -c "read_blif /dev/stdin; write_blif" <a; told $? "/dev/stdin is read" 0 "" "$circuit"
./sis -c "read_blif /dev/null; write_blif"; told $? "/dev/null is read" 0 "" "$empty"
./sis -c "read_blif a; write_blif $null"
told $? "/dev/null is written" 0 "" "" "$([ -c $null ] || echo "it is no device; ")"
./sis -c "read_blif /dev/zero"
told $? "a file that never ends" 1 "sis: line 1: file /dev/zero is longer than 67108864 bytes"
./sis </dev/zero
told $? "an input that never ends" 1 "sis: line 0: script is longer than 67108864 bytes"
./sis -c "read_blif /proc/self/mem"; told $? "a read that fails" 3 "sis: line 1: store failed"
cat pipe >b &
./sis -c "read_blif a; write_blif pipe"; status=$?
wait $!
told $status "a pipe is written" 0 "" "" \
  "$(holds b "$circuit"; [ -p pipe ] || echo "it is no pipe; ")"
rm b link
printf old >b; ln -s b link
./sis -c "read_blif a; write_blif link"
told $? "a link is written" 0 "" "" \
  "$(holds b "$circuit"; [ -L link ] || echo "it is no link; ")"
rm b
./sis -c "read_blif a; write_blif link"
told $? "a link to a new name" 0 "" "" \
  "$(holds b "$circuit"; [ -L link ] || echo "it is no link; ")"
cp whole b
./sis -c "read_blif a; write_blif b"; told $? "a longer old file" 0 "" "" "$(holds b "$circuit")"

ln b other; ./sis -c "read_blif a; write_blif b"
told $? "a file with two names" 0 "" "" "$(holds b "$circuit"; holds other "$circuit")"
rm other; printf old >b; chmod 640 b; ./sis -c "read_blif a; write_blif b"
told $? "the permissions of a file" 0 "" "" \
  "$(holds b "$circuit"; [ "$(stat -c %a b)" = 640 ] || echo "others; ")"
printf mine >b.sis-new; ./sis -c "read_blif a; write_blif b"
told $? "a file in the way of the new one" 0 "" "" "$(holds b "$circuit"; holds b.sis-new mine)"
rm b.sis-new

# A file that may not grow further, and a small disk: an old file is as before, a new one is gone.
mkdir room; printf old >room/b
(trap '' XFSZ; ulimit -f 8; exec ./sis -k -c "gen 1 4000; write_blif room/b; echo hi")
told $? "a file past the limit on its size" 3 "sis: line 1: store failed" "" \
  "$(holds room/b old)"
ls -A room; told $? "nothing else is left beside it" 0 "" $'b\n'
mkdir disk
if mount -t tmpfs -o size=16k none disk; then
  : >err
  printf old >disk/old; printf kept >disk/kept
  ./sis -k -c "gen 1 4000; write_blif disk/old; echo hi"
  told $? "a full disk, an old file" 3 "sis: line 1: store failed" "" \
    "$(holds disk/old old; holds disk/kept kept)"
  rm disk/old
  ./sis -k -c "gen 1 4000; write_blif disk/new; echo hi"
  told $? "a full disk, a new file" 3 "sis: line 1: store failed" "" \
    "$(absent disk/new; holds disk/kept kept)"
  ls -A disk; told $? "nothing else is left on it" 0 "" $'kept\n'
  ./sis -c "gen 1 8; write_blif disk/new; echo hi" >disk/out; told $? "room again" 0
else
  left_out "a small disk, as none can be mounted here"
  : >err
fi
exec >&3 2>&1
ended
