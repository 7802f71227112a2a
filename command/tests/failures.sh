#!/usr/bin/env bash
# failures.sh: reads and writes that fail, a program that fails, an end in the middle, and a plain sh. Its last line is
# `failures.sh: N tried, M differences`.
# shellcheck source-path=SCRIPTDIR source=common.sh
. "$(dirname "$0")/common.sh"
cd "$root" || exit 2
p1="1 0 1 / 2 0 2 / 3 0 3 / 4 0 4 / 5 0 5 / 6 0 6 / 7 6 0 / R 5 2 3 20"

# what is read: a directory, a closed input, and a file that opens and gives an error
a_directory() { ./bench <.; }
closed() { ./bench <&-; }
from_directory_too() { ./bench lists/p1.txt - <.; }
outcome "a directory as standard input" 1 "" "bench: standard input: it could not be read: Is a directory" a_directory
outcome "no standard input" 1 "" "bench: standard input: it could not be read: Bad file descriptor" closed
outcome "a directory named" 1 "" "bench: lists: this is a directory" ./bench lists
outcome "no such file" 1 "" "bench: lists/none.txt: there is no such file" ./bench lists/none.txt
outcome "a file whose reading fails" 1 "" "bench: /proc/self/mem: it could not be read: Input/output error" ./bench /proc/self/mem
tried=$((tried + 1))
from_directory_too >"$room/out" 2>"$room/err" && differs "a list and a directory: status 0"
grep -q '^bench: 2 lists: 1 played, 0 refused, 1 not read;' "$room/err" || differs "a list and a directory: $(cat "$room/err")"

# what is written: to a full device, to no output, and to a reader who has gone
full() { ./bench "$@" lists/p1.txt >/dev/full; }
full_many() { ./bench -j 2 lists/*.txt >/dev/full; }
no_output() { ./bench lists/p1.txt >&-; }
full_help() { ./bench --help >/dev/full 2>&1; }
outcome "a full device" 1 "" "bench: the results could not be written: No space left on device" full
outcome "a full device, many lists" 1 "" "bench: the results could not be written: No space left on device" full_many
outcome "no output" 1 "" "bench: the results could not be written: Bad file descriptor" no_output
outcome "a full device, help" 1 "" "" full_help
tried=$((tried + 1))
mkfifo "$room/gone"
# shellcheck disable=SC2094
exec 7<>"$room/gone" 8>"$room/gone" 7>&-
! ./bench -j 2 lists/*.txt >&8 2>/dev/null || differs "a reader who has gone: status 0"
[ -z "$(ls "$TMPDIR")" ] || differs "a reader who has gone: it left a folder behind"

# Ctrl-C, which goes to all of the command's processes, while it waits for standard input
tried=$((tried + 1))
mkfifo "$room/never"
exec 9<>"$room/never"
set -m
./bench <"$room/never" 2>/dev/null &
set +m
for _ in {1..400}; do
    [ -z "$(ls "$TMPDIR")" ] || break
    sleep 0.05
done
sleep 1
kill -INT -- -$!
status=0
wait $! || status=$?
[ "$status" -eq 130 ] || differs "Ctrl-C: status $status"
[ -z "$(ls "$TMPDIR")" ] || differs "Ctrl-C: it left a folder behind"

# a program that fails, in a copy
mkdir -p "$room/copy/crates" "$room/copy/target/bin"
cp -r bench command crates.txt "$room/copy/"
printf '#!/bin/sh\necho "E\t10\t1"\necho "out of luck" >&2\nexit 7\n' >"$room/copy/target/bin/bench"
chmod +x "$room/copy/target/bin/bench"
tried=$((tried + 1))
status=0
"$room/copy/bench" lists/p1.txt lists/p2.txt >"$room/out" 2>"$room/err" || status=$?
[ "$status" -eq 3 ] || differs "a program that fails: status $status"
[ ! -s "$room/out" ] || differs "a program that fails: it printed $(cat "$room/out")"
[ "$(cat "$room/err")" = "bench: the program failed with status 7: out of luck" ] ||
    differs "a program that fails: it said $(cat "$room/err")"

# a worker that is ended from without, by the program of the copy
# shellcheck disable=SC2016
printf '#!/bin/sh\nkill -KILL $PPID\n' >"$room/copy/target/bin/bench"
tried=$((tried + 1))
status=0
"$room/copy/bench" lists/p1.txt lists/p2.txt >"$room/out" 2>"$room/err" || status=$?
[ "$status" -eq 3 ] || differs "a worker that is ended: status $status"
grep -q '^bench: lists/p1.txt: it was not played to its end$' "$room/err" || differs "a worker that is ended: it said $(cat "$room/err")"

# sh hands over to bash, or says that there is none
outcome "sh bench" 0 "$p1" "" sh bench lists/p1.txt
mkdir "$room/empty"
no_bash() { PATH=$room/empty /bin/sh bench lists/p1.txt; }
if [ "$(readlink -f /bin/sh)" != "$(readlink -f "$BASH")" ]; then
    outcome "sh bench without bash" 3 "" "bench: this is a script for bash, and there is no bash on the PATH" no_bash
fi
finish
