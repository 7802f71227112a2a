#!/usr/bin/env bash
# progress.sh: what ./bench says while it builds, with a stand-in for rt that proves nothing and takes no time. Its last line is
# `progress.sh: N tried, M differences`.
# shellcheck source-path=SCRIPTDIR source=common.sh
. "$(dirname "$0")/common.sh"

# a repository of four crates, three of which the program needs, and an rt that prints as rt does
mkdir -p "$room/copy/crates"/{low,middle,other,bench} "$room/tools"
cp -r "$root/bench" "$root/command" "$room/copy/"
printf 'low:\nmiddle: low io\nother staticlib: low\nbench: middle low io\n' >"$room/copy/crates.txt"
cat >"$room/tools/rt" <<'RT'
#!/bin/sh
case "$1 ${PWD##*/}" in
"lib low") ;;
"lib middle")
    echo "fn middle::first: proved"
    echo "logic=proved functions=1"
    ;;
"run bench")
    [ ! -e ../../slow ] || sleep 1.2
    [ ! -e ../../fails ] || { echo "fn bench::main: not proved" >&2; echo "logic=not-proved" >&2; exit 1; }
    if [ -e out/bench ]; then
        echo "rt: nothing has changed since the last proved build" >&2
    else
        echo "fn bench::main: proved" >&2
        echo "logic=proved functions=1" >&2
    fi
    echo "what the program prints"
    mkdir -p out
    printf '#!/bin/sh\ncat >/dev/null\n' >out/bench
    chmod +x out/bench
    ;;
*) exit 2 ;;
esac
RT
chmod +x "$room/tools/rt"
PATH=$room/tools:$PATH
cd "$room/copy" || exit 2
printf 'A\t8\n' >x.txt

# timeless COMMAND...: what it says, with T for each time
timeless() {
    "$@" 2>"$room/said"
    local status=$?
    sed 's/[0-9]* s so far/T s so far/g; s/is built, [0-9]* s/is built, T s/' "$room/said" >&2
    return $status
}

begun="bench: building the program, which proves it: 3 crates, some minutes from nothing; the log is target/bench.log"
outcome "the first build" 0 "" "$begun
bench: 1 of 3: low unchanged, T s so far
bench: 2 of 3: middle proved, T s so far
bench: 3 of 3: bench proved, T s so far
bench: the program is built, T s" timeless ./bench x.txt
outcome "nothing to build" 0 "" "" ./bench x.txt
grep -q '^fn middle::first: proved$' target/bench.log || differs "the log has not all that rt printed"
! grep -q 'what the program prints' target/bench.log || differs "the log has what the program printed"

touch crates/bench/newer
outcome "a program that has not changed" 0 "" "$begun
bench: 1 of 3: low unchanged, T s so far
bench: 2 of 3: middle proved, T s so far
bench: 3 of 3: bench unchanged, T s so far
bench: the program is built, T s" timeless ./bench x.txt

touch fails
rm -r target/bin/bench crates/bench/out
outcome "a crate that is not proved" 3 "" "$begun
bench: 1 of 3: low unchanged, T s so far
bench: 2 of 3: middle proved, T s so far
bench: the program could not be built; target/bench.log ends with
fn middle::first: proved
logic=proved functions=1
fn bench::main: not proved
logic=not-proved" timeless ./bench x.txt
rm fails

# on a terminal it is one line, written again and again, and each second too: so only what differs from the one before counts. `script` gives
# the command a terminal.
on_terminal() {
    TERM=vt100 script -qec './bench x.txt' /dev/null </dev/null | sed 's/\r$//; s/[0-9]* s so far/T s so far/g; s/is built, [0-9]* s/is built, T s/' >"$room/shown"
    echo "$(wc -l <"$room/shown") lines"
    tr '\r' '\n' <"$room/shown" | grep -v -e ': starting' -e '^$' | uniq
}
touch slow
if script -qec true /dev/null </dev/null >/dev/null 2>&1; then
    tried=$((tried + 1))
    again=$'\033[K'
    [ "$(on_terminal)" = "3 lines
$begun
${again}bench: 1 of 3: low unchanged, T s so far
${again}bench: 2 of 3: middle proved, T s so far
${again}bench: 3 of 3: bench proved, T s so far
bench: the program is built, T s" ] || differs "on a terminal: $(cat -v "$room/shown")"
else
    echo "\`script\` gives no terminal here, so none was tried"
fi
finish
