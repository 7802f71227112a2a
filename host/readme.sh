#!/usr/bin/env bash
# readme.sh: builds and plays the C program that README.md shows, from that very text: the program, the lines that build and play it, and what
# README says that it prints are all taken from there. What it must print for P1, and of texts that are refused, is 01's.
set -u
root=$(cd "$(dirname "$(readlink -f "$0")")/.." && pwd) || exit 2
room=$(mktemp -d) || exit 2
trap 'rm -rf "$room"' EXIT
cd "$room" && ln -s "$root/host" "$root/target" "$root/lists" . || exit 2

# block N: the Nth fenced block from the one that begins with /* play.c */ on
block() {
    awk -v wanted="$1" '
        /^```/ { inside = !inside; fresh = inside; seen += inside && started; next }
        fresh && $0 == "/* play.c */" { started = 1; seen = 1 }
        { fresh = 0 }
        inside && started && seen == wanted' "$root/README.md"
}

# fail WORDS...
fail() {
    echo "readme.sh: $*"
    exit 1
}

# prints WHAT ROWS COMMAND...: the command prints these rows, in 01's way of writing, and says nothing else
prints() {
    local what=$1 rows=$2
    shift 2
    "$@" >out 2>err
    tr ' ' '\t' <<<"$rows" | cmp -s - out || fail "$what: $(cat out err)"
    [ ! -s err ] || fail "$what: $(cat err)"
}

block 1 >play.c
block 2 >commands
grep -q '^gcc .*play\.c' commands || fail "README.md has no line that builds the program"
grep -q '^\./play < lists/p1\.txt$' commands || fail "README.md has no line that plays P1"
prints "P1" "R 5 2 3 20" bash -e commands
block 3 | cmp -s - out || fail "README.md shows something else than what is printed"
prints "P4" "R 4 0 0 21" ./play <lists/p4.txt
printf 'A\t8\n1\t03\t2\n' >spoiled
! ./play <spoiled >out 2>err || fail "a spoiled text: status 0"
grep -q 'refused with 10, at line 2$' err || fail "a spoiled text: $(cat out err)"
echo "readme.sh: the program of README.md prints what 01 says"
