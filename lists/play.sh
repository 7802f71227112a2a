#!/usr/bin/env bash
# play.sh PROGRAM INDEPENDENT [SEED]: plays lists on the proved program and holds what it prints to two other sources: the independent program,
# on every text here, and what documents 01 and 02 say, for the lists in this folder (expected) and for damaged texts (below). It fails on any
# difference. Its last line is `N texts, M differences`.
set -u
if [ $# -lt 2 ] || [ ! -x "$1" ] || [ ! -x "$2" ]; then
    echo "play.sh PROGRAM INDEPENDENT [SEED]: two programs that read step text from standard input" >&2
    exit 2
fi
program=$(readlink -f "$1")
# shellcheck source-path=SCRIPTDIR source=../command/machine.sh
. "$(dirname "$0")/../command/machine.sh"
runner_for "$program" || exit 2
independent=$(readlink -f "$2")
generator=$(dirname "$independent")/lists
seed=${3:-1}
cd "$(dirname "$0")" || exit 2
room=$(mktemp -d)
trap 'rm -rf "$room"' EXIT

texts=0
differences=0

# differs WORDS...: one difference more
differs() {
    differences=$((differences + 1))
    echo "differs: $*"
}

# compare NAME FILE: both programs print the same for the text
compare() {
    texts=$((texts + 1))
    "${runner[@]}" "$program" <"$2" >"$room/printed" || differs "$1: the program failed"
    "$independent" <"$2" >"$room/other" || differs "$1: the independent program failed"
    cmp -s "$room/printed" "$room/other" || differs "$1: from the independent program"
}

# expect NAME FILE ROWS: and it is these rows, in 01's way of writing
expect() {
    compare "$1" "$2"
    : >"$room/wanted"
    [ -z "$3" ] || printf '%s\n' "$3" | sed 's| / |\n|g' | tr ' ' '\t' >"$room/wanted"
    cmp -s "$room/printed" "$room/wanted" || differs "$1: from what the papers say"
    local rows=${3:-nothing}
    [ ${#rows} -le 60 ] || rows=${rows:0:60}..
    echo "$1: $rows"
}

# text NAME ROWS FORMAT: a text, in the shell's way of writing, that must print these rows
text() {
    # shellcheck disable=SC2059
    printf "$3" >"$room/text"
    expect "$1" "$room/text" "$2"
}

# lines COUNT LINE: a line so many times, after line 1
lines() {
    printf 'A\t8\n'
    yes "$2" | head -n "$1"
}

for list in *.txt; do
    rows=$(sed -n "s|^${list%.txt} = ||p" expected)
    [ -n "$rows" ] || differs "$list: expected has no row for it"
    expect "${list%.txt}" "$list" "$rows"
done

text "empty text" "E 10 1" ''
text "line 1 alone" "" 'A\t8\n'
text "no line 1" "E 10 1" '1\t3\t2\n'
text "line 1 without its line feed" "E 10 1" 'A\t8'
text "line 1 with two numbers" "E 10 1" 'A\t8\t1\n'
text "answers 65536" "E 10 1" 'A\t65536\n1\t3\t2\n'
text "answers 65535" "1 0 1" 'A\t65535\n1\t3\t2\n'
text "empty line" "E 10 3" 'A\t8\n1\t3\t2\n\n2\t2\t1\n'
text "empty line at the end" "E 10 3" 'A\t8\n1\t3\t2\n\n'
text "last line without its line feed" "E 10 3" 'A\t8\n1\t3\t2\n2\t2\t1'
text "cut in the middle of a number" "E 10 4" 'A\t8\n1\t3\t2\n2\t2\t1\n3\t3\t1'
text "cut after a tab" "E 10 3" 'A\t8\n1\t3\t2\n2\t'
text "needless 0" "E 10 2" 'A\t8\n1\t03\t2\n'
text "0 alone is no needless 0" "1 0 1" 'A\t0\n1\t0\t0\n'
text "65536" "E 10 2" 'A\t8\n1\t65536\t2\n'
text "65535 is read and out of range" "1 3 0" 'A\t8\n1\t65535\t2\n'
text "six digits" "E 10 2" 'A\t8\n100000\n'
text "8 numbers in a line" "E 10 2" 'A\t8\n1\t3\t2\t0\t0\t0\t0\t0\n'
text "7 numbers in a line" "1 0 1" 'A\t8\n1\t3\t2\t0\t0\t0\t0\n'
text "carriage returns" "E 10 1" 'A\t8\r\n1\t3\t2\r\n'
text "a carriage return later" "E 10 3" 'A\t8\n1\t3\t2\n2\t2\t1\r\n'
text "spaces" "E 10 2" 'A\t8\n1 3 2\n'
text "two tabs" "E 10 2" 'A\t8\n1\t\t3\t2\n'
text "a tab at the end" "E 10 2" 'A\t8\n1\t3\t2\t\n'
text "a letter" "E 10 3" 'A\t8\n1\t3\t2\nx\n'
text "a sign" "E 10 2" 'A\t8\n+1\t3\t2\n'
text "a zero byte" "E 10 2" 'A\t8\n1\t3\0002\n'
text "a byte over 127" "E 10 2" 'A\t8\n1\t3\t\3772\n'
text "the first unreadable line counts" "E 10 2" 'A\t8\nx\ny\n'

head -c 16384 /dev/zero | tr '\0' x >"$room/long"
expect "16,384 bytes, unreadable" "$room/long" "E 10 1"
head -c 16385 /dev/zero | tr '\0' x >"$room/long"
expect "16,385 bytes" "$room/long" "E 11 0"
head -c 100000 /dev/zero | tr '\0' x >"$room/long"
expect "100,000 bytes" "$room/long" "E 11 0"
rows=$(for ((i = 1; i <= 1024; i++)); do
    if [ $i -le 512 ]; then echo "$i 0 $i"; else echo "$i 7 0"; fi
done | paste -sd / - | sed 's|/| / |g')
lines 1024 $'1\t3\t2' >"$room/most"
expect "1,024 steps" "$room/most" "$rows"
lines 1025 $'1\t3\t2' >"$room/most"
expect "1,025 steps" "$room/most" "E 11 0"
{
    lines 1024 $'1\t3\t2'
    echo
} >"$room/most"
expect "1,024 steps and an empty line" "$room/most" "E 10 1026"
{
    lines 1025 $'1\t3\t2'
    echo x
} >"$room/most"
expect "1,025 steps and then a letter" "$room/most" "E 11 0"

# lists that really play, and texts with one byte changed
"$generator" "$seed" 200 "$room/lists" 400 >/dev/null || differs "the generator of lists failed"
made=0
for list in "$room"/lists/*; do
    compare "${list##*/}" "$list"
    made=$((made + 1))
done
[ "$made" -eq 600 ] || differs "the generator made $made lists"
echo "seed $seed: $made lists made"

echo "$texts texts, $differences differences"
[ "$differences" -eq 0 ]
