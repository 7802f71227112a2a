#!/usr/bin/env bash
# many.sh GENERATOR: hundreds of lists on ./bench, one at a time and several, beside what the program prints for each by itself. GENERATOR is
# the independent program's `lists`, which makes lists that play and texts with one byte changed. Its last line is
# `many.sh: N tried, M differences`.
if [ $# -ne 1 ] || [ ! -x "$1" ]; then
    echo "many.sh GENERATOR: the independent program's generator of lists" >&2
    exit 2
fi
generator=$(readlink -f "$1")
# shellcheck source-path=SCRIPTDIR source=common.sh
. "$(dirname "$0")/common.sh"
# shellcheck source-path=SCRIPTDIR source=../machine.sh
. "$root/command/machine.sh"
runner_for "$root/target/bin/bench" || exit 2
"$generator" 11 100 "$room/lists" 80 >/dev/null || differs "the generator of lists failed"
cd "$room/lists" || exit 2
lists=(*)
[ ${#lists[@]} -eq 180 ] || differs "the generator made ${#lists[@]} lists"

# wanted: each list's results by the program alone, under their headings
wanted() {
    local list gap=''
    for list in "${lists[@]}"; do
        printf "$gap==> %s <==\n" "$list"
        "${runner[@]}" "$root/target/bin/bench" <"$list"
        gap='\n'
    done
}
wanted >"$room/wanted"

# sum LISTS UNREAD: the last line that is said, by what stands in the file wanted
sum() {
    awk -F'\t' -v lists="$1" -v unread="$2" '
        $1 == "E" { refused++ }
        $1 == "R" { reported[$5]++ }
        END {
            printf "bench: %d lists: %d played, %d refused, %d not read; replies: ", lists, lists - refused - unread, refused, unread
            printf "%d reported 20, %d reported 21, %d reported 22\n", reported[20], reported[21], reported[22]
        }' "$room/wanted"
}

# same NAME STATUS SUM WORDS...: ./bench with these words prints what is wanted, and ends with this status and sum
same() {
    local name=$1 wanted=$2 sum=$3 status=0
    shift 3
    tried=$((tried + 1))
    "$root/bench" "$@" >"$room/out" 2>"$room/err" || status=$?
    [ "$status" -eq "$wanted" ] || differs "$name: status $status, not $wanted"
    cmp -s "$room/wanted" "$room/out" || differs "$name: it printed something else"
    [ "$(tail -n 1 "$room/err")" = "$sum" ] || differs "$name: it said $(tail -n 1 "$room/err")"
    [ -z "$(ls "$TMPDIR")" ] || differs "$name: it left a folder behind"
}

# explained: each refused list, and no other, has its sentence, in order and with its line, and none says that nothing was seen
explained() {
    tried=$((tried + 1))
    awk '$1 == "==>" { list = $2 }
        /^E\t10/ { print "bench: " list ", line " $3 }
        /^E\t11/ { print "bench: " list }' "$room/wanted" >"$room/refused"
    grep -v '^bench: [0-9]* lists: ' "$room/err" | sed 's/^\(bench: [^:]*\): .*/\1/' | cmp -s - "$room/refused" ||
        differs "not every refused list has its sentence"
    ! grep -q 'was seen in its bytes' "$room/err" || differs "$(grep 'was seen in its bytes' "$room/err")"
    [ "$(wc -l <"$room/refused")" -gt 20 ] || differs "too few lists are refused"
}

same "180 lists" 1 "$(sum 180 0)" "${lists[@]}"
cp "$room/err" "$room/first"
explained
same "180 lists, 3 at a time" 1 "$(sum 180 0)" -j 3 "${lists[@]}"
cmp -s "$room/first" "$room/err" || differs "3 at a time it says something else"
same "180 lists and one that is not there" 1 "$(sum 181 1)" -j4 "${lists[@]}" none.txt

# more at a time than there are lists, all of them good
cd "$root" || exit 2
lists=(lists/p1.txt lists/p4.txt)
tabbed "==>_lists/p1.txt_<== / 1 0 1 / 2 0 2 / 3 0 3 / 4 0 4 / 5 0 5 / 6 0 6 / 7 6 0 / R 5 2 3 20 /  / ==>_lists/p4.txt_<== / 1 0 1 / 2 0 2 / 3 0 3 / 4 0 4 / R 4 0 0 21" |
    tr _ ' ' >"$room/wanted"
same "P1 and P4" 0 "bench: 2 lists: 2 played, 0 refused, 0 not read; replies: 1 reported 20, 1 reported 21, 0 reported 22" -j 9 "${lists[@]}"

for wrong in 0 x 257 -1 ''; do
    outcome "-j $wrong" 2 "" "bench: -j $wrong: not a number from 1 to 256; bench --help says what there is" ./bench -j "$wrong" lists/p1.txt
done
outcome "-j alone" 2 "" "bench: -j wants a number; bench --help says what there is" ./bench -j
finish
