# shellcheck shell=bash
# What the tests of ./bench share: a folder of their own, and a count of what was tried and what differs. Sourced.
set -u
# shellcheck disable=SC2034
root=$(cd "$(dirname "$(readlink -f "$0")")/../.." && pwd) || exit 2
room=$(mktemp -d) || exit 2
trap 'rm -rf "$room"' EXIT
# the folders that ./bench makes for itself go here, so that one left behind is seen
export TMPDIR=$room/between
mkdir "$TMPDIR"
# the system's own words, as `Is a directory`, in the language of the tests
export LC_ALL=C
tried=0
differences=0

# differs WORDS...: one difference more
differs() {
    differences=$((differences + 1))
    echo "differs: $*"
}

# tabbed ROWS: rows in 01's way of writing, with tabs for spaces and line feeds for slashes
tabbed() {
    [ -z "$1" ] || printf '%s\n' "$1" | sed 's| / |\n|g' | tr ' ' '\t'
}

# outcome NAME STATUS OUT ERR COMMAND...: the command ends with this status, prints these rows and says these words, and leaves no folder
outcome() {
    local name=$1 wanted=$2 rows=$3 words=$4 status=0
    shift 4
    tried=$((tried + 1))
    "$@" >"$room/out" 2>"$room/err" || status=$?
    [ "$status" -eq "$wanted" ] || differs "$name: status $status, not $wanted"
    tabbed "$rows" | cmp -s - "$room/out" || differs "$name: it printed $(head -c 200 "$room/out")"
    [ "$words" = "$(cat "$room/err")" ] || differs "$name: it said $(cat "$room/err")"
    [ -z "$(ls "$TMPDIR")" ] || differs "$name: it left a folder behind"
    rm -rf "${TMPDIR:?}"/*
}

# finish: the sum, and whether all is well
finish() {
    echo "${0##*/}: $tried tried, $differences differences"
    [ "$tried" -gt 0 ] && [ "$differences" -eq 0 ]
}
