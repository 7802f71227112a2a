# shellcheck shell=bash
# shellcheck disable=SC2154 # what ../bench sets
# One list: its text is fetched, played on the program, and a refusal put into words. Sourced by ../bench, which sets root, program, runner, room and
# lists, and has `complain`.

# may_read LIST: whether there is a file to play
may_read() {
    if [ ! -e "$1" ]; then
        complain "$1: there is no such file"
    elif [ -d "$1" ]; then
        complain "$1: this is a directory"
    elif [ ! -r "$1" ]; then
        complain "$1: this file may not be read"
    else
        return 0
    fi
    return 1
}

# fetch NAME TO [LIST]: copies a list, or standard input, as far as the program reads: one byte more than a text may have. The program takes
# a failed read for the end of the text, so `head` reads, which tells the two apart; and what is put into words is then what was played.
fetch() {
    head -c 16385 "${@:3}" >"$2" 2>"$2.fault" && return
    complain "$1: it could not be read: $(sed -n '1s/.*: //p' "$2.fault")"
    return 1
}

# fetch_standard_input: before any list is played, as those who play have no standard input of their own
fetch_standard_input() {
    [ ! -t 0 ] || complain "step text from the terminal; end it with Ctrl-D"
    fetch "standard input" "$room/stdin" 2>"$room/stdin.words" || return 0
    # a pipe is not read to its end, so that one without an end does no harm
    [ ! -f /dev/stdin ] || wc -c </dev/stdin >"$room/stdin.size"
}

# text_of LIST TO: leaves the list's text in the file TO
text_of() {
    if [ "$1" != - ]; then
        may_read "$1" && fetch "$1" "$2" -- "$1"
    elif [ -s "$room/stdin.words" ]; then
        cat "$room/stdin.words" >&2
        return 1
    else
        cat "$room/stdin" >"$2"
    fi
}

# explain LIST TEXT NUMBER LINE: one sentence on a refused text, with its name, its line and what is wrong with it
explain() {
    local name=$1 size='' words
    if [ "$1" = - ]; then
        name="standard input"
        [ ! -s "$room/stdin.size" ] || size=$(<"$room/stdin.size")
    elif [ "$3" = 11 ] && [ -f "$1" ]; then
        size=$(wc -c <"$1")
    fi
    words=$(od -An -v -tu1 "$2" | LC_ALL=C awk -v number="$3" -v line="$4" -v size="$size" -f "$root/command/why.awk")
    complain "$name${words:-: refused with $3, at line $4}"
}

# count_replies RESULTS: sets `count`, how many replies were reported as each number. They stand behind the steps; the steps are cut off by
# their length, as `${1#*..}` takes a time that grows with the square of it.
count_replies() {
    local report steps=${1%%$'\nR\t'*}
    count=([20]=0 [21]=0 [22]=0)
    [ ${#steps} -lt ${#1} ] || return 0
    while IFS=$'\t' read -r _ _ _ _ report; do
        count[report]=$((count[report] + 1))
    done <<<"${1:${#steps}+1}"
}

# run TEXT: sets `results` to what the program prints
run() {
    local status=0
    # exec, as without it the shell starts a process more
    results=$(exec "${runner[@]}" "$program" <"$1" 2>"$1.fault") || status=$?
    [ "$status" -ne 0 ] || return 0
    complain "the program failed with status $status: $(tail -n 1 "$1.fault")"
    return 1
}

# play I TEXT: plays list I. Its text goes to the file TEXT, its results to $room/I.out, and words to standard error. Prints how it ended:
# `played` with the replies that were reported as 20, 21 and 22, or `refused`, `unread` or `failed`.
play() {
    local list=${lists[$1]} results count refusal
    if ! text_of "$list" "$2"; then
        echo unread
    elif ! run "$2" || ! printf '%s' "${results:+$results$'\n'}" >"$room/$1.out"; then
        echo failed
    elif [[ $results == E$'\t'* ]]; then
        IFS=$'\t' read -r -a refusal <<<"$results"
        explain "$list" "$2" "${refusal[1]}" "${refusal[2]}"
        echo refused
    else
        count_replies "$results"
        echo "played ${count[20]} ${count[21]} ${count[22]}"
    fi
}
