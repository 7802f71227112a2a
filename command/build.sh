# shellcheck shell=bash
# shellcheck disable=SC2154 # what ../bench sets
# The build: whether the program is there and new enough, and if not, its proof, crate by crate. Sourced by ../bench, which sets root and
# program, and has `complain`.

built=$root/target/bench.built
log=$root/target/bench.log

# Whether the program is there, and no source is newer than when it was built or found to be built.
is_built() {
    [ -x "$program" ] || return 1
    local since=$program
    [ "$built" -nt "$since" ] && since=$built
    [ -z "$(find "$root/crates.txt" "$root/crates" \( -name must-fail -o -name out \) -prune -o -type f -newer "$since" -print -quit)" ]
}

# crates_of NAME: the crates of crates.txt that a crate rests on and itself, each behind those that it uses. What the program does not use is
# not proved for it.
crates_of() {
    awk -F: -v name="$1" '
        { sub(/ .*/, "", $1); uses[$1] = $2 }
        function visit(crate,    names, i, n) {
            if (!(crate in uses) || seen[crate]++)
                return
            n = split(uses[crate], names, " ")
            for (i = 1; i <= n; i++)
                visit(names[i])
            print crate
        }
        END { visit(name) }' "$root/crates.txt"
}

# prove NAME: proves and builds a crate: a library, or the program, which is run once on no text
prove() {
    cd "$root/crates/$1" || return
    if [ "$1" = bench ]; then
        rt run >/dev/null
    else
        rt lib
    fi
}

# prove_each NAME...: proves crates one after the other, all that rt prints going to the log, and names each that is done. Of a crate that has
# not changed rt proves nothing, and says no `logic=proved`.
prove_each() {
    local crate said
    : >"$log"
    for crate; do
        said=$(wc -c <"$log")
        (prove "$crate") >>"$log" 2>&1 </dev/null || return 1
        if tail -c "+$((said + 1))" "$log" | awk '/^logic=proved/ { proved = 1 } END { exit !proved }'; then
            echo "$crate proved"
        else
            echo "$crate unchanged"
        fi
    done
}

# Whether a line can be written again in place
rewrites() {
    [ -t 2 ] && [ "${TERM:-dumb}" != dumb ]
}

# tell WORDS...: how far the build is; where `rewrite` is set, in place of what was told before
tell() {
    if [ -n "$rewrite" ]; then
        printf '\r\033[Kbench: %s' "$*" >&2
    else
        complain "$*"
    fi
}

# progress TOTAL: reads the names of the crates that are done, and tells of each; on a terminal the time goes on between two of them. A line
# that has come in part when a second is over is kept until the rest is there.
progress() {
    local total=$1 done=0 now=starting rewrite='' part='' line status
    ! rewrites || rewrite=yes
    while true; do
        status=0
        IFS= read -r ${rewrite:+-t 1} line || status=$?
        part+=$line
        if [ "$status" -gt 128 ]; then
            tell "$done of $total: $now, $SECONDS s so far"
        elif [ "$status" -gt 0 ]; then
            break
        else
            done=$((done + 1))
            now=$part
            tell "$done of $total: $now, $SECONDS s so far"
            part=''
        fi
    done
    [ -z "$rewrite" ] || echo >&2
}

# build: proves and builds the program where that is needed
build() {
    is_built && return
    if ! command -v rt >/dev/null; then
        complain "the program must be built, and rt of the Rattle toolchain is not on the PATH"
        return 1
    fi
    local crates
    mapfile -t crates < <(crates_of bench)
    complain "building the program, which proves it: ${#crates[@]} crates, some minutes from nothing; the log is target/bench.log"
    mkdir -p "$(dirname "$program")"
    SECONDS=0
    prove_each "${crates[@]}" | progress "${#crates[@]}"
    if [ "${PIPESTATUS[0]}" -ne 0 ]; then
        complain "the program could not be built; target/bench.log ends with"
        # but for the lines that count what was read
        awk '!/^(logic |library |statements |crate )/' "$log" | tail -n 5 >&2
        return 1
    fi
    cp "$root/crates/bench/out/bench" "$program" || return 1
    complain "the program is built, $SECONDS s"
    touch "$built"
}
