#!/usr/bin/env bash
# crates-graph.sh: prints the Mermaid graph of README.md from crates.txt. An arrow goes from a crate to one that it uses. It is left out where
# another crate on the way uses the same one, so the graph has the fewest arrows that show what rests on what.
set -u
cd "$(dirname "$0")/.." || exit 2
awk -F: '
    # rests FROM TO: whether FROM is TO, or uses a crate that rests on it
    function rests(from, to,    used, count, i) {
        if (from == to) return 1
        count = split(uses[from], used, " ")
        for (i = 1; i <= count; i++) if (rests(used[i], to)) return 1
        return 0
    }
    /^[a-z]/ { sub(/ .*/, "", $1); names[++crates] = $1; uses[$1] = $2; listed[$1] = 1 }
    END {
        print "```mermaid"
        print "graph TD"
        for (c = crates; c >= 1; c--) {
            count = split(uses[names[c]], used, " ")
            for (i = 1; i <= count; i++) {
                if (!(used[i] in listed)) continue
                over = 0
                for (j = 1; j <= count; j++) if (j != i && rests(used[j], used[i])) over = 1
                if (!over) print "    " names[c] " --> " used[i]
            }
        }
        print "```"
    }
' crates.txt
