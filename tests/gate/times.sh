#!/usr/bin/env bash
# Sums by crate what the gate prints while it runs: after how many seconds the crate was proved, its functions, and its
# must-fail edits that were refused.
#
#   .ci/run | tests/gate/times.sh
#
# `rt ci` tells no times, so that the seconds are those until a crate's line came: from the start, and not from where its
# own proof began, since several crates are proved at once. The edits' lines come together at the end, so no time is told
# of these. A crate that an earlier run proved is told as kept.
set -eu
[ $# -eq 0 ] && [ ! -t 0 ] || { sed -n '5s/^# *//p' "$0" >&2; exit 2; }
while IFS= read -r line || [ -n "$line" ]; do printf '%d %s\n' "$SECONDS" "$line"; done | awk '
    function seen(crate) { if (!(crate in order)) { order[crate] = ++crates; name[crates] = crate } }
    { after = $1; sub(/^[0-9]+ /, "") }
    /^== / { functions = 0 }
    /^logic=proved functions=[0-9]+ / { split($2, of, "="); functions = of[2] }
    /^rt: [a-z0-9_]+ proved$/ { seen($2); proved[$2] = after; has[$2] = functions }
    /^rt: [a-z0-9_]+ is kept: / { seen($2); proved[$2] = "kept"; has[$2] = "kept" }
    /^rt: must-fail [a-z0-9_]+\/[^ ]+: refused, / { split($3, of, "/"); seen(of[1]); edits[of[1]]++ }
    END {
        print "| crate | proved after, s | functions | edits |"
        print "|---|--:|--:|--:|"
        for (i = 1; i <= crates; i++) {
            crate = name[i]
            printf "| `%s` | %s | %s | %d |\n", crate, proved[crate], has[crate], edits[crate]
            f += has[crate]; n += edits[crate]
        }
        printf "| all | %d | %d | %d |\n", after, f, n
    }'
