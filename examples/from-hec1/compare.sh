#!/bin/sh
# compare.sh: what the scripts beside it make of the parameters in unit-graphs.printed, held against the ordinates there.
# A line for each: what was asked for, how many ordinates are equal in whole cfs, and the largest difference and where it is.
cd -- "$(dirname -- "$0")" || exit 2
awk '
    function ask(    words, script, line, value, n, i, k, off, worst, at, equal) {
        if (asked == "") return
        script = asked ~ /^UD/ ? "ui-from-ud.awk" : "ui-from-uc.awk"
        words = asked
        sub(/^UD /, "", words)
        words = "awk -f " script " " words " 2>&1"
        while ((words | getline line) > 0) {
            if (line !~ /^UI /) continue
            k = split(substr(line, 4), value, ",")
            for (i = 1; i <= k; i++) {
                if (++n > count) continue
                off = value[i] - printed[n]
                if (int(value[i] + .5) == printed[n]) equal++
                if (off < 0) off = -off
                if (off > worst) {
                    worst = off
                    at = value[i] " for " printed[n]
                }
            }
        }
        close(words)
        printf "%s: %d and %d ordinates, %d equal; largest difference %.2f, %s\n", asked, n, count, equal, worst, at
    }
    /^#/ { next }
    /^=/ {
        ask()
        asked = substr($0, 3)
        fresh = 1
        next
    }
    {
        if (fresh) count = 0
        fresh = 0
        for (i = 1; i <= NF; i++) printed[++count] = $i
    }
    END { ask() }' unit-graphs.printed
