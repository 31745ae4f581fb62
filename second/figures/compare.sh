#!/bin/sh
# compare.sh COMMAND [ARGUMENT...]
# Runs the command in full form on every deck beside this script and compares
# the ordinates of the named blocks with the printed figures.
# A line of a .printed file: block, ordinate, printed value, places printed,
# tolerance, what it is.  An ordinate passes when, rounded half up to the
# places printed, it lies within the tolerance of the printed value; where the
# tolerance is the word exact, it must equal the printed value in flow units.
set -u
if [ $# -eq 0 ]; then
    echo "usage: compare.sh COMMAND [ARGUMENT...]" >&2
    exit 2
fi
here=$(CDPATH= cd -- "$(dirname -- "$0")" && pwd)
work=$(mktemp -d) || exit 2
trap 'rm -rf "$work"' EXIT
trap 'exit 1' HUP INT TERM
: > "$work/all"
for printed in "$here"/*.printed; do
    deck=${printed%.printed}.hc1
    name=$(basename "$printed" .printed)
    for block in $(awk '!/^#/ && NF { print $1 }' "$printed" | sort -un); do
        "$@" --full --named "$block" < "$deck" > "$work/full" 2> "$work/err"
        [ -s "$work/full" ] || echo "no answer" > "$work/full"
        awk -v name="$name" -v block="$block" '
            FNR == NR {
                if (FNR == 1) head = $0
                if (FNR == 2) have = split($0, ord, " ")
                next
            }
            /^#/ || NF == 0 || $1 != block { next }
            {
                what = ""
                for (i = 6; i <= NF; i++) what = what (i > 6 ? " " : "") $i
                if (head !~ /^[0-9]+ [0-9]+ [0-9]+$/ || $2 > have) {
                    printf "FAIL %s block %s ordinate %s: no ordinate (%s)\n", name, block, $2, head
                    next
                }
                scale = 1
                for (i = 0; i < $4; i++) scale *= 10
                got = int(ord[$2] * scale / 60000000 + 0.5)
                off = got - $3 * scale
                if (off < 0) off = -off
                ok = $5 == "exact" ? ord[$2] == $3 * 60000000 : off <= $5 * scale + 0.000001
                printf "%s %s block %s ordinate %s: printed %s, found %.4f, apart %+.4f, allowed %s (%s)\n",
                    ok ? "ok  " : "FAIL", name, block, $2, $3, ord[$2] / 60000000,
                    ord[$2] / 60000000 - $3, $5, what
            }' "$work/full" "$printed" >> "$work/all"
    done
done
cat "$work/all"
passed=$(grep -c '^ok  ' "$work/all")
failed=$(grep -c '^FAIL' "$work/all")
echo "$passed passed, $failed failed"
[ "$failed" -eq 0 ] && [ "$passed" -gt 0 ]
