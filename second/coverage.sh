#!/bin/sh
# coverage.sh [--program PROGRAM] [SEED [BUNDLE [CASES [PAIRS [MOVES [SHEETS [HYDROGRAPHS [REASONS [TABLES]]]]]]]]]
# Writes decks and files of records, runs them through the second program and
# counts the answers.
# The program is target/second/hec1, built here, or the one named with --program.
# Fails when a refusal is missing, one that depends on rooms in the cases, any
# other in the bundle, one of the mover in the moves, any but that of short work
# words in the cases of the sheet and in those of the hydrograph, when the
# bundle's accepted decks lack a way in which an initial loss is filled or do
# not tell a wrong rule of loss from the right one, when they lack a sort of JR
# or do not tell a wrong rule of ratios from the right one, when none of its
# refused decks depends on the first or on the last ratio being looked at, when
# they lack an edge of ponds or a fault of theirs or do not tell a wrong rule of
# ponds from the right one, when they lack a field or a number with zeros past
# its places, a number refused for what it is with zeros, or do not tell a wrong
# rule of zeros from the right one, when a number is not read by that rule as
# its counter states it, when no pair has ponds or none has such zeros in one
# deck alone, when the moves lack a sort of file or room, or faults beside one
# another, or do not tell a wrong rule of the mover from the right one, when the
# cases of the sheet, those of the hydrograph or those of the reasons lack an
# edge or do not tell a wrong rule from the right one, when the reasons lack a
# field that 6 or 7 can be told of, in either form, when a sheet is not the one
# that its counter works out, a hydrograph not the one that its counter writes
# or a reason not the one that its counter finds, when the decks of the tables
# lack an edge or do not tell a wrong rule from the right one, or a table of
# theirs is not the one that its counter works out, when a network does not hang
# together, when a sound or a long deck is refused, or when a pair is violated.
set -u
root=$(CDPATH= cd -- "$(dirname -- "$0")/.." && pwd)
. "$root/second/kit.sh" || exit 2
hec1=
if [ "${1:-}" = --program ]; then
    hec1=${2:?--program wants a program}
    shift 2
fi
seed=${1:-1}
bundle=${2:-20000}
cases=${3:-2000}
pairs=${4:-2000}
moves=${5:-4000}
sheets=${6:-2000}
hydrographs=${7:-2000}
reasons=${8:-2000}
tables=${9:-500}
decks=$root/target/second/decks
sh "$root/second/build-decks.sh" || exit 2
if [ -z "$hec1" ]; then
    hec1=$root/target/second/hec1
    sh "$root/second/build.sh" || exit 2
fi
if [ ! -x "$hec1" ]; then
    echo "coverage.sh: no program at $hec1" >&2
    exit 2
fi
work=$(mktemp -d) || exit 2
trap 'rm -rf "$work"' EXIT
trap 'exit 1' HUP INT TERM
passed=0
failed=0

# check COMMAND..: one thing that must hold
check() {
    if "$@"; then passed=$((passed + 1)); else failed=$((failed + 1)); fi
}

# count WHAT NUMBERS: counts the answers on standard input; every refusal named
# must occur.
count() {
    awk -v what="$1" -v need="$2" -v last="$refusals" '
        first == "" { first = $0 == "" ? " " : $0 }
        $0 == "--" {
            if (first ~ /^REFUSED [0-9]+( [0-9]+)?$/) {
                split(first, f, " ")
                r[f[2]]++
            } else
                accepted++
            n++
            first = ""
            next
        }
        END {
            printf "%-8s %7d  accepted %7d (%.1f %%)\n", what, n, accepted, n ? 100 * accepted / n : 0
            k = split(need, must, " ")
            for (i = 1; i <= last; i++)
                if (r[i]) printf "    refusal %2d: %6d\n", i, r[i]
            for (i = 1; i <= k; i++)
                if (!r[must[i]]) { printf "    refusal %2d is missing\n", must[i]; gap = 1 }
            if (n == 0) gap = 1
            if (what == "sound" && accepted != n) { print "    a sound deck was refused"; gap = 1 }
            exit gap
        }'
}

# drawn: every network on standard input hangs together.  Where so many are held
# and none is routed, either one more is held behind the next block, or 2 to 5
# have become one and the block's row ends with a dot below the last of them.  Of
# a block that is routed the number stays.  In the end one is held.
drawn() {
    awk '
        function bad(what) { if (++wrong <= 5) print "    network " n ": " what }
        function stems(last,    c, text) {
            text = sprintf("%12s", "")
            for (c = 1; c < now; c++) text = text ".         "
            return text last
        }
        # the row since the last stems, now that so many are held
        function close_row(    joined) {
            joined = held - now + 1
            if (routed ? now != held : now != held + 1 && (joined < 2 || joined > 5))
                bad(held " held, then " now)
            if (!routed && now <= held && (length(row) != 13 + 10 * (held - 1) || row !~ /[.]$/))
                bad("not joined: " row)
            held = now
        }
        function close_network() {
            if (n > 0) { now = 1; close_row() }
            held = routed = at = number = 0
        }
        /^STREAM NETWORK: / { close_network(); n++ }
        { at++ }
        at < 5 { next }
        at % 3 == 2 {
            row = $0
            if (substr(row, 1, 6) !~ /^ *[0-9]+$/ || substr(row, 1, 6) + 0 <= number) bad("no line: " row)
            number = substr(row, 1, 6) + 0
            next
        }
        at % 3 == 0 {
            now = (length($0) - 3) / 10
            close_row()
            routed = /V$/
            upper = $0
            if ($0 != stems(routed ? "V" : ".")) bad("no stems: " $0)
        }
        at % 3 == 1 && $0 != upper { bad("other stems: " $0) }
        END {
            close_network()
            print "networks " n + 0
            exit wrong > 0 || n == 0
        }'
}

"$decks" bundle "$seed" "$bundle" > "$work/decks"
"$hec1" --bundle < "$work/decks" > "$work/out" || failed=$((failed + 1))
check count bundle "$(deck_refusals)" < "$work/out"
check "$root/target/second/losses" < "$work/decks"
check "$root/target/second/ratios" < "$work/decks"
check "$root/target/second/ponds" < "$work/decks"
check "$root/target/second/zeros" < "$work/decks"

"$decks" cases "$seed" "$cases" > "$work/decks"
"$hec1" --cases < "$work/decks" > "$work/out" || failed=$((failed + 1))
check count cases "$room_refusals" < "$work/out"

"$decks" moves "$seed" "$moves" > "$work/decks"
"$hec1" --mover < "$work/decks" > "$work/out" || failed=$((failed + 1))
check count moves "$mover_refusals" < "$work/out"
check "$root/target/second/moves" < "$work/decks"

"$decks" sheets "$seed" "$sheets" > "$work/decks"
"$hec1" --sheet < "$work/decks" > "$work/out" || failed=$((failed + 1))
check count sheets "$(sheet_refusals)" < "$work/out"
check "$root/target/second/sheets" < "$work/decks"
"$root/target/second/sheets" --text < "$work/decks" > "$work/text" || failed=$((failed + 1))
check cmp "$work/text" "$work/out"

"$decks" hydrographs "$seed" "$hydrographs" > "$work/decks"
"$hec1" --hydrograph < "$work/decks" > "$work/out" || failed=$((failed + 1))
check count hydrographs "$(sheet_refusals)" < "$work/out"
check "$root/target/second/hydrographs" < "$work/decks"
"$root/target/second/hydrographs" --text < "$work/decks" > "$work/text" || failed=$((failed + 1))
check cmp "$work/text" "$work/out"

"$decks" reasons "$seed" "$reasons" > "$work/decks"
"$hec1" --reason < "$work/decks" > "$work/out" || failed=$((failed + 1))
echo "reasons  $(grep -c '^--$' "$work/out")"
check "$root/target/second/reasons" < "$work/decks"
"$root/target/second/reasons" --text < "$work/decks" > "$work/text" || failed=$((failed + 1))
check cmp "$work/text" "$work/out"

mkdir "$work/tables"
"$decks" tables "$seed" "$tables" "$work/tables" || failed=$((failed + 1))
echo "tables   $tables"
check "$root/target/second/tables" "$work/tables"/*.hc1
for deck in "$work/tables"/*.hc1; do
    "$hec1" --network "$deck" || failed=$((failed + 1))
done > "$work/out"
check drawn < "$work/out"

"$decks" sound "$seed" "$pairs" > "$work/decks"
"$hec1" --bundle < "$work/decks" > "$work/out" || failed=$((failed + 1))
check count sound "" < "$work/out"

"$decks" pairs "$seed" "$pairs" > "$work/decks"
"$hec1" --bundle < "$work/decks" > "$work/out" || failed=$((failed + 1))
check count pairs "11" < "$work/out"
check "$root/target/second/check-pairs" < "$work/out" > "$work/said"
cat "$work/said"
check grep -q 'with ponds [1-9]' "$work/said"
check "$root/target/second/zeros" --pairs < "$work/decks"

# the long decks that are written for timing
for kind in lists zeros blocks storms ratios routing ponds; do
    "$decks" big "$seed" "$kind" | "$hec1" > "$work/out" || failed=$((failed + 1))
    echo "long     $kind: $(tail -n 1 "$work/out")"
    check grep -q '^END ' "$work/out"
done

echo "$passed passed, $failed failed"
[ "$failed" -eq 0 ]
