#!/bin/sh
# compare.sh [--program PROGRAM] [SEED [BUNDLE [CASES [PAIRS [MOVES [SHEETS [HYDROGRAPHS [REASONS]]]]]]]]
# Runs the proved programs and the second program on the same decks and compares what they print, byte by byte.
# By default 20,000 decks of all sorts, 2,000 cases with rooms of all sizes, 4,000 files of records to move, 2,000 decks
# with a block and a ratio to make a sheet of, 2,000 with those of a hydrograph, every block of every deck of examples/
# under every ratio (whose hydrograph must also be the one that the listing sums up), 2,000 lines and reasons why they are
# refused, the refused line of each of the first 2,000 decks that 6 or 7 refuses (which must have a reason, one of that
# number and with what stands on the line), 2,000 pairs of decks that draw one network (which must also answer as such),
# and a few decks, one at a time, on both sides of 60,000 bytes, one of them with the most blocks and ratios that there
# can be, one with the most ponds, one with zeros past the places of every value of its lists.
# Fails too when a refusal is missing: one that depends on rooms in the cases, any other in the bundle, one of the mover
# in the moves, any but that of short work words in the sheets and in the hydrographs; when the bundle lacks an edge or a
# fault of ponds, or a number with zeros past its places or refused with them, or does not tell a wrong rule of either from
# the right one; when the hydrographs or the reasons lack an edge or do not tell a wrong rule; when none of those decks is
# refused by 6 or none by 7; and when the pairs have none with such zeros in one deck alone.
# The last line is 'N passed, M failed', where each deck, case, file, sheet, hydrograph, line and pair counts as one; the
# exit status agrees with it.
#
# --program, to try this script itself: a program to start in place of the proved ones (with --bundle, --cases, --mover,
# --sheet, --hydrograph or --reason).
set -u
root=$(CDPATH="" cd -- "$(dirname -- "$0")/.." && pwd -P) || exit 2
. "$root/second/kit.sh" || exit 2
program=
if [ "${1:-}" = --program ]; then
    program=${2:?--program wants a program}
    shift 2
fi
seed=${1:-1}
bundle=${2:-20000}
cases=${3:-2000}
pairs=${4:-2000}
moves=${5:-4000}
sheets=${6:-2000}
hydrographs=${7:-2000}
reasons=${8:-2000}
second=$root/target/second/hec1
decks=$root/target/second/decks
work=$(mktemp -d) || exit 2
trap 'rm -rf "$work"' EXIT
trap 'exit 2' HUP INT TERM
passed=0
failed=0

die() {
    echo "compare.sh: $*" >&2
    exit 2
}

# ---- the programs

sh "$root/second/build.sh" || die "the second program was not built"
sh "$root/second/build-decks.sh" || die "the deck writer was not built"

if [ -z "$program" ]; then
    sh "$root/second/programs.sh" hec1 bundle rooms mover sheet hydrograph reason || die "the programs were not proved and built"
fi

# proved NAME: starts a proved program; these have no exit status of their own
proved() {
    if [ -z "$program" ]; then
        "$root/target/bin/$1"
    else
        case $1 in
        bundle) "$program" --bundle ;;
        rooms) "$program" --cases ;;
        mover) "$program" --mover ;;
        sheet) "$program" --sheet ;;
        hydrograph) "$program" --hydrograph ;;
        reason) "$program" --reason ;;
        *) "$program" ;;
        esac
    fi
}

# ---- the comparison

# compare WHAT COUNT NUMBERS: the two outputs, $work/proved and $work/second, must be the same for each of so many
# decks, and each refusal named must occur
compare() {
    awk -v what="$1" -v count="$2" -v need="$3" -v last="$refusals" -v other="$work/second" '
        # the first line in which two answers differ, a long one cut short
        function difference(a, b,    i, n, x, y) {
            n = split(a, x, "\n")
            split(b, y, "\n")
            for (i = 1; i < n && x[i] "" == y[i] ""; i++);
            return "line " i ": " substr(x[i], 1, 100) ", and the second program: " substr(y[i], 1, 100)
        }
        function report(line) { if (++said <= 5) print "    " line }
        { mine = mine $0 "\n" }
        first == "" { first = $0 == "" ? " " : $0 }
        $0 == "--" {
            theirs = ""
            do {
                more = (getline line < other)
                if (more > 0) theirs = theirs line "\n"
            } while (more > 0 && line != "--")
            n++
            if (mine == theirs) same++
            else if (said < 5) report(what " " n ", " difference(mine, theirs))
            if (first ~ /^REFUSED [0-9]+( [0-9]+)?$/) { split(first, f, " "); refused[f[2]]++ }
            else accepted++
            mine = first = ""
        }
        END {
            printf "%-8s %6d  same %6d, accepted %6d\n", what, n, same, accepted
            for (i = 1; i <= last; i++) if (refused[i]) printf "    refusal %2d: %6d\n", i, refused[i]
            k = split(need, must, " ")
            for (i = 1; i <= k; i++) if (!refused[must[i]]) { print "    refusal " must[i] " is missing"; missing++ }
            if (n != count) print "    " n " answers to " count
            print same + 0, (same < count ? count - same : 0) + missing
        }' "$work/proved" >"$work/said"
    sed '$d' "$work/said"
    read -r good bad <<EOF
$(tail -n 1 "$work/said")
EOF
    # whatever the count of decks says, the outputs have to be equal as they stand
    if ! cmp -s "$work/proved" "$work/second" && [ "$bad" = 0 ]; then
        echo "    the outputs differ behind the last answer"
        bad=1
    fi
    passed=$((passed + good))
    failed=$((failed + bad))
}

# both NAME OPTION: runs both programs on $work/decks
both() {
    proved "$1" <"$work/decks" >"$work/proved" 2>"$work/said" || failed=$((failed + 1))
    if [ -s "$work/said" ]; then
        failed=$((failed + 1))
        sed 's/^/    said: /' "$work/said"
    fi
    "$second" ${2:+"$2"} <"$work/decks" >"$work/second" || failed=$((failed + 1))
}

# counted COUNTER [WORD]: what a counter asks of $work/decks is there
counted() {
    counter=$1
    shift
    if "$root/target/second/$counter" "$@" <"$work/decks" >"$work/said"; then
        passed=$((passed + 1))
    else
        failed=$((failed + 1))
        grep ': MISSING$' "$work/said"
    fi
}

# refused_lines DECKS: which of the first so many listings in $work/proved are refused by 6 or 7: the deck's index from 0,
# the number and the line
refused_lines() {
    awk -v decks="$1" '
        first == "" { first = $0 == "" ? " " : $0 }
        $0 == "--" {
            if (first ~ /^REFUSED [67] [0-9]+$/) { split(first, f, " "); print n + 0, f[2], f[3] }
            if (++n == decks) exit
            first = ""
        }' "$work/proved"
}

# ---- bundle, cases, moves, sheets, hydrographs, reasons, pairs

"$decks" bundle "$seed" "$bundle" >"$work/decks" || die "the deck writer failed"
both bundle --bundle
compare bundle "$bundle" "$(deck_refusals)"
refused_lines 2000 >"$work/refused"
counted ponds
counted zeros

"$decks" cases "$seed" "$cases" >"$work/decks" || die "the deck writer failed"
both rooms --cases
compare cases "$cases" "$room_refusals"

"$decks" moves "$seed" "$moves" >"$work/decks" || die "the deck writer failed"
both mover --mover
compare moves "$moves" "$mover_refusals"

"$decks" sheets "$seed" "$sheets" >"$work/decks" || die "the deck writer failed"
both sheet --sheet
compare sheets "$sheets" "$(sheet_refusals)"

"$decks" hydrographs "$seed" "$hydrographs" >"$work/decks" || die "the deck writer failed"
both hydrograph --hydrograph
compare hydrographs "$hydrographs" "$(sheet_refusals)"
counted hydrographs

"$decks" reasons "$seed" "$reasons" >"$work/decks" || die "the deck writer failed"
both reason --reason
compare reasons "$reasons" ''
counted reasons

"$decks" pairs "$seed" "$pairs" >"$work/decks" || die "the deck writer failed"
both bundle --bundle
compare pairs $((2 * pairs)) 11
"$root/target/second/check-pairs" <"$work/proved" >"$work/said"
tail -n 5 "$work/said"
violated=$(sed -n '$s/.*, violations \([0-9][0-9]*\)$/\1/p' "$work/said")
if [ -z "$violated" ]; then
    failed=$((failed + 1))
else
    passed=$((passed + pairs - violated))
    failed=$((failed + violated))
fi
counted zeros --pairs

# four NUMBER: in 4 bytes, the lowest first
four() {
    # shellcheck disable=SC2059
    printf "$(printf '\\%03o\\%03o\\%03o\\%03o' $(($1 % 256)) $(($1 / 256 % 256)) $(($1 / 65536 % 256)) $(($1 / 16777216)))"
}

# ---- the reasons of the bundle

# refused_line LINE: that line of $work/deck to $work/line, and says the form in force there, 1 for free
refused_line() {
    LC_ALL=C awk -v last="$1" -v to="$work/line" '
        NR == last { printf "%s\n", $0 >to; print free + 0; exit }
        /^\*FREE *\r?$/ { free = 1 }
        /^\*FIX *\r?$/ { free = 0 }' "$work/deck"
}

# told: each text in $work/proved must be of the number that its line in $work/lines begins with, and must end with
# something of that line
told() {
    LC_ALL=C awk -v lines="$work/lines" '
        # what stands behind so many words of a text; a blank field is nothing
        function behind(count,    i, rest) {
            rest = text
            for (i = 0; i < count; i++) sub(/^[^ ]* /, "", rest)
            return rest
        }
        function holds(    word) {
            if (text ~ /^NAME /) return number == 6 && line ~ /^KK/ && index(line, behind(1)) > 0
            if (text !~ /^FIELD [1-9][0-9]* [A-Z]+ /) return 0
            split(text, word, " ")
            if (word[3] == "BLANK") return number == 6 && behind(3) != "" && index(line, behind(3)) > 0
            if (word[3] == "NUMBER") return number == 6 && behind(6) != "" && index(line, behind(6)) > 0
            if (word[3] == "PLACES") return number == 6 && behind(7) != "" && index(line, behind(7)) > 0
            if (word[3] == "LIMITS") return number == 7 && (behind(6) == "" || index(line, behind(6)) > 0)
            if (word[3] == "WORD") return line ~ (number == 6 ? "^JR" : "^RS") && (behind(6) == "" || index(line, behind(6)) > 0)
            return 0
        }
        $0 != "--" { text = text $0 }
        $0 == "--" {
            line = ""
            getline line < lines
            number = substr(line, 1, 1) + 0
            line = substr(line, 3)
            met[number]++
            if (holds()) good++
            else if (++bad <= 5) printf "    %d, %s: %s\n", number, line, text
            text = ""
        }
        END {
            printf "refused  by 6 %6d, by 7 %6d, with a reason %6d\n", met[6], met[7], good
            for (i = 6; i <= 7; i++) if (!met[i]) { print "    no deck is refused by " i; bad++ }
            print good + 0, bad + 0
        }' "$work/proved" >"$work/said"
    sed '$d' "$work/said"
    read -r good bad <<EOF
$(tail -n 1 "$work/said")
EOF
    passed=$((passed + good))
    failed=$((failed + bad))
}

: >"$work/cases"
: >"$work/lines"
while read -r index number line; do
    "$decks" one "$seed" "$index" >"$work/deck" || die "the deck writer failed"
    form=$(refused_line "$line")
    { four "$number"; four "$form"; four $(($(wc -c <"$work/line"))); cat "$work/line"; } >>"$work/cases"
    { printf '%s ' "$number"; cat "$work/line"; } >>"$work/lines"
done <"$work/refused"
mv "$work/cases" "$work/decks"
both reason --reason
compare refused $(($(wc -l <"$work/refused"))) ''
told

# ---- the hydrographs of examples/

# every_block DECK: a case for each line of its listing, which is in $work/listing
every_block() {
    size=$(($(wc -c <"$1")))
    blocks=$(sed -n 's/^END //p' "$work/listing")
    ratios=$(grep -c '^RATIO ' "$work/listing")
    if [ "$ratios" = 0 ]; then ratios=1; fi
    for ratio in $(numbers 1 "$ratios"); do
        for block in $(numbers 1 "$blocks"); do
            four "$block"
            four "$ratio"
            four "$size"
            cat "$1"
        done
    done
}

# summed_up: each text in $work/proved must have the sum, the peak and the peak's interval of its line in $work/lines
summed_up() {
    awk -F, -v lines="$work/lines" '
        $0 == "interval,minutes,cfs,units" { sum = interval = 0; peak = -1; next }
        $0 == "--" {
            line = ""
            getline line < lines
            split(line, listed, " ")
            hundredths = int((peak + 300000) / 600000)
            text = sprintf("%d.%02d", int(hundredths / 100), hundredths % 100)
            if (listed[4] "" == text && listed[5] == interval && listed[6] == sum) good++
            else if (++bad <= 5)
                printf "    text %d: peak %s in %d, sum %.0f, and the listing: %s\n", good + bad, text, interval, sum, line
            sum = peak = interval = ""
            next
        }
        { sum += $4; if ($4 + 0 > peak) { peak = $4 + 0; interval = $1 } }
        END { print good + 0, bad + 0 }' "$work/proved" >"$work/said"
    sed '$d' "$work/said"
    read -r good bad <<EOF
$(tail -n 1 "$work/said")
EOF
    passed=$((passed + good))
    failed=$((failed + bad))
}

: >"$work/cases"
: >"$work/lines"
find "$root/examples" -name '*.hc1' | sort >"$work/examples"
while IFS= read -r deck; do
    cp "$deck" "$work/decks"
    both hec1 ''
    if ! cmp -s "$work/proved" "$work/second"; then
        failed=$((failed + 1))
        echo "    the listings of ${deck#"$root/"} differ"
    fi
    if grep -q '^REFUSED ' "$work/proved"; then continue; fi
    mv "$work/proved" "$work/listing"
    awk 'NF == 6' "$work/listing" >>"$work/lines"
    every_block "$deck" >>"$work/cases"
done <"$work/examples"
mv "$work/cases" "$work/decks"
texts=$(($(wc -l <"$work/lines")))
[ "$texts" -gt 0 ] || die "no deck of examples/ is accepted"
both hydrograph --hydrograph
compare examples "$texts" ''
summed_up

# ---- one at a time

# single BYTES: the deck in $work/decks, with blanks behind its last line up to so many bytes
single() {
    size=$(($(wc -c <"$work/decks")))
    [ "$size" -ge "$1" ] || awk -v n=$(($1 - size)) 'BEGIN { for (i = 0; i < n; i++) printf " " }' >>"$work/decks"
    both hec1 ''
    if cmp -s "$work/proved" "$work/second"; then
        passed=$((passed + 1))
        echo "single   $1 bytes: $(tail -n 1 "$work/proved")"
    else
        failed=$((failed + 1))
        echo "single   $1 bytes: $(tail -n 1 "$work/proved"), and the second program: $(tail -n 1 "$work/second")"
    fi
}
"$decks" big "$seed" lists >"$work/decks" || die "the deck writer failed"
for bytes in 59999 60000 60001 65536 65537 200000; do single "$bytes"; done
"$decks" big "$seed" ratios >"$work/decks" || die "the deck writer failed"
for bytes in 60000 60001; do single "$bytes"; done
"$decks" big "$seed" ponds >"$work/decks" || die "the deck writer failed"
single 60000
"$decks" big "$seed" zeros >"$work/decks" || die "the deck writer failed"
single 60000
: >"$work/decks"
single 0

echo "$passed passed, $failed failed"
[ "$failed" -eq 0 ] && [ "$passed" -gt 0 ]
