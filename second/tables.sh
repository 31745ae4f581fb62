#!/bin/sh
# tables.sh [--program PROGRAM] [SEED [COUNT]]
# Tests what the command ./hec1 makes for people: tables, the network as text, and pictures.
# Tables and networks are held, byte by byte, against those that the second program works from its own ordinates: of every deck of examples/,
# alone and all side by side, and of 500 decks of the deck writer, alone and eight side by side. Then against texts worked by hand, with every
# word that is said of what cannot be shown. Pictures are tested by stand-ins for gnuplot and graphviz, which keep what they are to draw: it has
# to be the proved ordinates under the names of their blocks. Where these programs are there they draw too, and nothing is installed.
# The last line is 'N passed, M failed', and the exit status agrees.
#
# --program, to try this script itself: a program that ./hec1 is to start in place of the proved one.
set -u
root=$(CDPATH="" cd -- "$(dirname -- "$0")/.." && pwd -P) || exit 2
. "$root/second/kit.sh" || exit 2
. "$root/second/trying.sh" || exit 2
take_command "$@"
if [ "${1:-}" = --program ]; then shift 2; fi
seed=${1:-1}
count=${2:-500}
sh "$root/second/build-decks.sh" || exit 2

# ---- beside the second program

# both OPTION FILE...: what the command and the second program print
both() {
    "$hec1" --quiet "$@" >"$scratch/got" 2>/dev/null </dev/null
    "$second" "$@" >"$scratch/expected" 2>/dev/null </dev/null
    same "$*" "$scratch/expected" "$scratch/got"
}

cd "$root" || exit 2
find examples -name '*.hc1' | LC_ALL=C sort >"$scratch/examples"
holds 'there are examples' test -s "$scratch/examples"
while IFS= read -r deck; do
    both --table "$deck"
    both --network "$deck"
done <"$scratch/examples"
# shellcheck disable=SC2046
both --table $(cat "$scratch/examples")

mkdir "$scratch/decks" && cd "$scratch/decks" || exit 2
"$root/target/second/decks" tables "$seed" "$count" "$scratch/decks" || exit 2
holds "there are $count decks" test "$(find . -name '*.hc1' | wc -l)" -eq "$count"
set --
for deck in *.hc1; do
    both --table "$deck"
    both --network "$deck"
    set -- "$@" "$deck"
    if [ $# = 8 ]; then
        both --table "$@"
        set --
    fi
done

# ---- tables

place=$scratch/place
mkdir "$place" && cd "$place" || exit 2
basin='ID POND\n*FREE\nIT 60,,,4\nKK UP\nBA 1.50\nPI 0.50,0.30,0.10\nLU 0.50,0.10\nUI 10,4\nKK RIV\nRM 1,1.00,0.20\nKK SIDE\nQI 1,2,2,1\nKK OUT\nHC 2\nZZ\n'
printf '%b' "$basin" >basin.hc1
printf '%b' "$basin" | sed 's/^IT.*/&\nJR PREC,1.00,2.00/' >two.hc1
printf '%b' "$basin" | sed 's/^IT.*/&\nJR PREC,1.00/' >one.hc1
printf '*FREE\nIT 60,,,4\nKK A\nPI 25\n' >bad.hc1
bad_words=':4: field 1 is 25; rain is 0 to 20 (refusal 7): PI 25\n'

# 168,000,000 units for 60 minutes are 2.8 cfs for an hour, 10,080 cubic feet, 0.2314 acre-feet; over 960 acres that is 0.00289 inch
head='OPERATION      STATION  PEAK CFS  TIME H:MM  ACRE-FEET  INCHES  SQ MILES\n'
rows='HYDROGRAPH AT  UP           2.00       2:00      0.231   0.003      1.50\nROUTED TO      RIV          1.37       3:00      0.213   0.003      1.50
HYDROGRAPH AT  SIDE         2.00       2:00      0.496       -         -\n2 COMBINED AT  OUT          3.37       3:00      0.709   0.009      1.50\n'
input "$basin"
try 'a table' 0 "RUNOFF SUMMARY: basin.hc1\nPOND\n\n$head$rows" '' "$hec1" --table basin.hc1
try 'a table from standard input' 0 "RUNOFF SUMMARY: -\nPOND\n\n$head$rows" '' "$hec1" --table
try 'a table, behind --' 0 "RUNOFF SUMMARY: basin.hc1\nPOND\n\n$head$rows" '' "$hec1" --table -- basin.hc1
try 'a table under one ratio' 0 "RUNOFF SUMMARY: one.hc1, ratio 1.00\nPOND\n\n$head$rows" '' "$hec1" --table one.hc1
input ''
try 'a table of no deck' 2 '' 'hec1: none.hc1: no such file\n' "$hec1" --table none.hc1
try 'a table of a folder' 2 '' 'hec1: .: is a folder\n' "$hec1" --table .
try 'a table of a refused deck' 1 'REFUSED 7 4\n' "bad.hc1$bad_words" "$hec1" --table bad.hc1
try 'tables of refused decks' 1 'RUNOFF SUMMARY\n-  bad.hc1: REFUSED 7 4\n-  bad.hc1: REFUSED 7 4\n' "bad.hc1${bad_words}bad.hc1$bad_words" "$hec1" --table bad.hc1 bad.hc1
try 'tables of no deck' 2 '' 'hec1: none.hc1: no such file\nhec1: .: is a folder\n' "$hec1" --table none.hc1 .
legend='RUNOFF SUMMARY\n1  two.hc1, ratio 1.00: POND\n2  two.hc1, ratio 2.00: POND\n'
# under ratio 2.00 UP has 1.00, 0.60 and 0.20 inch, of which 0.40, 0.50 and 0.10 are left: 4, 6.6, 3 and 0.4 cfs, 50,400 cubic feet
side='OPERATION      STATION                 1      2\nHYDROGRAPH AT  UP       PEAK CFS    2.00   6.60\n                        TIME H:MM   2:00   2:00
                        ACRE-FEET  0.231  1.157\n                        INCHES     0.003  0.014\n                        SQ MILES    1.50   1.50\n'
"$hec1" --table two.hc1 >"$scratch/out" 2>"$scratch/err"
printf '%b' "$legend\n$side" >"$scratch/expected"
head -n 10 "$scratch/out" >"$scratch/got"
same 'ratios side by side' "$scratch/expected" "$scratch/got"
"$hec1" --quiet --table two.hc1 bad.hc1 none.hc1 basin.hc1 >"$scratch/out" 2>"$scratch/err"
holds 'decks side by side: status' test $? = 2
printf '%b' "$legend-  bad.hc1: REFUSED 7 4\n3  basin.hc1: POND\n\n" >"$scratch/expected"
head -n 6 "$scratch/out" >"$scratch/got"
same 'decks side by side: legend' "$scratch/expected" "$scratch/got"
printf '%b' "bad.hc1${bad_words}hec1: none.hc1: no such file\n" >"$scratch/expected"
same 'decks side by side: words' "$scratch/expected" "$scratch/err"
printf '%b' "$basin" >'a\tb "c" %s.hc1'
try 'a table of an odd name' 0 "RUNOFF SUMMARY: a\\\\tb \"c\" %s.hc1\nPOND\n\n$head$rows" '' "$hec1" --table 'a\tb "c" %s.hc1'
# a path's blanks end no line
printf '%b' "$basin" >'blanks  '
both --table 'blanks  '
both --network 'blanks  '
both --table 'blanks  ' basin.hc1
# the most: 300 times 100,000 cfs for a day, over 0.01 square mile
awk 'BEGIN { print "*FREE\nIT 1440,,,300\nKK MOST\nBA 0.01"; for (k = 0; k < 300; k++) print "QI 100000"; print "ZZ" }' >"$scratch/in"
try 'the largest figures' 0 'RUNOFF SUMMARY: -\n\nOPERATION      STATION   PEAK CFS  TIME H:MM     ACRE-FEET         INCHES  SQ MILES
HYDROGRAPH AT  MOST     100000.00      24:00  59504132.231  111570247.934      0.01\n' '' "$hec1" --table
input '*FREE\nIT 1440,,,300\nKK NONE\nQI 0\nZZ\n'
try 'no flow at all' 0 'RUNOFF SUMMARY: -\n\nOPERATION      STATION  PEAK CFS  TIME H:MM  ACRE-FEET  INCHES  SQ MILES
HYDROGRAPH AT  NONE         0.00          -      0.000       -         -\n' '' "$hec1" --quiet --table
input '*FREE\nIT 60,,,4\nKK A\nQI 1,2\nZZ\n'
short='RUNOFF SUMMARY: -\n\nOPERATION      STATION  PEAK CFS  TIME H:MM  ACRE-FEET  INCHES  SQ MILES\nHYDROGRAPH AT  A            2.00       2:00      0.248       -         -\n'
try 'warnings beside a table' 0 "$short" '-:3: warning: block 1 (A) has 2 values on QI, and NQ is 4: behind the last one the flow is zero: KK A\n' "$hec1" --table
try 'a table without warnings' 0 "$short" '' "$hec1" --quiet --table
if [ -c /dev/full ]; then
    "$hec1" --table basin.hc1 >/dev/full 2>"$scratch/got"
    holds 'a table that cannot be written: status' test $? = 2
    echo 'hec1: standard output: cannot be written to' >"$scratch/expected"
    same 'a table that cannot be written: words' "$scratch/expected" "$scratch/got"
fi

# ---- the network

diagram='     4      UP\n            V\n            V\n     9     RIV\n            .\n            .\n    11      .        SIDE
            .         .\n            .         .\n    13     OUT.........\n'
key='\n\n  LINE  (V) ROUTED  (.) HELD OR JOINED\n\n'
input "$basin"
try 'a network' 0 "STREAM NETWORK: basin.hc1$key$diagram" '' "$hec1" --network basin.hc1
try 'a network from standard input' 0 "STREAM NETWORK: -$key$diagram" '' "$hec1" --network
input ''
try 'a network of two decks' 2 '' 'hec1: --network takes one file\n' "$hec1" --network basin.hc1 basin.hc1
try 'a network of no deck' 2 '' 'hec1: none.hc1: no such file\n' "$hec1" --network none.hc1
try 'a network refused before a block is closed' 1 'REFUSED 7 4\n' "bad.hc1$bad_words" "$hec1" --network bad.hc1
# refused decks: blocks that are closed before the line at fault
two='     3      A\n            .\n            .\n     5      .         B\n'
start='*FREE\nIT 60,,,4\nKK A\nQI 1\nKK B\nQI 2\n'
input "${start}ZZ\n"
try 'a network with two held at the end' 1 "REFUSED 15 7\nSTREAM NETWORK: -$key$two" '-:7: other than one hydrograph held at the end (refusal 15): ZZ\n' "$hec1" --network
input "${start}KK C\nHC 3\nZZ\n"
try 'a network with too few held' 1 "REFUSED 10 9\nSTREAM NETWORK: -$key$two" '-:9: too few hydrographs held for HC, RM or RS in the block of line 7 (refusal 10): ZZ\n' "$hec1" --network
input "${start}KK C\nHC 2\n"
try 'a network without ZZ' 1 "REFUSED 16 0\nSTREAM NETWORK: -$key$two" '-: no ZZ line (refusal 16)\n' "$hec1" --network
input "${start}KK C\nHC 9\nZZ\n"
try 'a network with a wrong field' 1 "REFUSED 7 8\nSTREAM NETWORK: -$key$two" '-:8: field 1 is 9; hydrographs to join are 2 to 5 (refusal 7): HC 9\n' "$hec1" --network
awk 'BEGIN { print "*FREE\nIT 60,,,1"; for (k = 1; k <= 201; k++) print "KK B" k "\n" (k == 1 ? "QI 1" : "RM 1,1,0"); print "ZZ" }' >"$scratch/in"
"$hec1" --network <"$scratch/in" >"$scratch/out" 2>/dev/null
holds 'a network of too many: the last' test "$(tail -n 1 "$scratch/out")" = '   401     B200'

# ---- pictures, by stand-ins for the programs that draw: each keeps its script, and draws its name

mkdir "$scratch/tools"
for tool in gnuplot dot; do
    {
        printf '#!/bin/sh\nfor last; do :; done\n{ echo "$@" | sed "s| [^ ]*$||"; cat "$last"; } >"%s/kept"\n' "$scratch"
        printf 'if [ -e "%s/fault" ]; then echo "line 1: bad" >&2; exit 1; fi\necho %s\n' "$scratch" "$tool"
    } >"$scratch/tools/$tool"
    chmod +x "$scratch/tools/$tool"
done
real=$PATH
PATH=$scratch/tools:$PATH

# drawn WORDS PICTURE TOOL: whether the words on standard error are those, and the picture is what the tool drew
drawn() {
    echo "$1" | cmp -s - "$scratch/err" && echo "$3" | cmp -s - "$2"
}
# plot NAME WORD...: asks for a picture
plot() {
    what=$1
    shift
    rm -f "$scratch/kept"
    "$hec1" --plot "$@" <"$scratch/in" >"$scratch/out" 2>"$scratch/err"
    ended=$?
}
# curves: the curves of what was to be drawn: for each its name, and its points as minutes and cfs
curves() {
    LC_ALL=C awk '
        # a quoted text, in which bytes are written by their numbers
        function plain(text,    said) {
            while (match(text, /\\[0-7][0-7][0-7]/)) {
                said = said substr(text, 1, RSTART - 1) sprintf("%c", substr(text, RSTART + 1, 1) * 64 + substr(text, RSTART + 2, 1) * 8 + substr(text, RSTART + 3, 1))
                text = substr(text, RSTART + 4)
            }
            return said text
        }
        /^\$curve[0-9]+ << EOD$/ {
            k = substr($1, 7)
            points[k] = 0
            next
        }
        $0 == "EOD" { k = 0 }
        k { point[k, ++points[k]] = $0 }
        /^plot / {
            count = split($0, part, /(plot|,) \$curve/)
            for (c = 2; c <= count; c++) {
                split(part[c], word, "\"")
                if (word[1] !~ "^" c - 1 " using [(][$]1/60[.]0[)]:2 with lines ") print "curve " c - 1 " is " part[c]
                print plain(word[2])
                for (i = 1; i <= points[c - 1]; i++) print point[c - 1, i]
            }
        }' "$scratch/kept"
}
# curve NAME BLOCK RATIO FILE: a curve as it has to be
curve() {
    printf '%s\n' "$1"
    "$hec1" --hydrograph "$2" --ratio "$3" "$4" | sed -n 's/^[0-9]*,\([0-9]*,[0-9.]*\),[0-9]*$/\1/p'
}
input ''
plot 'every block' basin.hc1
holds 'a plot: status' test "$ended" = 0
holds 'a plot: its picture' drawn 'hec1: basin.svg is written' basin.svg gnuplot
holds 'a plot: nothing on standard output' test ! -s "$scratch/out"
holds 'a plot: no settings of the user' test "$(head -n 1 "$scratch/kept")" = --default-settings
holds 'a plot: SVG' grep -q '^set terminal svg ' "$scratch/kept"
holds 'a plot: its title' grep -qx 'set title "POND"' "$scratch/kept"
holds 'a plot: hours' grep -qx "set xlabel 'hours from the start'" "$scratch/kept"
holds 'a plot: cfs' grep -qx "set ylabel 'flow in cfs'" "$scratch/kept"
holds 'a plot: up to the last interval' grep -qx 'set xrange \[0:240/60.0\]' "$scratch/kept"
for block in UP RIV SIDE OUT; do curve "$block" "$block" 1 basin.hc1; done >"$scratch/expected"
curves >"$scratch/got"
same 'a plot of every block' "$scratch/expected" "$scratch/got"
plot 'a block' --to "$scratch/some.png" basin.hc1 OUT 1
holds 'a plot to PNG: its picture' drawn "hec1: $scratch/some.png is written" "$scratch/some.png" gnuplot
holds 'a plot to PNG: how' grep -q '^set terminal pngcairo ' "$scratch/kept"
{ curve OUT OUT 1 basin.hc1; curve UP UP 1 basin.hc1; } >"$scratch/expected"
curves >"$scratch/got"
same 'a plot of two blocks, in the order asked for' "$scratch/expected" "$scratch/got"
plot 'every ratio' two.hc1 UP
{ curve 'UP, ratio 1.00' UP 1 two.hc1; curve 'UP, ratio 2.00' UP 2 two.hc1; } >"$scratch/expected"
curves >"$scratch/got"
same 'a plot under every ratio' "$scratch/expected" "$scratch/got"
plot 'one ratio' --to two.svg --ratio 2 two.hc1
for block in UP RIV SIDE OUT; do curve "$block, ratio 2.00" "$block" 2 two.hc1; done >"$scratch/expected"
curves >"$scratch/got"
same 'a plot under one ratio' "$scratch/expected" "$scratch/got"
plot 'standard output' --to - basin.hc1 OUT
holds 'a plot to standard output' test "$ended:$(cat "$scratch/out" "$scratch/err")" = 0:gnuplot
input "$basin"
plot 'standard input'
holds 'a plot of standard input' drawn 'hec1: deck.svg is written' deck.svg gnuplot
# without a title the deck has its name; names that gnuplot could take for something else
printf '%s\n' '*FREE' 'IT 60,,,4' 'KK a"\n%x' 'QI 1,2,1' "KK '<&>'" 'QI 3' 'KK a"\n%x' 'HC 2' 'KK `date`' 'RM 1,1,0' 'KK x.1289' 'RM 1,1,0' 'ZZ' >"it's.hc1"
plot 'odd names' "it's.hc1"
grep '^plot \|^set title ' "$scratch/kept" >"$scratch/said"
holds 'odd names: nothing that gnuplot runs or takes for something else' sh -c '! grep -q "[@%<&\`]" "$1"' sh "$scratch/said"
holds 'odd names: the title' grep -qxF 'set title "it\047s\056hc\061"' "$scratch/kept"
{ curve 'a"\n%x (block 1)' 1 1 "it's.hc1"; curve "'<&>'" 2 1 "it's.hc1"; curve 'a"\n%x (block 3)' 3 1 "it's.hc1"; curve '`date`' 4 1 "it's.hc1"
  curve x.1289 5 1 "it's.hc1"; } >"$scratch/expected"
curves >"$scratch/got"
same 'odd names' "$scratch/expected" "$scratch/got"
# up to twelve curves without a name, else the last block
awk 'BEGIN { print "*FREE\nIT 60,,,2\nKK A\nQI 1"; for (k = 2; k <= 12; k++) print "KK R" k "\nRM 1,1,0"; print "ZZ" }' >twelve.hc1
plot 'twelve' twelve.hc1
holds 'twelve curves' test "$(curves | grep -c '^[AR]')" = 12
sed 's/^IT.*/&\nJR PREC,1,2/' twelve.hc1 >many.hc1
plot 'many' many.hc1
{ curve 'R12, ratio 1.00' R12 1 many.hc1; curve 'R12, ratio 2.00' R12 2 many.hc1; } >"$scratch/expected"
curves >"$scratch/got"
same 'more than twelve curves' "$scratch/expected" "$scratch/got"
printf 'hec1: many.hc1: 12 blocks under 2 ratios are more than 12 curves: the last block alone is drawn; name others behind the file\nhec1: many.svg is written\n' >"$scratch/expected"
same 'more than twelve curves: words' "$scratch/expected" "$scratch/err"
printf '*FREE\nIT 60,,,4\nKK Z\nQI 0\nZZ\n' >zero.hc1
plot 'zero' zero.hc1
holds 'no flow at all has an axis' grep -qx 'set yrange \[0:1\]' "$scratch/kept"

# the axis of time ends behind the last flow above a thousandth of the highest, an interval or a twentieth more, or with the run
for flows in '1000,1,1,1.01:240' '1000,1,1.01,1,1:240' '0,0,1000,0,1,1,1:240' '1000,0,0,0:120' '0,0,0,0,0:300'; do
    printf '*FREE\nIT 60,,,%s\nKK A\nQI %s\nZZ\n' "$(echo "${flows%:*}" | tr ',' '\n' | wc -l)" "${flows%:*}" >tail.hc1
    plot 'the axis of time' tail.hc1
    holds "the axis of time, $flows" grep -qx "set xrange \\[0:${flows#*:}/60.0\\]" "$scratch/kept"
done
awk 'BEGIN { print "*FREE\nIT 60,,,300\nKK A"; for (k = 0; k < 100; k++) print "QI 1"; print "ZZ" }' >tail.hc1
plot 'the axis of time' tail.hc1
holds 'the axis of time, a third' grep -qx 'set xrange \[0:6300/60.0\]' "$scratch/kept"
awk 'BEGIN { print "*FREE\nIT 60,,,3\nJR PREC,1,2,3,4,5,6,7,8,9\nKK A\nBA 1\nPI 1\nLU\nUI 10\nZZ" }' >nine.hc1
plot 'nine ratios' nine.hc1
holds 'nine ratios have nine colours' test "$(grep '^plot ' "$scratch/kept" | grep -o "linecolor '#[0-9a-f]*' dashtype solid" | sort -u | wc -l)" = 9

# what cannot be drawn
input ''
rm -f ./*.svg
try 'a plot of a refused deck' 1 'REFUSED 7 4\n' "bad.hc1$bad_words" "$hec1" --plot bad.hc1
try 'a plot of no deck' 2 '' 'hec1: none.hc1: no such file\n' "$hec1" --plot none.hc1
try 'a plot of no block' 2 '' "hec1: basin.hc1: there is no block 'XX'; the deck has 4 blocks\n" "$hec1" --plot basin.hc1 UP XX
try 'a plot of a name that stands twice' 2 '' "hec1: it's.hc1: 'a\"\\\\n%x' is the name of blocks 1 and 3; say which one by its number\n" "$hec1" --plot "it's.hc1" 'a"\n%x'
try 'a plot of no ratio' 2 '' 'hec1: two.hc1: there is no ratio 3; the deck has 2 ratios\n' "$hec1" --plot --ratio 3 two.hc1 UP
try 'a plot of no ratio, every block' 2 '' 'hec1: two.hc1: there is no ratio 3; the deck has 2 ratios\n' "$hec1" --plot --ratio 3 two.hc1
try 'a plot of a ratio that is no number' 2 '' 'hec1: --ratio wants the place of a ratio on JR, a number from 1\n' "$hec1" --plot --ratio x two.hc1
for words in '' x.gif svg .svg png x.svg.gz folder/.png; do
    for option in --plot --network; do
        try "$option to '$words'" 2 '' 'hec1: --to wants the name of a picture, which ends with .svg or .png, or - for standard output\n' "$hec1" "$option" --to "$words" basin.hc1
    done
done
try 'a plot into a folder that is not there' 2 '' 'hec1: none/x.svg: cannot be written to\n' "$hec1" --plot --to none/x.svg basin.hc1
mkdir folder.svg
try 'a plot into the place of a folder' 2 '' 'hec1: folder.svg: cannot be written to\n' "$hec1" --plot --to folder.svg basin.hc1
: >"$scratch/fault"
try 'a plot that fails' 2 '' 'line 1: bad\nhec1: basin.hc1: gnuplot drew no picture\n' "$hec1" --plot basin.hc1
try 'a network that fails' 2 '' 'line 1: bad\nhec1: basin.hc1: dot drew no picture\n' "$hec1" --network --to x.svg basin.hc1
rm "$scratch/fault"
holds 'no picture where one failed' test -z "$(find . -name '*.svg' -type f)"

# the network as a picture
"$hec1" --network --to net.svg basin.hc1 >"$scratch/out" 2>"$scratch/err"
holds 'a network drawn: its picture' drawn 'hec1: net.svg is written' net.svg dot
holds 'a network drawn: nothing on standard output' test ! -s "$scratch/out"
holds 'a network drawn: SVG' test "$(head -n 1 "$scratch/kept")" = -Tsvg
holds 'a network drawn: its title' grep -q '^    label="POND";' "$scratch/kept"
sed -n 's/^ *\(b[0-9]* -> b[0-9]*\);$/\1/p; s/^ *\(b[0-9]* \[label="[^"]*", shape=[a-z]*\),.*/\1/p' "$scratch/kept" >"$scratch/got"
printf '%s\n' 'b1 [label="UP\nbasin", shape=box' 'b2 [label="RIV\nreach", shape=box' 'b1 -> b2' 'b3 [label="SIDE\ninflow", shape=ellipse' 'b4 [label="OUT\nconfluence", shape=ellipse' \
    'b2 -> b4' 'b3 -> b4' >"$scratch/expected"
same 'a network drawn: blocks and arrows' "$scratch/expected" "$scratch/got"
"$hec1" --network --to net.png "it's.hc1" >/dev/null 2>&1
holds 'a network drawn: PNG' test "$(head -n 1 "$scratch/kept")" = -Tpng
holds 'a network drawn: odd names' grep -qF 'b1 [label="a\"\\n%x\ninflow",' "$scratch/kept"
"$hec1" --network --to - basin.hc1 >"$scratch/out" 2>"$scratch/err"
holds 'a network drawn to standard output' test "$(cat "$scratch/out" "$scratch/err")" = dot

# without the programs that draw
bare_tools
for deck in basin.hc1 bad.hc1; do
    try "no gnuplot, $deck" 2 '' "hec1: gnuplot is missing, which draws the picture (Debian's package gnuplot-nox: apt-get install gnuplot-nox, as root)\n" \
        env PATH="$scratch/nothing" "$hec1" --plot "$deck"
    try "no graphviz, $deck" 2 '' "hec1: dot is missing, which draws the picture (Debian's package graphviz: apt-get install graphviz, as root)\n" \
        env PATH="$scratch/nothing" "$hec1" --network --to x.svg "$deck"
done

# where they are there, they draw what is handed to them
PATH=$real
for tool in gnuplot dot; do
    if ! command -v "$tool" >/dev/null 2>&1; then
        echo "$tool is not there: what it draws is not tested"
        continue
    fi
    for format in svg png; do
        rm -f "x.$format"
        if [ "$tool" = gnuplot ]; then "$hec1" --plot --to "x.$format" "it's.hc1"; else "$hec1" --network --to "x.$format" "it's.hc1"; fi >"$scratch/out" 2>"$scratch/err"
        echo "hec1: x.$format is written" >"$scratch/expected"
        same "$tool draws, $format" "$scratch/expected" "$scratch/err"
    done
    holds "$tool: SVG" grep -q '^<svg' x.svg
    holds "$tool: PNG" test "$(head -c 4 x.png | od -An -tx1 | tr -d ' \n')" = 89504e47
    # a > may stand as it is
    holds "$tool: a name in it" grep -q '&lt;&amp;[&>]' x.svg
    holds "$tool: a name that a shell would run" grep -q '`date`' x.svg
    holds "$tool: digits behind a point" grep -q 'x[.]1289' x.svg
done

echo "$passed passed, $failed failed"
[ "$failed" -eq 0 ] && [ "$passed" -gt 0 ]
