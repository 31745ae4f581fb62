#!/bin/sh
# command.sh [--program PROGRAM]
# Tests the command ./hec1: listings, words of refusals, also beside the listings of 2,000 decks of the deck writer, warnings, exit status,
# options and odd names, standard input, several files, bundles, result files, sheets, hydrographs, input and output that fail, how it builds
# the program and how it is installed; every transcript and every link of docs/USERS.md and docs/users/; every deck of examples/ against the
# listing and the sheet beside it, and its hydrographs against those of the second program. The last line is 'N passed, M failed', and the exit status agrees.
#
# --program, to try this script itself: a program that ./hec1 is to start in place of the proved one.
set -u
root=$(CDPATH="" cd -- "$(dirname -- "$0")/.." && pwd -P) || exit 2
. "$root/second/kit.sh" || exit 2
. "$root/second/trying.sh" || exit 2
take_command "$@"

# case_of BLOCK RATIO FILE: a deck as the programs sheet and hydrograph read it
case_of() {
    length=$(($(wc -c <"$3")))
    # shellcheck disable=SC2059
    printf "$(printf '\\%03o\\000\\000\\000\\%03o\\000\\000\\000\\%03o\\%03o\\000\\000' "$1" "$2" $((length % 256)) $((length / 256)))"
    cat "$3"
}

# ---- listings, names and standard input

place=$scratch/place
mkdir "$place" && cd "$place" || exit 2
good='*FREE\nIT 60,,,4\nKK A\nQI 1,2,0,0\nZZ\n'
good_list='A 2 0.00 2.00 2 180000000\nEND 1\n'
bad='ID BAD\n*FREE\nIT 60,,,4\nKK A\nPI 1\nKM\nPI 25.0\nZZ\n'
bad_list='REFUSED 7 7\n'
bad_words=':7: field 1 is 25.0; rain is 0 to 20 (refusal 7): PI 25.0\n'
open_words=': no ZZ line (refusal 16)\n'
input ''
printf '%b' "$good" >good.hc1
printf '%b' "$bad" >pond.hc1
printf 'ID OPEN\n' >open.hc1

try 'a good deck' 0 "$good_list" '' "$hec1" good.hc1
try 'a refused deck' 1 "$bad_list" "pond.hc1$bad_words" "$hec1" pond.hc1
try 'a refusal without a line' 1 'REFUSED 16 0\n' "open.hc1$open_words" "$hec1" open.hc1
input "$good"
try 'standard input' 0 "$good_list" '' "$hec1"
try 'standard input by its name' 0 "$good_list" '' "$hec1" -
input "$bad"
try 'standard input, refused' 1 "$bad_list" "-$bad_words" "$hec1"
try 'several files' 1 "== good.hc1\n${good_list}== pond.hc1\n${bad_list}== good.hc1\n$good_list" "pond.hc1$bad_words" \
    "$hec1" good.hc1 pond.hc1 good.hc1
try 'several files, one of them standard input' 1 "== good.hc1\n${good_list}== -\n$bad_list" "-$bad_words" "$hec1" good.hc1 -
try 'several good files' 0 "== good.hc1\n${good_list}== ./good.hc1\n$good_list" '' "$hec1" good.hc1 ./good.hc1
try 'a missing file' 2 '' 'hec1: none.hc1: no such file\n' "$hec1" none.hc1
try 'a folder' 2 '' 'hec1: .: is a folder\n' "$hec1" .
try 'a missing file among others' 2 "== good.hc1\n${good_list}== pond.hc1\n$bad_list" \
    "hec1: none.hc1: no such file\npond.hc1$bad_words" "$hec1" good.hc1 none.hc1 pond.hc1
if [ "$(id -u)" != 0 ]; then
    printf '%b' "$good" >closed.hc1
    chmod 000 closed.hc1
    try 'a closed file' 2 '' 'hec1: closed.hc1: cannot be read\n' "$hec1" closed.hc1
fi

for odd in 'a b.hc1' ' lead.hc1' '-x.hc1' '-' '--help' '-h' '--' "it's.hc1" '$(echo x).hc1' '*.hc1' '%s.hc1' 'back\slash.hc1' '"q".hc1' "$(printf '\303\204.hc1')"; do
    # './-' is a file; '-' would be standard input, and what begins with '-' an option
    case $odd in -*) word=./$odd ;; *) word=$odd ;; esac
    printf '%b' "$good" >"./$odd"
    try "the name $odd" 0 "$good_list" '' "$hec1" "$word"
    printf '%b' "$bad" >"./$odd"
    printf '%s' "$word" | sed 's/\\/\\\\/g' >"$scratch/word"
    try "the name $odd, refused" 1 "$bad_list" "$(cat "$scratch/word")$bad_words" "$hec1" "$word"
    rm -f "./$odd"
done
printf '%b' "$bad" >"new
line.hc1"
try 'a name of two lines' 1 "$bad_list" "new?line.hc1$bad_words" "$hec1" 'new
line.hc1'
rm -f ./new*
mkdir 'sub folder'
cp pond.hc1 'sub folder/'
try 'a folder with a blank' 1 "$bad_list" "sub folder/pond.hc1$bad_words" "$hec1" 'sub folder/pond.hc1'
mkfifo pipe
printf '%b' "$bad" >pipe &
try 'a pipe' 1 "$bad_list" "pipe$bad_words" "$hec1" pipe
wait
ln -s "$hec1" linked
try 'the command by a link' 1 "$bad_list" "pond.hc1$bad_words" ./linked pond.hc1

# ---- options

usage='usage: hec1 [--quiet] [FILE...]\n       hec1 --bundle [FILE...]\n       hec1 --records|--to-new|--to-old [FILE]
       hec1 --sheet|--hydrograph BLOCK [--ratio R] [FILE]\n       hec1 --hydrographs DIR [FILE]\n       hec1 [--quiet] --table [FILE...]
       hec1 --plot [--to PICTURE] [--ratio R] [FILE [BLOCK...]]\n       hec1 --network [--to PICTURE] [FILE]
       hec1 --install DIR\n       hec1 --version|--help\n'

# unknown WORD, misplaced WORD: what is said of an option that there is not, and of one that stands where a file could
unknown() { printf '%s' "hec1: unknown option $1\n$usage"; }
misplaced() { printf '%s' "hec1: option $1 is out of place: options come first, and files behind them\n$usage"; }

input "$good"
for option in --foo -x -x.hc1 -qx --quiet=yes --help.hc1 --rat --ratios --hydro -1 --- '-a b' '-*' --sheets --records.hc1; do
    printf '%b' "$good" >"./$option"
    try "no option $option" 2 '' "$(unknown "$option")" "$hec1" "$option"
    try "no option $option, behind a file" 2 '' "$(unknown "$option")" "$hec1" good.hc1 "$option"
    try "no option $option, behind an option" 2 '' "$(unknown "$option")" "$hec1" --quiet "$option" good.hc1
    try "a file called $option, behind --" 0 "$good_list" '' "$hec1" -- "$option"
    try "a file called $option, with its folder" 0 "$good_list" '' "$hec1" "./$option"
    rm -f "./$option"
done
try 'no option of two lines' 2 '' "$(unknown '-x?y')" "$hec1" '-x
y'
for words in --bundle --records --to-new --to-old '--sheet A' '--sheet A --ratio 1' '--hydrograph A' '--hydrograph 1 --ratio 1' '--hydrographs apart' --table \
    --plot '--plot --to apart.svg --ratio 1' --network '--network --to apart.svg' '--install apart'; do
    # shellcheck disable=SC2086
    try "no option behind $words" 2 '' "$(unknown --foo)" "$hec1" $words --foo good.hc1
    # shellcheck disable=SC2086
    try "no option behind $words and a file" 2 '' "$(unknown --foo)" "$hec1" $words good.hc1 --foo
    # shellcheck disable=SC2086
    try "an option behind $words" 2 '' "$(misplaced --quiet)" "$hec1" $words --quiet good.hc1
done
for option in -q --quiet -h --help --version --bundle --records --to-new --to-old --sheet --hydrograph --hydrographs --ratio --table --plot --network --to --install \
    --program; do
    printf '%b' "$good" >"./$option"
    try "$option behind a file" 2 '' "$(misplaced "$option")" "$hec1" good.hc1 "$option"
    try "$option behind a file, and a file" 2 '' "$(misplaced "$option")" "$hec1" good.hc1 "$option" good.hc1
    try "$option behind the file of a sheet" 2 '' "$(misplaced "$option")" "$hec1" --sheet A good.hc1 "$option"
    try "a file called $option, behind --" 0 "$good_list" '' "$hec1" -- "$option"
    try "a file called $option, with its folder" 0 "$good_list" '' "$hec1" "./$option"
    try "a file called $option, behind -- and a file" 0 "== good.hc1\n$good_list== $option\n$good_list" '' "$hec1" good.hc1 -- "$option"
    rm -f "./$option"
done
holds 'no folder was made where an option was wrong' test ! -e apart
try 'a ratio without a block' 2 '' "$(misplaced --ratio)" "$hec1" --ratio 1 --sheet A good.hc1
try 'two options' 2 '' "$(misplaced --records)" "$hec1" --bundle --records good.hc1
try '-- alone' 0 "$good_list" '' "$hec1" --
try '-- twice' 2 '' 'hec1: --: no such file\n' "$hec1" -- --
try 'standard input behind --' 0 "$good_list" '' "$hec1" -- -
try 'quiet' 0 "$good_list" '' "$hec1" --quiet
try 'quiet, a file' 0 "$good_list" '' "$hec1" -q good.hc1
try 'quiet, files behind --' 1 "== good.hc1\n${good_list}== pond.hc1\n$bad_list" "pond.hc1$bad_words" "$hec1" -q -- good.hc1 pond.hc1
try 'quiet, another option' 0 "$good_list--\n" '' "$hec1" --quiet --bundle good.hc1
for option in --help -h; do
    sed -n '2,/^$/s/^# \{0,1\}//p' "$root/hec1" | sed '/^set -u/,$d' >"$scratch/expected"
    "$hec1" "$option" >"$scratch/got" 2>&1
    holds "$option: status" test $? = 0
    same "$option" "$scratch/expected" "$scratch/got"
    holds "$option: the options" grep -q '^hec1 --hydrographs DIR FILE' "$scratch/got"
    printf '%b' "$good" >"./$option"
    "$hec1" "$option" >"$scratch/got" 2>&1
    same "$option is no file" "$scratch/expected" "$scratch/got"
    rm -f "./$option"
done
requests=$(find "$root/docs/changes" -name 'CR-*.md' | sed 's/.*CR-0*//; s/\.md$//' | sort -n | tail -n 1)
{
    echo "hec1: Evzorkhum, document 01 with change requests 1 to $requests"
    if find_kit; then "$rt" version; fi
} >"$scratch/expected"
"$hec1" --version >"$scratch/got" 2>&1
same 'the version' "$scratch/expected" "$scratch/got"

# ---- lines quoted

# quote NUMBER LINE WORDS QUOTED DECK
quote() {
    input "$5"
    try "the words of $5" 1 "REFUSED $1 $2\n" "-:$2: $3 (refusal $1): $4\n" "$hec1"
}
eighty=0123456789012345678901234567890123456789012345678901234567890123456789012345678
no_record="is no record of HEC-1's manual: look for a slip of the pen"
quote 4 1 "XX $no_record" 'XX' 'XX'
quote 4 2 "XX $no_record" 'XX' 'ID\r\nXX\r\nZZ\r\n'
quote 4 3 'the identifier stands in columns 1 and 2' '  KK A' '\n\n  KK A\n'
quote 4 1 "%s $no_record" '%s \\\\n $x `y`' '%s \\\\n $x `y`\n'
quote 3 1 'foreign byte in column 3' 'ID?POND' 'ID\tPOND\n'
quote 3 1 'foreign byte in column 1' '???ID' '\0357\0273\0277ID\n'
quote 3 2 'foreign byte in column 4' 'ID ?' 'ID\nID \0000\nZZ\n'
quote 3 1 'foreign byte in column 3' 'ID?' 'ID\r\r\n'
quote 3 1 'foreign byte in column 3' 'ID?X' 'ID\rX\r\n'
quote 3 1 'foreign byte in column 4' 'ID ???' 'ID \0033\0001\0002\n'
quote 3 2 'foreign byte in column 3' 'ZZ?' 'ID\nZZ\r'
for deck in 'ZZ\r' '\r' 'ID A POND\rIT\rZZ\r' 'ID\tA\rZZ\r' "ID${eighty}A\rZZ\r"; do
    quote 3 1 'lines that end with CR alone, as an old Macintosh writes them' "$(printf '%b' "$deck" | tr '\r\t' '??' | head -c 80)" "$deck"
done
quote 3 1 'foreign byte in column 5' 'ID ??' 'ID ?\0177\n'
quote 3 1 'line of 82 bytes, over 80' "ID$(printf %.78s "$eighty")" "ID${eighty}A\n"
quote 4 1 "XX $no_record" "XX$(printf %.78s "$eighty")" "XX$(printf %.78s "$eighty")\r\n"
quote 18 9 'a storm total above 0 with a pattern of zeros in the block of line 3' 'KK B' '*FREE\nIT 60,,,4\nKK A\nBA 1\nPB 1\nPI\nLU\nUI 1\nKK B\n'
quote 19 9 'a table of storage and outflow that breaks a rule in the block of line 5' 'KK B' '*FREE\nIT 60,,,4\nKK A\nQI 1\nKK P\nRS 1,STOR\nSV 0\nSQ 0\nKK B\n'
quote 20 9 'water above the last row of the table in the block of line 5' 'ZZ' '*FREE\nIT 60,,,4\nKK A\nQI 1\nKK P\nRS 1,STOR\nSV 0,.01\nSQ 0,0\nZZ\n'
quote 12 9 'K, X and N do not suit the interval in the block of line 6' 'ZZ end' \
    '*FREE\nIT 60,,,4\nKK A\nQI 1\n\nKK B\nKM KK\nRM 1,0.5,0.2\nZZ end'
for deck in '' '\n' '\n\n\n' '\r\n' '\r\n\n' '   \n' '   ' 'ID\n' '\n\nKM'; do
    input "$deck"
    case $deck in '') also=': the file is empty' ;; *[IK]*) also= ;; *) also=': the file has blank lines only' ;; esac
    try "nothing but '$deck'" 1 'REFUSED 16 0\n' "-: no ZZ line$also (refusal 16)\n" "$hec1"
    try "nothing but '$deck', its records" 1 '' "-: no ZZ line$also (refusal 16)\n" "$hec1" --records
done
head -c 60001 /dev/zero >long.hc1
try 'a deck of 60,001 bytes' 1 'REFUSED 2 0\n' 'long.hc1: deck over 60,000 bytes (refusal 2)\n' "$hec1" long.hc1
head -c 5000000 /dev/zero >long.hc1
try 'a deck of 5,000,000 bytes' 1 'REFUSED 2 0\n' 'long.hc1: deck over 60,000 bytes (refusal 2)\n' "$hec1" long.hc1
{ printf '%b' "$good"; head -c $((60000 - $(printf '%b' "$good" | wc -c))) /dev/zero; } >long.hc1
try 'a deck of 60,000 bytes' 0 "$good_list" '' "$hec1" long.hc1
printf 'x' >>long.hc1
try 'one byte more' 1 'REFUSED 2 0\n' 'long.hc1: deck over 60,000 bytes (refusal 2)\n' "$hec1" long.hc1

# ---- closer words: which field, record or set

# why NUMBER LINE WORDS DECK: the words of a deck, of the same with the line ends of DOS, and with foreign bytes behind it, 60,000 in all
{ printf '\0001\0377\0000\n\r\r\n*FREE\n%0100d\nKK\t\nIT 60,,,4\nZZ\n' 0; head -c 30000 /dev/zero; head -c 30000 /dev/zero | tr '\0' '\252'; } >"$scratch/junk"
why() {
    printf '%b' "$4" >plain.hc1
    sed "s/\$/$(printf '\r')/" plain.hc1 >dos.hc1
    { cat plain.hc1; head -c $((60000 - $(wc -c <plain.hc1))) "$scratch/junk"; } >junk.hc1
    quoted=$(sed -n "${2}p" plain.hc1)
    for one in plain dos junk; do
        printf 'REFUSED %s %s\n%s.hc1:%s: %s (refusal %s): %s\n' "$1" "$2" "$one" "$2" "$3" "$1" "$quoted" >"$scratch/expected"
        "$hec1" -q "$one.hc1" >"$scratch/got" 2>"$scratch/err" </dev/null
        ended=$?
        cat "$scratch/err" >>"$scratch/got"
        if [ "$ended" != 1 ]; then echo "status $ended" >>"$scratch/got"; fi
        same "closer words, $one: $4" "$scratch/expected" "$scratch/got"
    done
}
# the fields of 7: below, above and blank, limits with and without places, one value alone, words
seven() { why 7 "$@"; }
timed='*FREE\nIT 60,,,4\n'
begun="${timed}KK A\n"
seven 2 'field 4 is 400; ordinates are 1 to 300' '*FREE\nIT 60,,,400\n'
seven 2 'field 4 is blank, which reads as 0; ordinates are 1 to 300' '*FREE\nIT 60\n'
seven 2 'field 1 is blank, which reads as 0; minutes are 1 to 1,440' '*FREE\nIT ,,,4\n'
seven 1 'field 1 is 1441; minutes are 1 to 1,440' 'IT  1441                       0\n'
seven 1 'field 4 is -1; ordinates are 1 to 300' 'IT    60                      -1\n'
seven 3 'field 2 is blank, which reads as 0; ratios are 0.01 to 9.99' "${timed}JR PREC\n"
seven 3 'field 3 is blank, which reads as 0; ratios are 0.01 to 9.99' "${timed}JR PREC,1,,2\n"
seven 3 'field 10 is 10.0; ratios are 0.01 to 9.99' "${timed}JR PREC,1,1,1,1,1,1,1,1,10.0\n"
seven 4 'field 1 is blank, which reads as 0; the area is 0.01 to 9,999.99' "${begun}BA\n"
seven 4 'field 1 is 10000; the area is 0.01 to 9,999.99' "${begun}BA 10000\n"
seven 4 'field 2 is 20.0001; rain is 0 to 20' "${begun}PI 20,20.0001\n"
seven 4 'field 1 is 101; the total is 0 to 100' "${begun}PB 101\n"
seven 4 'field 1 is -.1; the initial loss is 0 to 20' "${begun}LU -.1,-1\n"
seven 4 'field 2 is 21; the uniform loss is 0 to 20' "${begun}LU 0,21,1\n"
seven 4 'field 3 is 20; the impervious part is 0' "${begun}LU 0.5,0.1,20\n"
seven 4 'field 1 is 100000; unit ordinates are 0 to 99,999.99' "${begun}UI 100000\n"
seven 4 'field 4 is 100000.01; flows are 0 to 100,000' "${begun}QI 1,,1,100000.01\n"
seven 4 'field 1 is 6; hydrographs to join are 2 to 5' "${begun}HC 6\n"
seven 4 'field 1 is blank, which reads as 0; hydrographs to join are 2 to 5' "${begun}HC\n"
seven 4 'field 1 is 51; steps are 1 to 50' "${begun}RM 51,0,0\n"
seven 4 'field 2 is 24.01; K is 0.01 to 24' "${begun}RM 1,24.01,0.6\n"
seven 4 'field 3 is .51; X is 0 to 0.5' "${begun}RM 1,1,.51\n"
seven 4 'field 1 is 2; steps are 1' "${begun}RS 2,STOR\n"
seven 4 'field 2 is FLOW; only STOR may stand there' "${begun}RS 1,FLOW,-1\n"
seven 4 'field 2 is blank; STOR must stand there' "${begun}RS 1\n"
seven 4 'field 3 is -1; the storage at the start is 0' "${begun}RS 1,STOR,-1\n"
seven 4 'field 2 is 100000; storages are 0 to 99,999.99' "${begun}SV 0,100000\n"
seven 4 'field 1 is -1; outflows are 0 to 100,000' "${begun}SQ -1\n"
seven 6 'field 2 is 100001; flows are 0 to 100,000' "${begun}*FIX   \nKM *FREE\nQI     1  100001\n"
seven 7 'field 2 is 100001; flows are 0 to 100,000' "${begun}*FIX\nKM\n*FREE \nQI 1 100001\n"
# 6: no number, digits, places, fields that must be blank, words, names
six() { why 6 "$@"; }
six 4 'field 2 is 2x, which is no number' "${begun}QI 1,2x\n"
six 4 'field 1 is 1e2, which is no number' "${begun}QI 1e2\n"
six 4 'field 1 is -, which is no number' "${begun}QI -\n"
six 4 'field 1 is ., which is no number' "${begun}QI .\n"
six 4 'field 1 is 1.2.3, which is no number' "${begun}QI 1.2.3\n"
six 5 "field 2 is '1 2', which is no number" "${begun}*FIX\nQI     1     1 2\n"
six 1 "field 1 is '60,,,', which is no number; commas want *FREE" 'IT 60,,,4\n'
six 4 'field 1 is 1.500000000, with 10 digits; nine are allowed' "${begun}QI 1.500000000\n"
six 4 'field 2 is -0000000000, with 10 digits; nine are allowed' "${begun}PI 0,-0000000000\n"
six 4 'field 1 is 1.5678, with 4 places; 2 are allowed' "${begun}BA 1.5678\n"
six 4 'field 1 is 1.56780, with 4 places that count; 2 are allowed' "${begun}BA 1.56780\n"
six 4 'field 1 is .00001, with 5 places; 4 are allowed' "${begun}PI .00001\n"
six 2 'field 4 is 4.5, with 1 place; no places are allowed: whole numbers' '*FREE\nIT 60,,,4.5\n'
six 2 'field 1 is 60.50, with 1 place that counts; no places are allowed: whole numbers' '*FREE\nIT 60.50,,,x\n'
six 4 'field 2 is 0, and must be blank' "${begun}BA 1,0\n"
six 4 'field 2 is 0.000, and must be blank' "${begun}PB ,0.000\n"
six 2 'field 5 is 02JAN80, and must be blank' '*FREE\nIT 60,01JAN80,0000,,02JAN80,0000\n'
six 4 'field 11 is 11; a line has ten fields at most' "${begun}QI 1,2,3,4,5,6,7,8,9,10,11\n"
six 4 'field 12 is 1; a line has ten fields at most' "${begun}SV ,,,,,,,,,,,1\n"
six 4 'field 11 is 0.5; a line has ten fields at most' "${timed}KM\nJR PREC,1,1,1,1,1,1,1,1,1,0.5\n"
six 3 'field 1 is FLOW; only PREC may stand there' "${timed}JR FLOW,1\n"
six 3 'field 1 is blank; PREC must stand there' "${timed}JR ,0.50\n"
six 3 'field 1 is prec; only PREC may stand there' "${timed}JR prec,1\n"
six 3 'field 2 is 0.125, with 3 places; 2 are allowed' "${timed}JR PREC,0.125\n"
six 4 'field 3 is 851.2, with 1 place; no places are allowed: whole numbers' "${begun}RS 1,ELEV,851.2\n"
six 4 'field 4 is 0., and must be blank' "${begun}RS 1,STOR,-1.,0.\n"
six 3 'the name RESERVOIR has 9 characters; six are allowed' "${timed}KK RESERVOIR TWO\n"
six 3 "the name 'A(B)-*C' has 7 characters; six are allowed" "${timed}KK A(B)-*C,D\n"
six 3 'no name' "${timed}KK\n"
six 4 'no name' "${timed}*FIX\nKK      TEXT\n"
six 2 "the name 'A B' has a blank in it" "IT    60                       4\nKKA B\n"

# 5: the records before it
five() { why 5 "$@"; }
five 1 'KK before IT: IT comes first' 'KK A\n'
five 3 'ZZ before IT: IT comes first' 'ID\n*FREE\nZZ\n'
five 3 'ID behind the IT of line 2: it stands before IT' "${timed}ID\n"
five 5 'ID behind the IT of line 2: it stands before IT' "${begun}QI\nID\n"
five 3 'a second IT; the first stands on line 2' "${timed}IT 60,,,4\n"
five 6 'a second IT; the first stands on line 3' "KM IT\n${begun}\nIT\n"
five 1 'JR before IT: it stands between IT and the first KK' 'JR\n'
five 4 'JR behind the first KK: it stands between IT and the first KK' "${begun}JR PREC,0.50\n"
five 4 'a second JR; the first stands on line 3' "${timed}JR PREC,1\nJR X\n"
five 5 'a second JR; the first stands on line 3' "${timed}JR PREC,1\nKK A\nJR X\n"
for record in BA PB PI LU UI QI HC RM RS SV SQ; do
    five 2 "$record outside a block: IT and KK come first" "KM\n$record\n"
    five 4 "$record outside a block: KK comes first" "${timed}KM\n$record 1\n"
done
for record in 'BA 1' 'PB 1' 'LU' 'HC 2' 'RM 1,1,.2' 'RS 1,STOR'; do
    five 8 "a second ${record%% *} in the block; the first stands on line 6" "${begun}KM $record\n\n$record\nPI\n$record\n"
done
five 8 'a second BA in the block; the first stands on line 7' "${begun}BA 1\nQI\nKK B\nBA 1\nBA 2\n"

# 4: what HEC-1 knows, slips of the pen, small letters, blanks, comments and controls
four() { why 4 "$@"; }
four 1 "BF is HEC-1's base flow, which this program does not compute: add it to an inflow, or leave the model to HEC-1" 'BF 1\n'
four 4 "LS is HEC-1's curve number loss, which this program does not compute: write the excess on PI and LU alone, or leave the model to HEC-1" "${begun}LS 0,80\n"
four 2 "IO is HEC-1's control of its output, which changes no flow: drop the line" 'ID\nIO 5\n'
four 3 "IN is HEC-1's interval of lists, which this program does not read: write the lists by the interval on IT" "${timed}IN 15\n"
four 1 "*LIST is HEC-1's control of its output, which changes no flow: drop the line" '*LIST \n'
four 1 "*MESSAGE is HEC-1's note, which changes no flow: drop the line, or make it a KM" '*MESSAGE a pond\n'
comment='a comment of HEC-1, which changes no flow: drop the line, or make it a KM'
four 1 "$comment" '* my pond\n'
four 2 "$comment" '*FREE\n*\n'
four 1 "XX $no_record" 'XX 1\n'
four 1 "1T $no_record" '1T 60\n'
four 1 "K $no_record" 'K\n'
four 1 "K, $no_record" 'K,K\n'
four 1 'identifiers are in capitals: KK' 'kk a\n'
four 1 'identifiers are in capitals: BA' 'Ba 1\n'
four 1 'identifiers are in capitals: BF' 'bf 1\n'
four 1 "xx $no_record" 'xx\n'
four 1 'the identifier stands in columns 1 and 2' ' ID\n'
four 1 'the identifier stands in columns 1 and 2' '        x\n'
four 1 'only blanks may stand behind *FREE' '*FREE form\n'
four 1 'only blanks may stand behind *FIX' '*FIXED\n'
four 1 'controls are in capitals: *FREE' '*free\n'
four 1 'controls are in capitals: *DIAGRAM' '*Diagram\n'
four 1 "*DIAG is no control of HEC-1's manual: look for a slip of the pen" '*DIAG\n'
four 1 "** is no control of HEC-1's manual: look for a slip of the pen" '** my pond\n'
# every record and control of HEC-1's manual, but those that are read
hec1_records='IN IM IO JP JD OU OR OS OF OO VS VV BF BR BI BZ DR DT DI DQ DO DC DD HB HL HQ HE KO KF KP LE LM LS LH MA MC MT MS MD MW
    PC PG PH PM PS PR PT PW QO QS QP RN RL RC RX RY RK RT SA SE SL SS ST SW SG SB SO SD UC US UA UD UK WP WR WO WC WD
    EC CN PN WN TN WT FR QF SF QD DG EP LO LC LD DU DL DP ZR ZW *LIST *NOLIST *DIAGRAM *MESSAGE'
mkdir records
set -f
for record in $hec1_records; do
    printf '%s 1\n' "$record" >"records/$record.hc1"
    echo "$record"
done | LC_ALL=C sort >"$scratch/expected"
set +f
"$hec1" -q records/*.hc1 2>&1 >/dev/null | sed -n "s/^records\/\(.*\)\.hc1:1: \(.*\) is HEC-1's [A-Za-z ,]*, which [a-z ]*: [A-Za-z0-9 ,'-]* (refusal 4): \2 1\$/\1 \2/p" |
    awk '$1 == $2 { print $1 }' | LC_ALL=C sort >"$scratch/got"
same "every record of HEC-1's manual" "$scratch/expected" "$scratch/got"
rm -r records
cat "$root"/docs/users/*.md | grep '^| ' | tr -c '*A-Z0-9`' '\n' | sed -n 's/^`\([*A-Z][A-Z]*\)`$/\1/p' | LC_ALL=C sort -u | LC_ALL=C comm -13 - "$scratch/expected" >"$scratch/got"
holds "the guide has every record of HEC-1's manual in a table" test ! -s "$scratch/got"
holds 'no limit of a field stands in the command' sh -c '! grep -q "1,*440\|9,*999\|9[.]99" "$1"' sh "$root/hec1"

# 9: what is missing or too much
nine() {
    lines=$(printf '%b' "$2" | wc -l)
    why 9 $((lines + 6)) "wrong set of records in the block of line 5: $1" "${timed}KK A\nQI\nKK B\n$2${3:-ZZ}\n"
}
nine 'the block has no record' ''
nine 'the block has no record' 'KM BA\n\n*FREE\n' 'KK C'
nine 'a basin wants PI, LU and UI too, an inflow QI' 'BA 1\n'
nine 'a basin wants UI too' 'BA 1\nPI\nLU\n'
nine 'a basin wants LU too' 'UI\nPI\nPB\nBA 1\nPI\n' 'KK C'
nine 'a basin wants BA, PI, LU and UI too' 'PB 1\n'
nine 'a basin wants BA and PI too' 'LU\nUI\n'
nine 'a basin wants UI too, and takes no QI' 'BA 1\nPI\nLU\nQI\n'
nine 'a basin takes no QI; take it out' 'BA 1\nPI\nLU\nUI\nQI\n'
nine 'a basin takes no SV and SQ; take them out' 'BA 1\nPI\nLU\nUI\nSV\nSQ\n'
nine 'QI and PI do not go together in one block' 'QI\nPI\n'
nine 'QI and PB do not go together in one block' 'QI\nPB\nBA 1\n'
nine 'QI and HC do not go together in one block' 'HC 2\nQI\n'
nine 'QI does not go together with PI and LU in one block' 'QI\nPI\nLU\n'
nine 'HC stands alone in its block; take BA out' 'BA 1\nHC 2\n'
nine 'HC stands alone in its block; take BA and RM out' 'BA 1\nHC 2\nRM 1,1,.2\n'
nine 'RM stands alone in its block; take RS out' 'RS 1,STOR\nRM 1,1,.2\n'
nine 'a pond wants SQ too' 'RS 1,STOR\nSV\n'
nine 'a pond wants RS and SQ too' 'SV\n'
nine 'a pond wants RS and SQ too, and takes no BA' 'SV\nBA 1\n'
nine 'a pond takes no BA; take it out' 'RS 1,STOR\nSV\nSQ\nBA 1\n'
nine 'a pond takes no BA and PI; take them out' 'RS 1,STOR\nSV\nSQ\nPI\nBA 1\n'
rm -f plain.hc1 dos.hc1 junk.hc1

# a program that cannot tell, or tells what is not so: the words of the number, and the status stays
input '*FREE\nIT 60,,,400\n'
for answer in 'exit 3' 'exit 0' 'echo --' 'echo REFUSED 7 2; echo --' 'echo FIELD 4 LIMITS 0 1 300 400; exit 3' 'echo FIELD 4 LIMITS 0 1 300 401' 'echo FIELD x LIMITS 0 1 300 400' \
    'echo FIELD 4 LIMITS 0 1 x 400' 'echo FIELD 4 NUMBER 0 1 300 400' 'echo FIELD 4 PLACES 0 1 300 1 400' 'echo FIELD 4 BLANK 400' 'echo FIELD 4 OTHER 0 1 300 400' 'echo NAME 60' 'echo INPUT CUT >&2' \
    'echo FIELD' 'head -c 5000 /dev/zero'; do
    printf '#!/bin/sh\nif [ "${1:-}" != --reason ]; then exec "%s" "$@"; fi\ncat >/dev/null\n%s\n' "$second" "$answer" >"$scratch/broken"
    chmod +x "$scratch/broken"
    try "the words by a program that says: $answer" 1 'REFUSED 7 2\n' '-:2: value outside its limits (refusal 7): IT 60,,,400\n' "$root/hec1" --program "$scratch/broken"
done
# what it is handed: the number, the form in force, and the bytes from the line on
cat >"$scratch/counting" <<END
#!/bin/sh
if [ "\${1:-}" = --reason ]; then tee "$scratch/asked" | "$second" "\$@"; else exec "$second" "\$@"; fi
END
chmod +x "$scratch/counting"
for deck in '*FREE\nIT 60,,,400\nZZ\n\0000\0377' '*FREE\r\n\r\nIT 60,,,400\r\n*FIX\r\n' 'IT 60,,,4' '*FREE\n*FIX  \nIT    60                     4.5\n' '*FREE\nKM\nKM *FIX\n\nIT 60,,,4\nKK\n'; do
    input "$deck"
    "$root/hec1" --program "$scratch/counting" -q <"$scratch/in" >"$scratch/out" 2>/dev/null
    # shellcheck disable=SC2034
    read -r first number line <"$scratch/out"
    form=0
    case $deck in 'IT'* | *'*FIX  \n'*) ;; *) form=1 ;; esac
    tail -n "+$line" "$scratch/in" >"$scratch/rest"
    case_of "$number" "$form" "$scratch/rest" >"$scratch/expected"
    same "what is asked of $deck" "$scratch/expected" "$scratch/asked"
done
for option in '--records' '--sheet 1' '--hydrograph 1' '--hydrographs apart'; do
    input '*FREE\nIT 60,,,400\n'
    # shellcheck disable=SC2086
    "$hec1" $option <"$scratch/in" >/dev/null 2>"$scratch/got"
    holds "closer words with $option: status" test $? = 1
    echo '-:2: field 4 is 400; ordinates are 1 to 300 (refusal 7): IT 60,,,400' >"$scratch/expected"
    same "closer words with $option" "$scratch/expected" "$scratch/got"
done

# ---- the words beside the proved line, on decks of all sorts

sh "$root/second/build-decks.sh" || exit 2
writer=$root/target/second/decks
mkdir "$scratch/decks" && cd "$scratch/decks" || exit 2
"$writer" bundle 1 2000 >"$scratch/bundle"
"$hec1" --bundle <"$scratch/bundle" >"$scratch/out" 2>"$scratch/err"
holds 'decks of all sorts: status' test $? = 1
awk '
    first == "" { first = $0 }
    $0 == "--" {
        if (first ~ /^REFUSED /) print ++n - 1 ".hc1", substr(first, 9)
        else n++
        first = ""
    }' "$scratch/out" >"$scratch/refused"
# a line with the name, then the lines of the deck, and \003 behind the last: what is not plain text is shown as '?'
while read -r name number; do
    "$writer" one 1 "${name%.hc1}" >"$name"
    printf '\001%s\n' "$name"
    LC_ALL=C tr -c '\012\015\040-\176' '?' <"$name"
    printf '\003\n'
done <"$scratch/refused" >"$scratch/texts"
sed 's/^\([^ ]*\) \(.*\)/== \1\nREFUSED \2/' "$scratch/refused" >"$scratch/expected"
# shellcheck disable=SC2046
"$hec1" -q $(sed 's/ .*//' "$scratch/refused") >"$scratch/got" 2>"$scratch/err"
same 'decks of all sorts: the refusals of a bundle' "$scratch/expected" "$scratch/got"
LC_ALL=C awk '
    function wrong(why) { printf "%s: %s: %s\n", why, deck, $0 }
    # what stands in the field of which the words tell: it is cut off before the rule
    function value_of(said) {
        sub(/^field [0-9]+ is /, "", said)
        sub(/; (only [A-Z]+ may stand there|[A-Z]+ must stand there|a line has ten fields at most|commas want [*]FREE)$/, "", said)
        sub(/; [A-Za-z ]+ (is|are) [0-9.,]+( to [0-9.,]+)?$/, "", said)
        sub(/, with [0-9]+ (digits|places?|place that counts|places that count); .* allowed(: whole numbers)?$/, "", said)
        sub(/, (and must be blank|which is no number|which reads as 0)$/, "", said)
        if (said ~ /^\047.*\047$/) said = substr(said, 2, length(said) - 2)
        return said
    }
    # whether the words of limits are true
    function outside(value, said,    limit) {
        sub(/.* (is|are) /, "", said)
        gsub(/,/, "", said)
        if (split(said, limit, " to ") < 2) limit[2] = limit[1]
        if (value == "blank") value = 0
        return value + 0 < limit[1] + 0 || value + 0 > limit[2] + 0
    }
    # whether those of places or digits are
    function too_many(value, said,    many, most) {
        if (said ~ /digits; nine are allowed$/) return gsub(/[0-9]/, "", value) > 9
        sub(/^[^.]*[.]/, "", value)
        sub(/0+$/, "", value)
        many = said
        sub(/.*, with /, "", many)
        most = said
        sub(/.*; (no )?/, "", most)
        return length(value) == many + 0 && length(value) > most + 0
    }
    part == "refused" {
        number[$1] = $2
        line[$1] = $3
        decks++
        next
    }
    part == "texts" && /^\001/ {
        deck = substr($0, 2)
        n = 0
        next
    }
    part == "texts" {
        if (!sub(/\003$/, "")) sub(/\r$/, "")
        gsub(/\r/, "?")
        if (++n <= line[deck]) text[deck, n] = $0
        next
    }
    {
        deck = substr($0, 1, index($0, ".hc1:") + 3)
        rest = substr($0, length(deck) + 2)
        at = 0
        if (rest ~ /^[0-9]+: /) {
            at = rest + 0
            sub(/^[0-9]+:/, "", rest)
        }
        match(rest, / \(refusal [0-9]+\)/)
        said = substr(rest, 2, RSTART - 2)
        told = substr(rest, RSTART + 10) + 0
        quoted = substr(rest, RSTART + RLENGTH)
        here = text[deck, at]
        if (!(deck in number) || met[deck]++) wrong("another deck, or told twice")
        if (told != number[deck] || at != line[deck]) wrong("another number or line")
        if (quoted != (at ? ": " substr(here, 1, 80) : "")) wrong("another line is quoted")
        if (said == "" || said ~ /does not know/) wrong("no words")
        if (said ~ /^(unknown record|record out of place|field or name malformed|value outside its limits)/ || said ~ /^wrong set of records in the block of line [0-9]+$/) wrong("no closer words")
        if ((said ~ /^(field [0-9]+ is |the name |no name$)/) != (told == 6 || told == 7)) wrong("words of a field")
        if (said ~ /^field /) {
            value = value_of(said)
            if (value == said || value != "blank" && !index(here, value)) wrong("a field that does not stand there")
            if ((said ~ /; [A-Za-z ]+ (is|are) [0-9.,]+( to [0-9.,]+)?$/) && !(told == 7 && outside(value, said))) wrong("limits that are kept")
            if (said ~ /, with [0-9]/ && !(told == 6 && too_many(value, said))) wrong("places or digits that are allowed")
        }
        if (match(said, /first stands on line [0-9]+$/)) {
            other = substr(said, RSTART + 21) + 0
            if (told != 5 || other >= at || substr(text[deck, other], 1, 2) != substr(here, 1, 2)) wrong("another first")
        }
        if (told == 5 && index(said, substr(here, 1, 2)) > 10) wrong("another record")
        if (match(said, /in the block of line [0-9]+/) && text[deck, substr(said, RSTART + 21) + 0] !~ /^KK/) wrong("another block")
        if (told == 9 && said !~ /^wrong set of records in the block of line [0-9]+: ./) wrong("no set")
        kinds[told]++
    }
    END {
        for (deck in number) count++
        for (deck in met) count--
        if (count || !decks) print "decks without words: " count + 0
        if (!(kinds[4] && kinds[5] && kinds[6] && kinds[7] && kinds[9])) print "a refusal is missing"
    }' part=refused "$scratch/refused" part=texts "$scratch/texts" part=words "$scratch/err" >"$scratch/got"
: >"$scratch/expected"
same 'decks of all sorts: no words against the proved line' "$scratch/expected" "$scratch/got"
cd "$place" || exit 2

# ---- every refusal has its words, also those that the program cannot give

cat >"$scratch/answers" <<'END'
#!/bin/sh
cat >/dev/null
echo "REFUSED $ANSWER"
END
chmod +x "$scratch/answers"
input 'ID\n'
for n in $(numbers 1 "$refusals"); do
    ANSWER="$n 1" "$root/hec1" --program "$scratch/answers" <"$scratch/in" >/dev/null 2>"$scratch/err"
    holds "words of refusal $n" grep -q "^-:1: [a-zA-Z0-9 ,]* (refusal $n): ID\$" "$scratch/err"
    holds "words of refusal $n are known" sh -c '! grep -q "does not know" "$1"' sh "$scratch/err"
done
printf '#!/bin/sh\nexit 3\n' >"$scratch/broken"
chmod +x "$scratch/broken"
try 'a program that fails' 2 '' 'hec1: -: the program ended with status 3 and gave no listing\n' "$root/hec1" --program "$scratch/broken"

# ---- input and output that fail

# with WORDS STATUS ERR COMMAND: a shell command line on the file 'in', what it prints to standard error and its status
with() {
    name=$1
    { printf 'status %s\n-- err\n%b' "$2" "$3"; } >"$scratch/expected"
    hec1=$hec1 sh -c "$4" <"$scratch/in" >"$scratch/out" 2>"$scratch/err"
    ended=$?
    { printf 'status %s\n-- err\n' "$ended"; cat "$scratch/err"; } >"$scratch/got"
    same "$name" "$scratch/expected" "$scratch/got"
}
input "$good"
with 'a folder as standard input' 2 'hec1: standard input: cannot be read\n' '"$hec1" <.'
with 'no standard input' 2 'hec1: standard input: cannot be read\n' '"$hec1" <&-'
with 'a full device' 2 'hec1: standard output: cannot be written to\n' '"$hec1" >/dev/full'
with 'a full device, several files' 2 'hec1: standard output: cannot be written to\n' '"$hec1" good.hc1 good.hc1 >/dev/full'
with 'a full device, a bundle' 2 'hec1: standard output: cannot be written to\n' '"$hec1" --bundle good.hc1 >/dev/full'
if [ -n "$proved" ]; then
    # the proved programs by themselves: a line on standard error, and nothing that could be taken for a listing
    made=$root/target/command
    with 'hec1: a folder as standard input' 0 'INPUT FAILED\n' "$made/hec1 <."
    holds 'hec1: a folder as standard input: no listing' test ! -s "$scratch/out"
    with 'hec1: a full device' 0 'OUTPUT FAILED\n' "$made/hec1 >/dev/full"
    with 'bundle: a folder as standard input' 0 'INPUT FAILED\n' "$made/bundle <."
    holds 'bundle: a folder as standard input: no listing' test ! -s "$scratch/out"
    with 'bundle: a full device' 0 'OUTPUT FAILED\n' "$made/bundle <'$root/crates/bundle/stdin' >/dev/full"
fi

# ---- warnings

# said LINE WORDS QUOTED: a warning of the deck on standard input
said() { printf '%s' "-:$1: warning: $2: $3\n"; }
crossed() { said "$1" "columns $2 are filled: in fixed form a value across a border is read as two" "$3"; }
late() { said "$1" "block $2 has its peak in the last interval, $3: the flow may still rise, and NQ be too small" "$4"; }
short() { said "$1" "block $2 has $3 on QI, and NQ is $4: behind the last one the flow is zero" "$5"; }
full() { said "$1" "block $2 takes a flow above 0 in interval 1: a reach starts full, as though that flow had always been there, and its volume is larger by what stood in it" "$3"; }

# warns NAME STATUS WARNINGS DECK: what is said of a deck. Its listing and the status are those without warnings, and --quiet says
# the refusal alone.
warns() {
    input "$4"
    "$hec1" -q <"$scratch/in" >"$scratch/plain" 2>"$scratch/refusal"
    holds "$1: the status without warnings" test $? = "$2"
    holds "$1: quiet says no warning" sh -c '! grep -q warning: "$1"' sh "$scratch/refusal"
    { printf 'status %s\n-- out\n' "$2"; cat "$scratch/plain"; echo '-- err'; cat "$scratch/refusal"; printf '%b' "$3"; } >"$scratch/expected"
    "$hec1" <"$scratch/in" >"$scratch/out" 2>"$scratch/err"
    ended=$?
    { printf 'status %s\n-- out\n' "$ended"; cat "$scratch/out"; echo '-- err'; cat "$scratch/err"; } >"$scratch/got"
    same "$1" "$scratch/expected" "$scratch/got"
}

# columns: fixed form, both sides of a border filled. A line of a list as 'PI' and fields of eight columns has none.
fixed='IT    60                       4\n'
warns 'a value across the first border' 0 "$(crossed 3 '8 and 9' 'QI     12.5       0       0')" "${fixed}KKA\nQI     12.5       0       0\nZZ\n"
warns 'values in their columns' 0 '' "${fixed}KKA\nQI  12.5     2.5       0       0\nZZ\n"
warns 'a value that ends with its columns' 0 '' "${fixed}KKA\nQI    12       5 12345.6       0\nZZ\n"
wide='UI  99.5     2.5     3.5     4.5     5.5     6.5     7.5     8.5       91.25'
warns 'a value across the last border' 0 "$(crossed 6 '72 and 73' "$wide")" "${fixed}KKA\nBA     1\nPI     1\nLU\n$wide\nZZ\n"
warns 'values that fill their columns' 0 "$(crossed 6 '8 and 9, 16 and 17' 'UI  1.0512345.6712345.67     1.0')" \
    "${fixed}KKA\nBA     1\nPI     0       1\nLU\nUI  1.0512345.6712345.67     1.0\nZZ\n"
filled=$(printf '%072d' 0)
warns 'text has no columns' 0 '' "ID$filled\nKM$filled\n${fixed}KKNAME  $filled\nKM$filled\nQI     1       2       0       0\nZZ$filled\n"
warns 'free form has no columns' 0 '' "*FREE\nIT 60,,,4\nKK A\nQI 1.00,2.00,3.00,1.00\nZZ\n"
warns 'the form in force counts' 0 "$(crossed 6 '8 and 9' 'QI     12')" \
    "*FREE\nIT 60,,,4\nKK A\nQI 1.0,2.000\n*FIX   \nQI     12\n*FREE \nKK B\nQI 1.00,1.00,1.00,1.00\n*FIX\nKKC\nHC     2\nZZ\n"
warns 'a control that is none changes no form' 1 "$(crossed 3 '8 and 9' 'QI     12.5')" "${fixed}*FREED\nQI     12.5\n"
warns 'nothing behind ZZ is read' 0 '' "${fixed}KKA\nQI     1       2       0       0\nZZ\nQI     12.5\n"
warns 'lines that end as DOS writes them' 0 "$(crossed 3 '8 and 9' 'QI     12.5       0       0')" "IT    60                       4\r\nKKA\r\nQI     12.5       0       0\r\nZZ\r\n"
warns 'a last line without its end' 1 "$(crossed 3 '8 and 9' 'QI     12.5')" "${fixed}KKA\nQI     12.5"
warns 'a refused deck' 1 "$(crossed 3 '8 and 9' 'PI     125.0')$(crossed 5 '8 and 9' 'UI     125.0')" "${fixed}KKA\nPI     125.0\nBA 0\nUI     125.0\nZZ\n"
warns 'commas in fixed form' 1 "$(crossed 1 '8 and 9' 'IT 60,,,4')" 'IT 60,,,4\n'
warns 'a record that is not read' 1 '' 'XX345678901234567890\n'
warns 'foreign bytes fill no column' 1 '' "${fixed}KKA\nQI     \t1\nQI    1 \t\n"
for record in IT JR BA PB PI LU UI QI HC RM RS SV SQ; do
    warns "columns of $record" 1 "$(crossed 1 '8 and 9' "$record     12")" "$record     12\n"
done
for record in ID KM KK ZZ '*F' XX '  '; do
    warns "no columns of '$record'" 1 '' "$record     12\n"
done
many=$(awk 'BEGIN { while (n++ < 12) printf "QI     12.5       0       0\\n" }')
ten=$(for n in $(numbers 3 12); do crossed "$n" '8 and 9' 'QI     12.5       0       0'; done)
warns 'many lines' 0 "$ten-: warning: 2 lines more with such columns filled\n" "IT    60                      48\nKKA\n${many}ZZ\n"

# the peak in the last interval
warns 'a peak at the end' 0 "$(late 3 '1 (A)' 4 'KK A')" '*FREE\nIT 60,,,4\nKK A\nQI 0,1,2,3\nZZ\n'
warns 'a peak before the end' 0 '' '*FREE\nIT 60,,,4\nKK A\nQI 0,1,3,3\nZZ\n'
warns 'no flow at all' 0 '' '*FREE\nIT 60,,,4\nKK A\nQI 0,0,0,0\nZZ\n'
warns 'one interval' 0 "$(late 3 '1 (A)' 1 'KK A')" '*FREE\nIT 60,,,1\nKK A\nQI 1\nZZ\n'
warns 'one interval without flow' 0 '' '*FREE\nIT 60,,,1\nKK A\nQI 0\nZZ\n'
warns 'a peak at the end that is printed as 0.00' 0 "$(late 3 '1 (A)' 2 'KK A')" '*FREE\nIT 60,,,2\nKK A\nBA 1\nPI 0,0.0001\nLU\nUI 0.01\nZZ\n'
warns 'peaks at the end of every kind' 0 \
    "$(late 3 '1 (A)' 3 'KK A')$(late 8 '2 (R)' 3 'KK R')$(late 10 '3 (P)' 3 'KK P')$(late 14 '4 (B)' 3 'KK B')$(late 16 '5 (C)' 3 'KK C text')" \
    '*FREE\nIT 60,,,3\nKK A\nBA 1\nPI 0,1,2\nLU\nUI 10\nKK R\nRM 1,1,0.2\nKK P\nRS 1,STOR\nSV 0,50\nSQ 0,10\nKK B\nQI 0,1,2\nKK C text\nHC 2\nZZ\n'
# storms RATIOS: a basin and an inflow that meet, with its rain at the end
storms() { printf '%s' "*FREE\nIT 60,,,4\nJR PREC,$1\nKK A\nBA 1\nPI 0.2,0,0,1\nLU 0.9\nUI 10\nKK B\nQI 1,1,1,1\nKK C\nHC 2\nZZ\n"; }
warns 'a peak at the end under one ratio' 0 "$(late 4 '1 (A)' '4, under ratio 1.50' 'KK A')$(late 11 '3 (C)' '4, under ratio 1.50' 'KK C')" "$(storms 0.5,1.5)"
warns 'a peak at the end under two ratios of three' 0 "$(late 4 '1 (A)' '4, under ratios 2.00, 1.50' 'KK A')$(late 11 '3 (C)' '4, under ratios 2.00, 1.50' 'KK C')" "$(storms 2,.5,1.5)"
warns 'a peak at the end under the one ratio' 0 "$(late 4 '1 (A)' '4, under ratio 2.00' 'KK A')$(late 11 '3 (C)' '4, under ratio 2.00' 'KK C')" "$(storms 2)"
warns 'no peak at the end under any ratio' 0 '' "$(storms .1,.2)"

# counts NUMBER LINES: how many values the lines of a QI have. The program takes so many as NQ, and refuses one less by 8.
counts() {
    lines="KK A\n$2\nZZ\n"
    word=values
    if [ "$1" = 1 ]; then word=value; fi
    warns "a value less than NQ: $2" 0 "$(short 4 '1 (A)' "$1 $word" $(($1 + 1)) 'KK A')" "*FREE\nIT 60,,,$(($1 + 1))\nKM\n$lines"
    if [ "$1" != 0 ]; then
        input "*FREE\nIT 60,,,$1\nKM\n$lines"
        "$hec1" <"$scratch/in" >"$scratch/out" 2>"$scratch/err"
        holds "as many values as NQ: $2" test $? = 0
        holds "as many values as NQ, and no warning: $2" sh -c '! grep -q "on QI" "$1"' sh "$scratch/err"
        input "*FREE\nIT 60,,,$(($1 - 1))\nKM\n$lines"
        "$hec1" -q <"$scratch/in" >"$scratch/out" 2>/dev/null
        holds "a value more than NQ: $2" grep -q "^REFUSED $(if [ "$1" = 1 ]; then echo 7; else echo 8; fi) " "$scratch/out"
    fi
}
counts 0 'QI'
counts 0 'QI ,, ,'
counts 2 'QI 7,1'
counts 2 'QI7 1'
counts 2 'QI 7 , 1 ,,'
counts 3 'QI ,7,1'
counts 3 'QI 7,,1'
counts 3 'QI 7 ,  , 1  '
counts 3 'QI   7   0   1'
counts 4 'QI 7,1\nKM 1,2,3\nQI 1 0 ,'
counts 10 'QI 7,1,1,1,1,1,1,1,1,1,,'
counts 1 '*FIX\nQI7'
counts 1 '*FIX\nQI     7'
counts 2 '*FIX\nQI      7'
counts 2 '*FIX\nQI     7       0'
counts 3 '*FIX\nQI     7               0   '
counts 3 '*FIX\nQI     7        0'
counts 10 "*FIX\nQI     7$(printf '%72s' 0)"
counts 9 "*FIX\nQI     7$(printf '%64s' 0)        "
counts 13 "QI 7,1\n*FIX\nQI     1$(printf '%72s' 0)\n*FREE\nQI 1\n"
counts 2 'BA 1\nQI 7\nQI 1'
warns 'two inflows that are short, and one that is not' 0 "$(short 3 '1 (A)' '2 values' 4 'KK A')$(short 7 '3 (C)' '3 values' 4 'KK C')" \
    '*FREE\nIT 60,,,4\nKK A\nQI 2,1\nKK B\nQI 2,1,1,1\nKK C\nQI 2,1,1\nKK D\nHC 3\nZZ\n'
warns 'rain may be short' 0 '' '*FREE\nIT 60,,,4\nKK A\nBA 1\nPI 1\nLU\nUI 1\nZZ\n'

# a reach that starts full
reach='KK R\nRM 1,1,0.2\n'
warns 'a reach that starts full' 0 "$(full 5 '2 (R)' 'KK R')" "*FREE\nIT 60,,,4\nKK A\nQI 1,1,1,1\n${reach}ZZ\n"
warns 'a reach that starts empty' 0 '' "*FREE\nIT 60,,,4\nKK A\nQI 0,3,2,1\n${reach}ZZ\n"
warns 'a reach that starts with a flow unit' 0 "$(full 8 '2 (R)' 'KK R')" "*FREE\nIT 59,,,4\nKK A\nBA 1\nPI 0.0001\nLU 0,0.0001\nUI 0.01\n${reach}ZZ\n"
warns 'a chain of reaches that start full' 0 "$(full 5 '2 (R)' 'KK R')" "*FREE\nIT 60,,,4\nKK A\nQI 1,1,1,1\n$reach${reach}ZZ\n"
warns 'a reach behind a pond' 0 '' "*FREE\nIT 60,,,4\nKK A\nQI 9,1,1,1\nKK P\nRS 1,STOR\nSV 0,1\nSQ 0,10\n${reach}ZZ\n"
warns 'a reach behind a confluence' 0 "$(full 9 '4 (R)' 'KK R')" "*FREE\nIT 60,,,4\nKK A\nQI 1,1,1,1\nKK B\nQI 0,0,0,0\nKK C\nHC 2\n${reach}ZZ\n"
warns 'the one of two reaches that starts full' 0 "$(full 9 '4 (R)' 'KK R')" "*FREE\nIT 60,,,4\nKK A\nQI 0,1,1,0\n${reach}KK B\nQI 1,1,1,1\n${reach}KK C\nHC 2\nZZ\n"
for ratios in 2 .5,2,1 2,.5 .5,2; do
    warns "a reach that starts full under the largest of $ratios" 0 "$(full 9 '2 (R)' 'KK R')" "*FREE\nIT 60,,,4\nJR PREC,$ratios\nKK A\nBA 1\nPI 1\nLU 1\nUI 1\n${reach}ZZ\n"
done
warns 'a reach that starts empty under every ratio' 0 '' "*FREE\nIT 60,,,4\nJR PREC,1,.5\nKK A\nBA 1\nPI 1\nLU 1\nUI 1\n${reach}ZZ\n"
warns 'several warnings, line by line' 0 \
    "$(short 2 '1 (A)' '3 values' 4 KKA)$(crossed 3 '16 and 17' 'QI     1       12.5')$(late 4 '2 (R)' 4 'KKR')$(full 4 '2 (R)' KKR)" \
    "${fixed}KKA\nQI     1       12.5\nKKR\nRM     1    1.00    0.20\nZZ\n"

# names, files and other options
for odd in '%s' '\\\\n' '&' 'A,B' '()' '\047' '*'; do
    warns "a block called $odd" 0 "$(short 3 "1 ($odd)" '2 values' 4 "KK$odd")" "${fixed}*FIX\nKK$odd\nQI     2       1\nZZ\n"
done
short_deck='*FREE\nIT 60,,,4\nKK A\nQI 1,2\nZZ\n'
for odd in 'a b.hc1' '%s.hc1' 'back\slash.hc1' '*.hc1' "it's.hc1" 'a=b.hc1' 'part=deck'; do
    printf '%b' "$short_deck" >"./$odd"
    printf '%s' "$odd" | sed 's/\\/\\\\/g' >"$scratch/word"
    try "a warning of the file $odd" 0 "$good_list" "$(short 3 '1 (A)' '2 values' 4 'KK A' | sed "s/^-/NAME/" | WORD=$(cat "$scratch/word") awk '{ print ENVIRON["WORD"] substr($0, 5) }')" "$hec1" "$odd"
    rm -f "./$odd"
done
printf '%b' "$short_deck" >short.hc1
short_words=$(short 3 '1 (A)' '2 values' 4 'KK A' | sed 's/^-/short.hc1/')
input ''
try 'warnings of several files' 1 "== short.hc1\n${good_list}== pond.hc1\n${bad_list}== good.hc1\n${good_list}== short.hc1\n$good_list" "${short_words}pond.hc1$bad_words$short_words" \
    "$hec1" short.hc1 pond.hc1 good.hc1 short.hc1
try 'no warnings of a bundle' 0 "$good_list--\n" '' "$hec1" --bundle short.hc1
try 'no warnings of quiet' 0 "$good_list" '' "$hec1" --quiet short.hc1
"$hec1" --records short.hc1 >/dev/null 2>"$scratch/err"
holds 'no warnings of records' test ! -s "$scratch/err"
"$hec1" --hydrograph A short.hc1 >/dev/null 2>"$scratch/err"
holds 'no warnings of a hydrograph' test ! -s "$scratch/err"

# one start of the program tells all; where it cannot, only columns are told of, and the status stays
cat >"$scratch/counting" <<END
#!/bin/sh
echo "start \$*" >>"$scratch/starts"
if [ "\${1:-}" = --hydrograph ]; then tee "$scratch/asked" | "$second" "\$@"; else exec "$second" "\$@"; fi
END
chmod +x "$scratch/counting"
: >"$scratch/starts"
input "*FREE\nIT 60,,,4\nJR PREC,1,3,2\nKK A\nQI 0,1,1,0\n${reach}${reach}KK B\nQI 1,1,1,1\n${reach}KK C\nHC 2\n${reach}ZZ\n"
"$root/hec1" --program "$scratch/counting" <"$scratch/in" >/dev/null 2>"$scratch/err"
printf 'start \nstart --hydrograph\n' >"$scratch/expected"
same 'two starts for a listing with warnings' "$scratch/expected" "$scratch/starts"
: >"$scratch/expected"
for numbers in '0 0' '1 2' '4 2' '6 2'; do
    # shellcheck disable=SC2086
    case_of $numbers "$scratch/in" >>"$scratch/expected"
done
same 'what is asked for warnings' "$scratch/expected" "$scratch/asked"
: >"$scratch/starts"
"$root/hec1" --program "$scratch/counting" -q <"$scratch/in" >/dev/null
echo 'start ' >"$scratch/expected"
same 'one start for a listing without warnings' "$scratch/expected" "$scratch/starts"
input "${fixed}KKA\nQI     12.5\nZZ\n"
for answer in 'exit 3' 'echo REFUSED 17 0; echo --' 'exit 0'; do
    printf '#!/bin/sh\nif [ "${1:-}" != --hydrograph ]; then exec "%s" "$@"; fi\ncat >/dev/null\n%s\n' "$second" "$answer" >"$scratch/broken"
    ended=0
    if [ "$answer" = 'exit 3' ]; then ended=3; fi
    try "warnings by a program that says: $answer" 0 'A 2 0.00 2.50 2 210000000\nEND 1\n' \
        "hec1: -: the program ended with status $ended and gave no hydrograph\n$(crossed 3 '8 and 9' 'QI     12.5')" "$root/hec1" --program "$scratch/broken"
done
printf '%b' "${fixed}KKA\nQI     12.5\nZZ\n" >a.hc1
twelve='A 2 0.00 2.50 2 210000000\nEND 1\n'
crossed_a=$(crossed 3 '8 and 9' 'QI     12.5' | sed 's/^-/a.hc1/')
try 'and it is asked no more' 0 "== a.hc1\n${twelve}== a.hc1\n$twelve" \
    "hec1: a.hc1: the program ended with status 0 and gave no hydrograph\n$crossed_a$crossed_a" "$root/hec1" --program "$scratch/broken" a.hc1 a.hc1
with 'a full device, and no warnings' 2 'hec1: standard output: cannot be written to\n' '"$hec1" short.hc1 >/dev/full'

# ---- bundles

input ''
try 'a bundle of files' 1 "$good_list--\n$bad_list--\nREFUSED 16 0\n--\n" '' "$hec1" --bundle good.hc1 pond.hc1 open.hc1
try 'a bundle of good files' 0 "$good_list--\n$good_list--\n" '' "$hec1" --bundle -- good.hc1 good.hc1
try 'a bundle with a long deck' 1 "REFUSED 2 0\n--\n$good_list--\n" '' "$hec1" --bundle long.hc1 good.hc1
try 'a bundle with a missing file' 2 '' 'hec1: none.hc1: no such file\n' "$hec1" --bundle good.hc1 none.hc1
try 'an empty bundle' 0 '' '' "$hec1" --bundle
size=$(printf '%b' "$good" | wc -c)
input "\\0$(printf %o "$size")\\0000\\0000\\0000$good\\0000\\0000\\0000\\0000"
try 'a ready bundle' 1 "$good_list--\nREFUSED 16 0\n--\n" '' "$hec1" --bundle
if [ -n "$proved" ]; then
    input "\\0$(printf %o "$size")\\0000\\0000\\0000$good\\0$(printf %o "$size")\\0000\\0000\\0000*FREE\\n"
    try 'a bundle that ends inside a deck' 2 "$good_list--\n" 'hec1: bundle: the input ends inside a deck or its length\n' "$hec1" --bundle
    input "\\0$(printf %o "$size")\\0000\\0000\\0000$good\\0001\\0000"
    try 'a bundle that ends inside a length' 2 "$good_list--\n" 'hec1: bundle: the input ends inside a deck or its length\n' "$hec1" --bundle
    with 'a folder as a bundle' 2 'hec1: bundle: the input cannot be read\n' '"$hec1" --bundle <.'
fi
input "$good"
try 'a bundle with standard input' 0 "$good_list--\n$good_list--\n" '' "$hec1" --bundle - good.hc1

# ---- result files

# the records of a deck, without JR and with one
deck_a='*FREE\nIT 60,,,4\nKK A\nQI 1,2\nZZ\n'
record_a='A     \0002\0000\0000\0000\0000\0000\0000\0016\0047\0007\0000\0000\0000\0000\0002\0000\0000\0000\0000\0225\0272\0012\0000\0000\0000\0000'
whole='\0144\0000\0001\0000\0000\0000\0000\0000'
input "$deck_a"
try 'the records of a deck' 0 "$record_a$whole" '' "$hec1" --records
printf '%b' "$deck_a" >a.hc1
try 'the records of a file' 0 "$record_a$whole" '' "$hec1" --records a.hc1
try 'the records of a file, behind --' 0 "$record_a$whole" '' "$hec1" --records -- a.hc1
input '*FREE\nIT 60,,,4\nJR PREC,1,2.56,1\nKK A\nQI 1,2\nZZ\n'
try 'the records of three ratios' 0 "$record_a$whole$record_a\\0000\\0001\\0002\\0000\\0000\\0000\\0000\\0000$record_a\\0144\\0000\\0003\\0000\\0000\\0000\\0000\\0000" '' "$hec1" --records
input "$bad"
try 'no records of a refused deck' 1 '' "-$bad_words" "$hec1" --records
try 'no records of a deck without ZZ' 1 '' "open.hc1$open_words" "$hec1" --records open.hc1
try 'no records of a long deck' 1 '' 'long.hc1: deck over 60,000 bytes (refusal 2)\n' "$hec1" --records long.hc1
try 'no records of a missing file' 2 '' 'hec1: none.hc1: no such file\n' "$hec1" --records none.hc1
try 'records of two files' 2 '' 'hec1: --records takes one file\n' "$hec1" --records a.hc1 a.hc1

# a file moved there and back, and every refusal in words, with nothing on standard output
input "$record_a$record_a"
try 'a file in the new form' 0 "$record_a$whole$record_a$whole" '' "$hec1" --to-new
input "$record_a$whole$record_a$whole"
try 'and in the old again' 0 "$record_a$record_a" '' "$hec1" --to-old
input ''
try 'an empty file in the new form' 0 '' '' "$hec1" --to-new
try 'an empty file in the old form' 0 '' '' "$hec1" --to-old -
input "$record_a$whole"
try 'a new file taken for an old one' 1 '' '-: 40 bytes, which is no whole number of records of 32 (mover, refusal 1)\n' "$hec1" --to-new
printf '%b' "$record_a" >a.old
try 'an old file taken for a new one' 1 '' 'a.old: 32 bytes, which is no whole number of records of 40 (mover, refusal 1)\n' "$hec1" --to-old a.old
not_zero='-: a byte is not zero that every record has as zero: another form, or no result file (mover, refusal 2)\n'
input 'A     \0002\0001\0000\0000\0000\0000\0000\0016\0047\0007\0000\0000\0000\0000\0002\0000\0000\0000\0000\0225\0272\0012\0000\0000\0000\0000'
try 'padding in an old file' 1 '' "$not_zero" "$hec1" --to-new
input "$record_a\\0226\\0000\\0001\\0000\\0000\\0000\\0000\\0000$record_a\\0144\\0000\\0001\\0000\\0000\\0000\\0000\\0001"
try 'padding behind another ratio in a new file' 1 '' "$not_zero" "$hec1" --to-old
no_old='a record under another ratio than 1.00, or not the first on its JR, has no old form (mover, refusal 3)\n'
input "$record_a$whole$record_a\\0226\\0000\\0001\\0000\\0000\\0000\\0000\\0000"
try 'another ratio' 1 '' "-: $no_old" "$hec1" --to-old
input "$record_a\\0144\\0000\\0002\\0000\\0000\\0000\\0000\\0000"
try 'another place' 1 '' "-: $no_old" "$hec1" --to-old
try 'two files to move' 2 '' 'hec1: --to-old takes one file\n' "$hec1" --to-old a.old a.old
try 'a folder to move' 2 '' 'hec1: .: is a folder\n' "$hec1" --to-new .
try 'a missing file to move' 2 '' 'hec1: none.old: no such file\n' "$hec1" --to-new none.old
head -c 1280000 /dev/zero >long.old
"$hec1" --to-new long.old >long.new 2>"$scratch/err"
holds '40,000 records in the new form: status' test $? = 0
"$hec1" --to-old long.new >long.back 2>"$scratch/err"
holds 'and in the old again: status' test $? = 0
holds '40,000 records there: their bytes' test $(($(wc -c <long.new))) = 1600000
same '40,000 records there and back' long.old long.back
head -c 1280032 /dev/zero >long.old
try 'an old file too long to be moved at once' 1 '' \
    'long.old: over 1,280,000 bytes: cut it between two records, and move the parts (mover, refusal 4)\n' "$hec1" --to-new long.old
printf 'x' >>long.new
try 'a new file too long to be moved at once' 1 '' 'long.new: over 1,600,000 bytes: cut it between two records, and move the parts\n' "$hec1" --to-old long.new
rm -f long.new long.old long.back
input "$record_a"
with 'a full device, a moved file' 2 'hec1: standard output: cannot be written to\n' '"$hec1" --to-new >/dev/full'

# ---- sheets

basin='ID POND\n*FREE\nIT 60,,,4\nKK UP\nBA 1.50\nPI 0.50,0.30,0.10\nLU 0.50,0.10\nUI 10,4\nKK RIV\nRM 1,1.00,0.20\nKK SIDE\nQI 1,2,2,1\nKK OUT\nHC 2\nZZ\n'
printf '%b' "$basin" >basin.hc1
head_of_4='interval,rain,loss,excess,1,2,3,4\n'
# sheet_of RATIO NAME: the sheet of UP as it stands in this deck, under one of three ratios and another name
sheet_of() {
    printf '%s' "units,$1,$2\n$head_of_4"
    case $1 in
    1.00) printf '%s' '2,180000,60000,120000,,120000000,48000000,\nsum,,,,0,120000000,48000000,0\n' ;;
    1.50) printf '%s' '1,450000,360000,90000,90000000,36000000,,\n2,270000,60000,210000,,210000000,84000000,\n3,90000,60000,30000,,,30000000,12000000\nsum,,,,90000000,246000000,114000000,12000000\n' ;;
    0.50) printf '%s' 'sum,,,,0,0,0,0\n' ;;
    esac
    printf '%s' "inches and cfs,$1,$2\n$head_of_4"
    case $1 in
    1.00) printf '%s' '2,0.300000,0.100000,0.200000,,2.000000,0.800000,\nsum,,,,0.000000,2.000000,0.800000,0.000000\n' ;;
    1.50) printf '%s' '1,0.750000,0.600000,0.150000,1.500000,0.600000,,\n2,0.450000,0.100000,0.350000,,3.500000,1.400000,\n3,0.150000,0.100000,0.050000,,,0.500000,0.200000\nsum,,,,1.500000,4.100000,1.900000,0.200000\n' ;;
    0.50) printf '%s' 'sum,,,,0.000000,0.000000,0.000000,0.000000\n' ;;
    esac
}
up=$(sheet_of 1.00 UP)
input ''
try 'a sheet, by the name' 0 "$up" '' "$hec1" --sheet UP basin.hc1
try 'a sheet, by the number' 0 "$up" '' "$hec1" --sheet 1 basin.hc1
try 'a sheet, by the number with zeros' 0 "$up" '' "$hec1" --sheet 001 basin.hc1
try 'a sheet, behind --' 0 "$up" '' "$hec1" --sheet UP -- basin.hc1
try 'a sheet under the one ratio' 0 "$up" '' "$hec1" --sheet UP --ratio 1 basin.hc1
try 'a sheet under the one ratio, behind --' 0 "$up" '' "$hec1" --sheet UP --ratio 01 -- basin.hc1
input "$basin"
try 'a sheet from standard input' 0 "$up" '' "$hec1" --sheet UP
try 'a sheet from standard input by its name' 0 "$up" '' "$hec1" --sheet UP -
try 'a sheet from standard input under a ratio' 0 "$up" '' "$hec1" --sheet 1 --ratio 1 -
input ''

# ratios: one by its place, or all
printf '%b' "$basin" | sed 's/^IT.*/&\nJR PREC,1.5,1,.5/' >three.hc1
try 'sheets under all ratios' 0 "$(sheet_of 1.50 UP)$up$(sheet_of 0.50 UP)" '' "$hec1" --sheet UP three.hc1
try 'the first ratio' 0 "$(sheet_of 1.50 UP)" '' "$hec1" --sheet UP --ratio 1 three.hc1
try 'the second ratio' 0 "$up" '' "$hec1" --sheet 1 --ratio 2 three.hc1
try 'the last ratio' 0 "$(sheet_of 0.50 UP)" '' "$hec1" --sheet UP --ratio 003 three.hc1
for ratio in 0 4 10 33 99999999999999999999; do
    try "no ratio $ratio" 2 '' "hec1: three.hc1: there is no ratio $ratio; the deck has 3 ratios\n" "$hec1" --sheet UP --ratio "$ratio" three.hc1
done
try 'no second ratio' 2 '' 'hec1: basin.hc1: there is no ratio 2; the deck has 1 ratio\n' "$hec1" --sheet UP --ratio 2 basin.hc1
printf '%b' "$basin" | sed 's/^IT.*/&\nJR PREC,1.5/' >one.hc1
try 'a JR with one ratio' 0 "$(sheet_of 1.50 UP)" '' "$hec1" --sheet UP one.hc1

# other blocks
try 'a routing has no sheet' 2 '' 'hec1: basin.hc1: block 2 is a routing; only a runoff block has a sheet\n' "$hec1" --sheet RIV basin.hc1
try 'an inflow has no sheet' 2 '' 'hec1: basin.hc1: block 3 is an inflow; only a runoff block has a sheet\n' "$hec1" --sheet 3 basin.hc1
try 'a confluence has no sheet' 2 '' 'hec1: three.hc1: block 4 is a confluence; only a runoff block has a sheet\n' "$hec1" --sheet OUT three.hc1
for word in 5 0 00 XX up U P UPP 1.0 -1 +1 ' 1' 'U*' '' 256 99999999999999999999; do
    try "no block '$word'" 2 '' "hec1: basin.hc1: there is no block '$word'; the deck has 4 blocks\n" "$hec1" --sheet "$word" basin.hc1
done
try 'no block of one' 2 '' "hec1: good.hc1: there is no block '2'; the deck has 1 block\n" "$hec1" --sheet 2 good.hc1
try 'no block with a name of two lines' 2 '' "hec1: basin.hc1: there is no block 'A?B'; the deck has 4 blocks\n" "$hec1" --sheet 'A
B' basin.hc1
try 'neither block nor ratio' 2 '' "hec1: basin.hc1: there is no block 'XX'; the deck has 4 blocks\n" "$hec1" --sheet XX --ratio 2 basin.hc1
try 'a routing, and no such ratio' 2 '' 'hec1: basin.hc1: there is no ratio 2; the deck has 1 ratio\n' "$hec1" --sheet RIV --ratio 2 basin.hc1

# names: one that stands twice, ones that look like numbers, and odd ones
printf '%b' "$basin" | sed 's/^KK SIDE/KK UP/' >twice.hc1
try 'a name that stands twice' 2 '' "hec1: twice.hc1: 'UP' is the name of blocks 1 and 3; say which one by its number\n" "$hec1" --sheet UP twice.hc1
try 'a name that stands twice, by the number' 0 "$up" '' "$hec1" --sheet 1 twice.hc1
printf '%b' "$basin" | sed 's/^KK.*/KK UP/; s/^IT.*/&\nJR PREC,1,1/' >all.hc1
try 'a name that all have' 2 '' "hec1: all.hc1: 'UP' is the name of blocks 1, 2, 3 and 4; say which one by its number\n" "$hec1" --sheet UP all.hc1
printf '%b' "$basin" | sed 's/^KK UP/KK 2/; s/^KK RIV/KK 01/' >numbers.hc1
try 'a name that looks like the number of another' 0 "$(sheet_of 1.00 2)" '' "$hec1" --sheet 2 numbers.hc1
try 'a number with a zero that is no name' 2 '' 'hec1: numbers.hc1: block 2 is a routing; only a runoff block has a sheet\n' "$hec1" --sheet 02 numbers.hc1
try 'a name with a zero that looks like the number of another' 2 '' 'hec1: numbers.hc1: block 2 is a routing; only a runoff block has a sheet\n' "$hec1" --sheet 01 numbers.hc1
try 'the number of another name' 0 "$(sheet_of 1.00 2)" '' "$hec1" --sheet 1 numbers.hc1
for odd in -- - --help RATIO END sum 1e0 0x1 a\'b '"q"' '$x' '%s' '*' '[A]' '\n' "A\\" '&' '.'; do
    printf '%b' "$basin" | NAME=$odd awk '$0 == "KK UP" { print "KK " ENVIRON["NAME"]; next } { print }' >odd.hc1
    try "a block called $odd" 0 "$(sheet_of 1.00 "$(printf '%s' "$odd" | sed 's/\\/\\\\/g')")" '' "$hec1" --sheet "$odd" odd.hc1
done
printf '%b' "$basin" | sed 's/^KK UP/*FIX\nKK A,,B\n*FREE/' >odd.hc1
try 'a name with commas' 0 "$(sheet_of 1.00 A,,B)" '' "$hec1" --sheet A,,B odd.hc1

# what is refused or cannot be read, and the words
input "$bad"
try 'no sheet of a refused deck' 1 "$bad_list" "-$bad_words" "$hec1" --sheet A
input ''
try 'no sheet of a deck without ZZ' 1 'REFUSED 16 0\n' "open.hc1$open_words" "$hec1" --sheet 1 open.hc1
try 'no sheet of a long deck' 1 'REFUSED 2 0\n' 'long.hc1: deck over 60,000 bytes (refusal 2)\n' "$hec1" --sheet 1 long.hc1
{ printf '%b' "$basin"; head -c $((60000 - $(printf '%b' "$basin" | wc -c))) /dev/zero; } >longest.hc1
try 'a sheet of a deck of 60,000 bytes' 0 "$up" '' "$hec1" --sheet UP longest.hc1
try 'no sheet of a missing file' 2 '' 'hec1: none.hc1: no such file\n' "$hec1" --sheet UP none.hc1
try 'no sheet of a folder' 2 '' 'hec1: .: is a folder\n' "$hec1" --sheet UP .
try 'sheets of two files' 2 '' 'hec1: --sheet takes one file\n' "$hec1" --sheet UP basin.hc1 basin.hc1
try 'no block named' 2 '' 'hec1: --sheet wants a block, its name or its number\n' "$hec1" --sheet
try 'a ratio before the block' 2 '' 'hec1: --sheet wants a block, its name or its number\n' "$hec1" --sheet --ratio 1 UP basin.hc1
for word in '' x 1.5 -1 '1 2'; do
    try "the ratio '$word'" 2 '' 'hec1: --ratio wants the place of a ratio on JR, a number from 1\n' "$hec1" --sheet UP --ratio "$word" basin.hc1
done
try 'a ratio without a place' 2 '' 'hec1: --ratio wants the place of a ratio on JR, a number from 1\n' "$hec1" --sheet UP --ratio
input "$basin"
with 'a full device, a sheet' 2 'hec1: standard output: cannot be written to\n' '"$hec1" --sheet UP >/dev/full'
with 'no standard input, a sheet' 2 'hec1: standard input: cannot be read\n' '"$hec1" --sheet UP <&-'

# programs that list decks and make no sheets
for answer in 'exit 3' 'echo NO SHEET 1; echo --' 'echo REFUSED 17 0; echo --' 'exit 0'; do
    printf '#!/bin/sh\nif [ "${1:-}" != --sheet ]; then exec "%s"; fi\ncat >/dev/null\n%s\n' "$second" "$answer" >"$scratch/broken"
    ended=0
    if [ "$answer" = 'exit 3' ]; then ended=3; fi
    try "a program that says: $answer" 2 '' "hec1: -: the program ended with status $ended and gave no sheet\n" "$root/hec1" --program "$scratch/broken" --sheet UP
done
printf '#!/bin/sh\nif [ "${1:-}" != --sheet ]; then exec "%s"; fi\ncat >/dev/null\necho OUTPUT FAILED >&2\n' "$second" >"$scratch/broken"
try 'a program that cannot write' 2 '' 'hec1: -: the output cannot be written\n' "$root/hec1" --program "$scratch/broken" --sheet UP

if [ -n "$proved" ]; then
    case_of 1 0 basin.hc1 >"$scratch/case"
    head -c 40 "$scratch/case" >"$scratch/cut"
    head -c 9 "$scratch/case" >"$scratch/shorter"
    with 'sheet: a folder as standard input' 0 'INPUT FAILED\n' "$made/sheet <."
    holds 'sheet: a folder as standard input: no sheet' test ! -s "$scratch/out"
    with 'sheet: a full device' 0 'OUTPUT FAILED\n' "$made/sheet <'$scratch/case' >/dev/full"
    with 'sheet: a case that ends inside its deck' 0 'INPUT CUT\n' "$made/sheet <'$scratch/cut'"
    with 'sheet: a case that ends inside a number' 0 'INPUT CUT\n' "$made/sheet <'$scratch/shorter'"
    with 'sheet: a case' 0 '' "$made/sheet <'$scratch/case'"
    printf '%b--\n' "$up" >"$scratch/expected"
    same 'sheet: a case: its text' "$scratch/expected" "$scratch/out"
fi

# every runoff block of every example under every ratio: the sheet is the one that the second program writes
find "$root/examples" -name '*.hc1' | sort >"$scratch/examples"
while IFS= read -r deck; do
    number=0
    ratios=$("$second" <"$deck" | grep -c '^RATIO ')
    if [ "$ratios" = 0 ]; then ratios=1; fi
    "$second" <"$deck" | awk 'NF == 6 { print $2 }' | head -n $(($("$second" <"$deck" | sed -n 's/^END //p'))) >"$scratch/kinds"
    while read -r kind; do
        number=$((number + 1))
        if [ "$kind" != 1 ]; then continue; fi
        for ratio in $(numbers 1 "$ratios"); do
            case_of "$number" "$ratio" "$deck" | "$second" --sheet | grep -v -x -e -- >"$scratch/expected"
            "$hec1" --sheet "$number" --ratio "$ratio" "$deck" >"$scratch/got" 2>"$scratch/err"
            same "the sheet of ${deck#"$root/"}, block $number, ratio $ratio" "$scratch/expected" "$scratch/got"
        done
    done <"$scratch/kinds"
done <"$scratch/examples"

# ---- hydrographs

# the hydrographs of that deck, and those of UP under three ratios; a line has the interval, the minutes, cfs and units
head_line='interval,minutes,cfs,units\n'
up_flow="${head_line}1,60,0.000000,0\n2,120,2.000000,120000000\n3,180,0.800000,48000000\n4,240,0.000000,0\n"
riv_flow="${head_line}1,60,0.000000,0\n2,120,0.461538,27692307\n3,180,1.368047,82082840\n4,240,0.746472,44788348\n"
side_flow="${head_line}1,60,1.000000,60000000\n2,120,2.000000,120000000\n3,180,2.000000,120000000\n4,240,1.000000,60000000\n"
out_flow="${head_line}1,60,1.000000,60000000\n2,120,2.461538,147692307\n3,180,3.368047,202082840\n4,240,1.746472,104788348\n"
up_more="${head_line}1,60,1.500000,90000000\n2,120,4.100000,246000000\n3,180,1.900000,114000000\n4,240,0.200000,12000000\n"
up_less="${head_line}1,60,0.000000,0\n2,120,0.000000,0\n3,180,0.000000,0\n4,240,0.000000,0\n"
input ''
try 'a hydrograph, by the name' 0 "$up_flow" '' "$hec1" --hydrograph UP basin.hc1
try 'a hydrograph, by the number' 0 "$riv_flow" '' "$hec1" --hydrograph 2 basin.hc1
try 'a hydrograph, by the number with zeros' 0 "$side_flow" '' "$hec1" --hydrograph 003 basin.hc1
try 'a hydrograph of a confluence' 0 "$out_flow" '' "$hec1" --hydrograph OUT basin.hc1
try 'a hydrograph, behind --' 0 "$out_flow" '' "$hec1" --hydrograph 4 -- basin.hc1
try 'a hydrograph under the one ratio' 0 "$up_flow" '' "$hec1" --hydrograph UP --ratio 1 basin.hc1
try 'a hydrograph under the one ratio, behind --' 0 "$up_flow" '' "$hec1" --hydrograph UP --ratio 01 -- basin.hc1
input "$basin"
try 'a hydrograph from standard input' 0 "$riv_flow" '' "$hec1" --hydrograph RIV
try 'a hydrograph from standard input by its name' 0 "$riv_flow" '' "$hec1" --hydrograph RIV -
try 'a hydrograph from standard input under a ratio' 0 "$riv_flow" '' "$hec1" --hydrograph RIV --ratio 1 -
try 'quiet, a hydrograph' 0 "$riv_flow" '' "$hec1" --quiet --hydrograph RIV
input '*FREE\nIT 59,,,3\nKK TINY\nBA 1\nPI 0.0001,0.0001\nLU 0,0.0001\nUI 0.15,0.15\nZZ\n'
try 'half of a millionth goes up' 0 "${head_line}1,59,0.000000,15\n2,118,0.000001,30\n3,177,0.000000,15\n" '' "$hec1" --hydrograph TINY
input '*FREE\nIT 1440,,,1\nKK MOST\nQI 100000\nZZ\n'
try 'the largest flow' 0 "${head_line}1,1440,100000.000000,6000000000000\n" '' "$hec1" --hydrograph MOST
input '*FREE\nIT 30,,,4\nKK A\nQI 0,6,12,8\nKK P\nRS 1,STOR\nSV 0,0.50,1.20\nSQ 0,2.00,7.00\nZZ\n'
try 'a hydrograph of a pond' 0 "${head_line}1,30,0.000000,0\n2,60,0.458015,27480916\n3,90,1.762135,105728104\n4,120,3.718068,223084099\n" '' "$hec1" --hydrograph P
awk 'BEGIN { print "*FREE\nIT 60,,,300\nKK A"; for (k = 0; k < 300; k++) print "QI " k; print "ZZ" }' >"$scratch/in"
"$hec1" --hydrograph A <"$scratch/in" >"$scratch/got" 2>&1
awk 'BEGIN { print "interval,minutes,cfs,units"; for (k = 0; k < 300; k++) printf "%d,%d,%d.000000,%d%s\n", k + 1, 60 * (k + 1), k, 60 * k, k ? "000000" : "" }' >"$scratch/expected"
same 'a hydrograph of 300 ordinates' "$scratch/expected" "$scratch/got"
input ''

# ratios: the only one, or one by its place
try 'the first ratio' 0 "$up_more" '' "$hec1" --hydrograph UP --ratio 1 three.hc1
try 'the second ratio' 0 "$up_flow" '' "$hec1" --hydrograph 1 --ratio 2 three.hc1
try 'the last ratio' 0 "$up_less" '' "$hec1" --hydrograph UP --ratio 003 three.hc1
try 'an inflow under any ratio' 0 "$side_flow" '' "$hec1" --hydrograph SIDE --ratio 3 three.hc1
try 'a JR with one ratio' 0 "$up_more" '' "$hec1" --hydrograph UP one.hc1
try 'which of three ratios' 2 '' 'hec1: three.hc1: the deck has 3 ratios; say which one by --ratio R, its place on JR\n' "$hec1" --hydrograph UP three.hc1
try 'which of two ratios' 2 '' 'hec1: all.hc1: the deck has 2 ratios; say which one by --ratio R, its place on JR\n' "$hec1" --hydrograph 4 all.hc1
for ratio in 0 4 10 33 99999999999999999999; do
    try "no ratio $ratio" 2 '' "hec1: three.hc1: there is no ratio $ratio; the deck has 3 ratios\n" "$hec1" --hydrograph UP --ratio "$ratio" three.hc1
done
try 'no second ratio' 2 '' 'hec1: basin.hc1: there is no ratio 2; the deck has 1 ratio\n' "$hec1" --hydrograph RIV --ratio 2 basin.hc1

# names
for word in 5 0 XX up '' 'U*' 256; do
    try "no hydrograph of '$word'" 2 '' "hec1: basin.hc1: there is no block '$word'; the deck has 4 blocks\n" "$hec1" --hydrograph "$word" basin.hc1
done
try 'neither block nor ratio' 2 '' "hec1: three.hc1: there is no block 'XX'; the deck has 4 blocks\n" "$hec1" --hydrograph XX three.hc1
try 'a name that stands twice' 2 '' "hec1: twice.hc1: 'UP' is the name of blocks 1 and 3; say which one by its number\n" "$hec1" --hydrograph UP twice.hc1
try 'a name that stands twice, by the number' 0 "$side_flow" '' "$hec1" --hydrograph 3 twice.hc1
try 'a name that all have, and ratios' 2 '' "hec1: all.hc1: 'UP' is the name of blocks 1, 2, 3 and 4; say which one by its number\n" "$hec1" --hydrograph UP all.hc1
try 'a name that looks like the number of another' 0 "$up_flow" '' "$hec1" --hydrograph 2 numbers.hc1
try 'a name with a zero that looks like the number of another' 0 "$riv_flow" '' "$hec1" --hydrograph 01 numbers.hc1
for odd in -- - --help RATIO END units 1e0 '"q"' '$x' '%s' '*' "A\\" '&'; do
    printf '%b' "$basin" | NAME=$odd awk '$0 == "KK UP" { print "KK " ENVIRON["NAME"]; next } { print }' >odd.hc1
    try "the hydrograph of a block called $odd" 0 "$up_flow" '' "$hec1" --hydrograph "$odd" odd.hc1
done

# what is refused or cannot be read, and the words
input "$bad"
try 'no hydrograph of a refused deck' 1 "$bad_list" "-$bad_words" "$hec1" --hydrograph A
try 'no hydrograph of a refused deck under a ratio' 1 "$bad_list" "-$bad_words" "$hec1" --hydrograph A --ratio 9
input ''
try 'no hydrograph of a deck without ZZ' 1 'REFUSED 16 0\n' "open.hc1$open_words" "$hec1" --hydrograph 1 open.hc1
try 'no hydrograph of a long deck' 1 'REFUSED 2 0\n' 'long.hc1: deck over 60,000 bytes (refusal 2)\n' "$hec1" --hydrograph 1 long.hc1
try 'a hydrograph of a deck of 60,000 bytes' 0 "$up_flow" '' "$hec1" --hydrograph UP longest.hc1
try 'no hydrograph of a missing file' 2 '' 'hec1: none.hc1: no such file\n' "$hec1" --hydrograph UP none.hc1
try 'no hydrograph of a folder' 2 '' 'hec1: .: is a folder\n' "$hec1" --hydrograph UP .
try 'hydrographs of two files' 2 '' 'hec1: --hydrograph takes one file\n' "$hec1" --hydrograph UP basin.hc1 basin.hc1
try 'no block named for a hydrograph' 2 '' 'hec1: --hydrograph wants a block, its name or its number\n' "$hec1" --hydrograph
try 'a ratio before the block of a hydrograph' 2 '' 'hec1: --hydrograph wants a block, its name or its number\n' "$hec1" --hydrograph --ratio 1 UP basin.hc1
for word in '' x 1.5 -1 '1 2'; do
    try "the ratio '$word' of a hydrograph" 2 '' 'hec1: --ratio wants the place of a ratio on JR, a number from 1\n' "$hec1" --hydrograph UP --ratio "$word" basin.hc1
done
try 'a hydrograph and a ratio without a place' 2 '' 'hec1: --ratio wants the place of a ratio on JR, a number from 1\n' "$hec1" --hydrograph UP --ratio
input "$basin"
with 'a full device, a hydrograph' 2 'hec1: standard output: cannot be written to\n' '"$hec1" --hydrograph UP >/dev/full'
with 'no standard input, a hydrograph' 2 'hec1: standard input: cannot be read\n' '"$hec1" --hydrograph UP <&-'
for answer in 'exit 3' 'echo REFUSED 17 0; echo --' 'exit 0'; do
    printf '#!/bin/sh\nif [ "${1:-}" != --hydrograph ]; then exec "%s"; fi\ncat >/dev/null\n%s\n' "$second" "$answer" >"$scratch/broken"
    code=0
    if [ "$answer" = 'exit 3' ]; then code=3; fi
    for words in '--hydrograph UP' '--hydrographs apart'; do
        # shellcheck disable=SC2086
        try "$words of a program that says: $answer" 2 '' "hec1: -: the program ended with status $code and gave no hydrograph\n" "$root/hec1" --program "$scratch/broken" $words
    done
done
printf '#!/bin/sh\nif [ "${1:-}" != --hydrograph ]; then exec "%s"; fi\ncat >/dev/null\necho OUTPUT FAILED >&2\n' "$second" >"$scratch/broken"
try 'a hydrograph of a program that cannot write' 2 '' 'hec1: -: the output cannot be written\n' "$root/hec1" --program "$scratch/broken" --hydrograph UP
if [ -n "$proved" ]; then
    with 'hydrograph: a folder as standard input' 0 'INPUT FAILED\n' "$made/hydrograph <."
    holds 'hydrograph: a folder as standard input: no hydrograph' test ! -s "$scratch/out"
    with 'hydrograph: a full device' 0 'OUTPUT FAILED\n' "$made/hydrograph <'$scratch/case' >/dev/full"
    with 'hydrograph: a case that ends inside its deck' 0 'INPUT CUT\n' "$made/hydrograph <'$scratch/cut'"
    with 'hydrograph: a case that ends inside a number' 0 'INPUT CUT\n' "$made/hydrograph <'$scratch/shorter'"
    with 'hydrograph: a case' 0 '' "$made/hydrograph <'$scratch/case'"
    printf '%b--\n' "$up_flow" >"$scratch/expected"
    same 'hydrograph: a case: its text' "$scratch/expected" "$scratch/out"
fi

# every block in a file of its own
# wrote NAME FOLDER FILE TEXT ...: the folder has these files and no others
wrote() {
    title=$1
    folder=$2
    shift 2
    LC_ALL=C ls -A "$folder" >"$scratch/got"
    : >"$scratch/expected"
    while [ $# -gt 0 ]; do
        echo "$1" >>"$scratch/expected"
        printf '%b' "$2" >"$scratch/text"
        same "$title: $1" "$scratch/text" "$folder/$1"
        shift 2
    done
    same "$title: the names" "$scratch/expected" "$scratch/got"
    rm -rf "$folder"
}
input ''
holds 'no folder was made where there is no hydrograph' test ! -e apart
try 'all hydrographs' 0 '' 'hec1: apart: 4 files written\n' "$hec1" --hydrographs apart basin.hc1
try 'all hydrographs once more' 0 '' 'hec1: apart: 4 files written\n' "$hec1" --hydrographs apart -- basin.hc1
wrote 'all hydrographs' apart 001-UP.csv "$up_flow" 002-RIV.csv "$riv_flow" 003-SIDE.csv "$side_flow" 004-OUT.csv "$out_flow"
try 'one hydrograph of one' 0 '' 'hec1: a/b c/*: 1 file written\n' "$hec1" --hydrographs 'a/b c/*' good.hc1
wrote 'one hydrograph of one' 'a/b c/*' 001-A.csv "${head_line}1,60,1.000000,60000000\n2,120,2.000000,120000000\n3,180,0.000000,0\n4,240,0.000000,0\n"
input "$basin"
try 'all hydrographs of standard input' 0 '' 'hec1: ./-apart/: 4 files written\n' "$hec1" --hydrographs ./-apart/
wrote 'all hydrographs of standard input' ./-apart 001-UP.csv "$up_flow" 002-RIV.csv "$riv_flow" 003-SIDE.csv "$side_flow" 004-OUT.csv "$out_flow"
input ''
try 'all hydrographs under one ratio' 0 '' 'hec1: apart: 4 files written\n' "$hec1" --hydrographs apart one.hc1
holds 'all hydrographs under one ratio: the name' test -f apart/001-UP-ratio1.csv
rm -r apart
sed '/^KK RIV/,/^HC/d' three.hc1 >up.hc1
try 'all hydrographs under three ratios' 0 '' 'hec1: apart: 3 files written\n' "$hec1" --hydrographs apart up.hc1
wrote 'all hydrographs under three ratios' apart 001-UP-ratio1.csv "$up_more" 001-UP-ratio2.csv "$up_flow" 001-UP-ratio3.csv "$up_less"
printf '%b' "$basin" | sed 's|^KK UP|KK ../x|; s|^KK RIV|KK a*b|; s|^KK SIDE|KK -._9|; s|^KK OUT|KK RATIO|' >odd.hc1
try 'all hydrographs of odd names' 0 '' 'hec1: apart: 4 files written\n' "$hec1" --hydrographs apart odd.hc1
wrote 'all hydrographs of odd names' apart 001-.._x.csv "$up_flow" 002-a_b.csv "$riv_flow" 003--._9.csv "$side_flow" 004-RATIO.csv "$out_flow"
try 'all hydrographs of one name' 0 '' 'hec1: apart: 8 files written\n' "$hec1" --hydrographs apart all.hc1
wrote 'all hydrographs of one name' apart 001-UP-ratio1.csv "$up_flow" 001-UP-ratio2.csv "$up_flow" 002-UP-ratio1.csv "$riv_flow" 002-UP-ratio2.csv "$riv_flow" \
    003-UP-ratio1.csv "$side_flow" 003-UP-ratio2.csv "$side_flow" 004-UP-ratio1.csv "$out_flow" 004-UP-ratio2.csv "$out_flow"
: >"$scratch/starts"
"$root/hec1" --program "$scratch/counting" --hydrographs apart three.hc1 2>/dev/null
printf 'start \nstart --hydrograph\n' >"$scratch/expected"
same 'all hydrographs in one start' "$scratch/expected" "$scratch/starts"
rm -r apart
try 'no hydrographs of a refused deck' 1 "$bad_list" "pond.hc1$bad_words" "$hec1" --hydrographs apart pond.hc1
try 'no hydrographs of a missing file' 2 '' 'hec1: none.hc1: no such file\n' "$hec1" --hydrographs apart none.hc1
try 'all hydrographs of two files' 2 '' 'hec1: --hydrographs takes one file\n' "$hec1" --hydrographs apart basin.hc1 basin.hc1
holds 'no folder was made of a refused deck' test ! -e apart
for words in '' --ratio -x; do
    try "the folder '$words'" 2 '' 'hec1: --hydrographs wants a folder\n' "$hec1" --hydrographs "$words" basin.hc1
done
try 'no folder' 2 '' 'hec1: --hydrographs wants a folder\n' "$hec1" --hydrographs
: >apart
try 'a file in the place of the folder' 2 '' 'hec1: apart: the folder cannot be made\n' "$hec1" --hydrographs apart basin.hc1
try 'a file in the place of the folder above' 2 '' 'hec1: apart/x: the folder cannot be made\n' "$hec1" --hydrographs apart/x basin.hc1
rm apart
mkdir -p apart/002-RIV.csv
try 'a folder in the place of a file' 2 '' 'hec1: apart: cannot be written to\n' "$hec1" --hydrographs apart basin.hc1
rm -r apart
if [ "$(id -u)" != 0 ]; then
    mkdir apart
    chmod 500 apart
    try 'a folder that is closed' 2 '' 'hec1: apart: cannot be written to\n' "$hec1" --hydrographs apart basin.hc1
    try 'a folder in one that is closed' 2 '' 'hec1: apart/x: the folder cannot be made\n' "$hec1" --hydrographs apart/x basin.hc1
    rmdir apart
fi

# every example: each block under each ratio has the hydrograph that the second program writes, and there is no other file
while IFS= read -r deck; do
    named=${deck#"$root/"}
    "$second" <"$deck" >"$scratch/listing"
    if grep -q '^REFUSED ' "$scratch/listing"; then continue; fi
    "$hec1" --hydrographs "$scratch/apart" "$deck" >"$scratch/out" 2>"$scratch/err"
    holds "the hydrographs of $named: status" test $? = 0
    holds "the hydrographs of $named: nothing on standard output" test ! -s "$scratch/out"
    files=0
    ratios=$(grep -c '^RATIO ' "$scratch/listing")
    for number in $(numbers 1 "$(sed -n 's/^END //p' "$scratch/listing")"); do
        for ratio in $(numbers 1 $((ratios + (ratios == 0)))); do
            case_of "$number" "$ratio" "$deck" | "$second" --hydrograph | grep -v -x -e -- >"$scratch/expected"
            file=$(printf '%03d-%s' "$number" "$(awk -v n="$number" 'NF == 6 && ++k == n { print $1 }' "$scratch/listing")")
            if [ "$ratios" != 0 ]; then file=$file-ratio$ratio; fi
            same "the hydrograph of $named, block $number, ratio $ratio" "$scratch/expected" "$scratch/apart/$file.csv"
            files=$((files + 1))
        done
    done
    holds "the hydrographs of $named: no others" test "$(find "$scratch/apart" -type f | grep -c .)" = "$files"
    holds "the hydrographs of $named: their number" grep -q ": $files files\\{0,1\\} written\$" "$scratch/err"
    rm -rf "$scratch/apart"
done <"$scratch/examples"

# ---- records of the examples

# every example: its records are those that the second program has, and they move back only without other ratios
while IFS= read -r deck; do
    "$hec1" --records "$deck" >"$scratch/records"
    od -An -v -tx1 <"$scratch/records" | tr -d ' \n' >"$scratch/got"
    "$second" --full <"$deck" | sed -n 3p | head -c $((2 * $(wc -c <"$scratch/records"))) >"$scratch/expected"
    same "the records of ${deck#"$root/"}" "$scratch/expected" "$scratch/got"
    "$hec1" --to-old "$scratch/records" >"$scratch/old" 2>"$scratch/err"
    ended=$?
    if grep -q '^JR' "$deck"; then
        holds "${deck#"$root/"} has no old form" test "$ended" = 1 -a ! -s "$scratch/old"
    else
        "$hec1" --to-new "$scratch/old" >"$scratch/new"
        same "${deck#"$root/"}, its records there and back" "$scratch/records" "$scratch/new"
    fi
done <"$scratch/examples"

# ---- what the guide says in its sentences

# gives DECK LISTING: an accepted deck; refuses NUMBER LINE DECK: a refused one, whatever its words
gives() {
    input "$1"
    try "the guide: $1" 0 "$2" '' "$hec1" -q
}
refuses() {
    input "$3"
    "$hec1" <"$scratch/in" >"$scratch/out" 2>/dev/null
    printf 'REFUSED %s %s\n' "$1" "$2" >"$scratch/expected"
    same "the guide: $3" "$scratch/expected" "$scratch/out"
}
free='*FREE\nIT 60,,,4\nKK A\n'
gives '*FREE\r\nIT 60,,,4\r\nKK A\r\nQI 1,2\r\nZZ' "$good_list"
gives '\n*FREE\n   \nIT 60,,,4\nKK A\nQI 1,2\n\nZZ\n' "$good_list"
gives 'IT60                           4\nKKA\nQI   1.1    2.22\nZZ\n' 'A 2 0.00 2.22 2 199200000\nEND 1\n'
gives 'IT60                           4\nKKA\nQI     12.5\nZZ\n' 'A 2 0.00 2.50 2 210000000\nEND 1\n'
gives '*FREE\nIT 60,,,4\nKK A\n*FIX\nQI     1       2\nZZ\n' "$good_list"
gives "${free}QI 1 , 2 ,,\nZZ\n" "$good_list"
gives "${free}QI 1,,2\nZZ\n" 'A 2 0.00 2.00 3 180000000\nEND 1\n'
gives "${free}QI +1,2.\nZZ\n" "$good_list"
gives "${free}QI .5,0.50\nZZ\n" 'A 2 0.00 0.50 1 60000000\nEND 1\n'
gives "${free}QI 0000001.5\nZZ\n" 'A 2 0.00 1.50 1 90000000\nEND 1\n'
refuses 6 4 "${free}QI 00000001.50\nZZ\n"
gives "${free}QI 1.500\nZZ\n" 'A 2 0.00 1.50 1 90000000\nEND 1\n'
gives "${free}QI 1.50000000\nZZ\n" 'A 2 0.00 1.50 1 90000000\nEND 1\n'
gives "${free}QI .0,-0.0,0.000,10.0\nZZ\n" 'A 2 0.00 10.00 4 600000000\nEND 1\n'
gives '*FREE\nIT 60.0,,,4.000\nKK A\nQI 1,2\nZZ\n' "$good_list"
gives 'IT60.00                   4.00\nKKA\nQI 1.00   2.000\nZZ\n' "$good_list"
gives "${free}BA 1.5000\nPI 2.00000\nLU 0.000,.0,-0.000\nUI 50000.000\nZZ\n" 'A 1 1.50 100000.00 1 6000000000000\nEND 1\n'
refuses 6 2 '*FREE\nIT 60.5,,,4\nKK A\nQI 1\nZZ\n'
refuses 6 2 '*FREE\nIT 60,,,4.50\nKK A\nQI 1\nZZ\n'
refuses 6 4 "${free}QI 1.500000000\nZZ\n"
refuses 6 4 "${free}QI 1.001\nZZ\n"
refuses 6 4 "${free}QI 1.0010\nZZ\n"
refuses 7 4 "${free}PI 20.00010\nZZ\n"
refuses 7 4 "${free}BA 0.000\nZZ\n"
refuses 6 4 "${free}QI 1E2\nZZ\n"
gives "${free}BA 1\nPI\nLU\nUI 10\nZZ\n" 'A 1 1.00 0.00 1 0\nEND 1\n'
gives "${free}QI\nZZ\n" 'A 2 0.00 0.00 1 0\nEND 1\n'
gives "${free}QI 1\nKK A\nQI 1\nKK A\nHC 2\nZZ\n" 'A 2 0.00 1.00 1 60000000\nA 2 0.00 1.00 1 60000000\nA 3 0.00 2.00 1 120000000\nEND 3\n'
gives "${free}BA 1.5\nQI 1,2\nZZ\n" 'A 2 1.50 2.00 2 180000000\nEND 1\n'
gives "${free}BA 1\nPI 2\nLU\nUI 50000\nZZ\n" 'A 1 1.00 100000.00 1 6000000000000\nEND 1\n'
refuses 6 4 "${free}HC 2,0\n"
refuses 6 3 '*FREE\nIT 60,,,4\nKK SEVENTH\n'
refuses 6 2 'IT    60                       4\nKK RED RI\n'
refuses 4 1 'kk a\n'
refuses 4 1 '*FREE form\n'
refuses 4 1 ' ID\n'
refuses 5 4 "${free}ID\n"
refuses 5 4 "${free}IT 60,,,4\n"
refuses 5 5 "${free}BA 1\nBA 1\n"
refuses 9 6 "${free}BA 1\nHC 2\nZZ\n"
# a chain of routings with equal K/N has the ordinates of one routing, each of them
chain='*FREE\nIT 120,,,40\nKK A\nQI 0,500,900,400,100\n'
printf '%b' "${chain}KK R\nRM 4,20,0.1\nZZ\n" | "$second" --full --named 2 | sed -n 2p >"$scratch/expected"
printf '%b' "${chain}KK R\nRM 2,10,0.1\nKK R\nRM 2,10,0.1\nZZ\n" | "$second" --full --named 3 | sed -n 2p >"$scratch/got"
same 'the guide: a chain of two' "$scratch/expected" "$scratch/got"
printf '%b' "${chain}KK R\nRM 1,5,0.1\nKK R\nRM 3,15,0.1\nZZ\n" | "$second" --full --named 3 | sed -n 2p >"$scratch/got"
same 'the guide: a chain of one step and three' "$scratch/expected" "$scratch/got"

# ---- the transcripts of the guide: docs/USERS.md, and its parts in their order

# A block 'deck NAME' is that file. A block 'console' has commands behind '$ ' and what each prints, both outputs together.
guide=$scratch/guide
mkdir "$guide" "$scratch/steps" && cd "$guide" || exit 2
ln -s "$hec1" hec1
ln -s "$root/target" target
ln -s "$root/examples" examples
awk -v steps="$scratch/steps" '
    /^```deck / { deck = $2; next }
    /^```console$/ { console = 1; block++; next }
    /^```/ { deck = ""; console = 0; next }
    deck != "" { print >deck; next }
    console && /^\$ / {
        n++
        base = sprintf("%s/%03d", steps, n)
        print block >(base ".block")
        print substr($0, 3) >(base ".command")
        printf "" >(base ".expected")
        close(base ".block"); close(base ".command")
        next
    }
    console { print >(base ".expected") }' "$root/docs/USERS.md" "$root"/docs/users/*.md
block="" last=0
for command in "$scratch"/steps/*.command; do
    base=${command%.command}
    # a block's commands share the last exit status, as in a shell
    if [ "$(cat "$base.block")" != "$block" ]; then last=0; fi
    block=$(cat "$base.block")
    { echo "(exit $last)"; cat "$command"; } >"$scratch/script"
    sh "$scratch/script" </dev/null >"$base.got" 2>&1
    last=$?
    same "the guide: $(cat "$command")" "$base.expected" "$base.got"
done
for n in $(numbers 1 "$refusals"); do
    cat "$scratch"/steps/*.got | grep -q "REFUSED $n [0-9]" || { failed=$((failed + 1)); echo "FAILED: the guide does not provoke refusal $n"; continue; }
    passed=$((passed + 1))
done

# the scripts of examples/from-hec1 say the same under every awk that is here, and say so where they are called wrongly
sh "$root/examples/from-hec1/compare.sh" >"$scratch/expected"
for other in mawk gawk original-awk busybox; do
    at=$(command -v "$other") || continue
    mkdir -p "$scratch/awks/$other"
    case $other in busybox) words=' awk' ;; *) words= ;; esac
    printf '#!/bin/sh\nexec "%s"%s "$@"\n' "$at" "$words" >"$scratch/awks/$other/awk"
    chmod +x "$scratch/awks/$other/awk"
    # one that is built without roots and powers says so, and cannot run them
    if [ "$("$scratch/awks/$other/awk" 'BEGIN { print (sqrt(4) ^ .5 > 1) }' 2>/dev/null)" != 1 ] && [ "$other" = busybox ]; then continue; fi
    PATH=$scratch/awks/$other:$PATH sh "$root/examples/from-hec1/compare.sh" >"$scratch/got"
    same "the scripts of examples/from-hec1 under $other" "$scratch/expected" "$scratch/got"
done
for script in ui-from-ud ui-from-uc base-flow; do
    awk -f "$root/examples/from-hec1/$script.awk" 1 </dev/null >"$scratch/out" 2>"$scratch/err"
    holds "$script.awk, called wrongly: status" test $? = 2
    holds "$script.awk, called wrongly: words" grep -q "^$script.awk: usage: " "$scratch/err"
done

# ---- the links of the guide

# Each link goes to a file that is there, and to a heading of it where it names one. A heading is named by its letters, digits, '-' and '_',
# small, with '-' for blanks. Every section of a part stands in the contents of docs/USERS.md.
cd "$root/docs" || exit 2
links() {
    awk '
        FNR == 1 { code = 0 }
        /^```/ { code = !code }
        code || /^    / { next }
        /^#/ {
            head = tolower($0)
            sub(/^#+ */, "", head)
            gsub(/[^a-z0-9_ -]/, "", head)
            gsub(/ /, "-", head)
            print "head " FILENAME "#" head
        }
        {
            line = $0
            while (match(line, /\]\([^)]*\)/)) {
                to = substr(line, RSTART + 2, RLENGTH - 3)
                line = substr(line, RSTART + RLENGTH)
                if (to ~ /:/) continue
                folder = FILENAME
                if (!sub(/[^\/]*$/, "", folder)) folder = ""
                if (to ~ /^#/) to = FILENAME to
                else to = folder to
                while (sub(/[^\/.]+\/\.\.\//, "", to)) continue
                print "link " to
            }
        }' "$@"
}
links USERS.md users/*.md >"$scratch/links"
holds 'the guide has links' grep -q '^link users/1-writing.md#' "$scratch/links"
sed -n 's/^head //p' "$scratch/links" | LC_ALL=C sort -u >"$scratch/heads"
sed -n 's/^link \(.*#.*\)$/\1/p' "$scratch/links" | LC_ALL=C sort -u | LC_ALL=C comm -23 - "$scratch/heads" >"$scratch/got"
: >"$scratch/expected"
same 'the guide: links to headings that are not there' "$scratch/expected" "$scratch/got"
sed -n 's/^link \([^#]*\).*/\1/p' "$scratch/links" | LC_ALL=C sort -u | while IFS= read -r to; do [ -e "$to" ] || echo "$to"; done >"$scratch/got"
same 'the guide: links to files that are not there' "$scratch/expected" "$scratch/got"
links USERS.md | sed -n 's/^link //p' | LC_ALL=C sort -u >"$scratch/contents"
grep '^users/.*#[1-5][0-9]-' "$scratch/heads" | grep -v '^users/3' | LC_ALL=C comm -23 - "$scratch/contents" >"$scratch/got"
same 'the guide: sections that its contents lack' "$scratch/expected" "$scratch/got"
grep '^users/3-refusals.md#[1-9]' "$scratch/heads" | LC_ALL=C comm -23 - "$scratch/contents" >"$scratch/got"
same 'the guide: refusals that its entrance lacks' "$scratch/expected" "$scratch/got"
holds 'the guide has a heading for every refusal' test "$(grep -c '^users/3-refusals.md#[1-9][0-9]*-' "$scratch/heads")" = "$refusals"

# ---- the decks of examples/

cd "$root" || exit 2
find examples -name '*.hc1' | sort >"$scratch/examples"
holds 'there are examples' test -s "$scratch/examples"
while IFS= read -r deck; do
    "$hec1" "$deck" >"$scratch/got" 2>"$scratch/err" </dev/null
    same "$deck" "${deck%.hc1}.listing" "$scratch/got"
done <"$scratch/examples"
# a sheet says itself whose it is
find examples -name '*.sheet' | sort >"$scratch/sheets"
holds 'there is a sheet' test -s "$scratch/sheets"
while IFS= read -r sheet; do
    "$hec1" --sheet "$(sed -n '1s/^units,[0-9.]*,//p' "$sheet")" "${sheet%.sheet}.hc1" >"$scratch/got" 2>"$scratch/err" </dev/null
    same "$sheet" "$sheet" "$scratch/got"
done <"$scratch/sheets"

# the five storms in one run are the five decks' listings joined, each behind its ratio, with the block count once
cat examples/nine-acre-pond/storm-?.listing | grep -v '^END ' >"$scratch/expected"
"$hec1" examples/nine-acre-pond/five-storms.hc1 | grep -v '^RATIO \|^END ' >"$scratch/got"
same 'five storms in one run' "$scratch/expected" "$scratch/got"
sed -n '/five-storms.hc1$/,/ END /p' README.md | sed '1d; s/^    //' >"$scratch/got"
same 'the listing that README.md opens with' examples/nine-acre-pond/five-storms.listing "$scratch/got"

# ---- how the program is built, with a stand-in for the kit that counts its runs

bare_tools

# installed NAME COMMAND: a command that was installed, moved and called from another folder without the kit says what "$hec1" says
installed() {
    title=$1
    alone=$2
    for words in good.hc1 pond.hc1 short.hc1 'good.hc1 pond.hc1' '-q short.hc1' - '--bundle good.hc1 pond.hc1' '--records good.hc1' \
        '--records pond.hc1' '--to-old new' '--to-new old' '--to-new new' '--sheet UP basin.hc1' '--sheet UP pond.hc1' '--sheet RIV basin.hc1' \
        '--hydrograph OUT basin.hc1' '--hydrograph UP three.hc1' '--hydrograph A pond.hc1' '--hydrographs apart three.hc1' '--hydrographs apart pond.hc1' \
        '--table basin.hc1' '--table three.hc1 pond.hc1 basin.hc1' '--table pond.hc1' '--network basin.hc1' '--network pond.hc1' '--plot none.hc1 --foo' \
        --version --help --foo 'good.hc1 -q' none.hc1 --sheet; do
        # shellcheck disable=SC2086
        "$hec1" $words <good.hc1 >"$scratch/out" 2>"$scratch/err"
        { echo "status $?"; cat "$scratch/out"; echo '-- err'; cat "$scratch/err"; } >"$scratch/expected"
        # shellcheck disable=SC2086
        env PATH="$scratch/nothing" "$alone" $words <good.hc1 >"$scratch/out" 2>"$scratch/err"
        { echo "status $?"; cat "$scratch/out"; echo '-- err'; cat "$scratch/err"; } >"$scratch/got"
        same "$title: $words" "$scratch/expected" "$scratch/got"
    done
    "$hec1" --hydrographs "$scratch/one" three.hc1 2>/dev/null
    env PATH="$scratch/nothing" "$alone" --hydrographs "$scratch/two" three.hc1 2>/dev/null
    holds "$title: the hydrographs" diff -r "$scratch/one" "$scratch/two"
    rm -rf "$scratch/one" "$scratch/two" apart
    env PATH="$scratch/nothing" "$alone" --install "$scratch/again" >"$scratch/out" 2>&1
    holds "$title: no second installation: status" test $? = 2
    echo 'hec1: --install: this command is installed itself; use the one in the repository' >"$scratch/expected"
    same "$title: no second installation" "$scratch/expected" "$scratch/out"
    holds "$title: no second installation: no folder" test ! -e "$scratch/again"
    rm "${alone%/bin/hec1}/lib/evzorkhum/programs/sheet"
    env PATH="$scratch/nothing" "$alone" --sheet UP basin.hc1 >"$scratch/out" 2>&1
    holds "$title: a program is missing: status" test $? = 2
    echo "hec1: $(CDPATH="" cd -- "${alone%/bin/hec1}" && pwd -P)/lib/evzorkhum/programs/sheet is missing; install the command again" >"$scratch/expected"
    same "$title: a program is missing" "$scratch/expected" "$scratch/out"
    rm "${alone%/bin/hec1}/lib/evzorkhum/programs/reason"
    env PATH="$scratch/nothing" "$alone" pond.hc1 >"$scratch/out" 2>&1
    holds "$title: the program for closer words is missing: status" test $? = 1
    {
        printf '%b' "$bad_list"
        echo "hec1: $(CDPATH="" cd -- "${alone%/bin/hec1}" && pwd -P)/lib/evzorkhum/programs/reason is missing; install the command again"
        echo 'pond.hc1:7: value outside its limits (refusal 7): PI 25.0'
    } >"$scratch/expected"
    same "$title: the program for closer words is missing" "$scratch/expected" "$scratch/out"
}
cd "$place" || exit 2
printf '%b' "$record_a$whole" >new
printf '%b' "$record_a" >old
input ''
if [ -n "$proved" ]; then
    "$hec1" --install "$scratch/here" >"$scratch/out" 2>"$scratch/err"
    holds 'installed: status' test $? = 0
    mv "$scratch/here" "$scratch/there"
    # what an installed program is linked with: the C library and its loader, which every machine has, and nothing of the kit
    for program in bundle hec1 hydrograph reason sheet store; do
        ldd "$scratch/there/lib/evzorkhum/programs/$program" 2>&1 | awk '{ sub(/.*\//, "", $1); print $1 }' | grep -v '^linux-vdso' | LC_ALL=C sort >"$scratch/got"
        printf '%s\n' ld-linux-x86-64.so.2 libc.so.6 >"$scratch/expected"
        same "installed: $program wants the C library alone" "$scratch/expected" "$scratch/got"
    done
    installed 'installed' "$scratch/there/bin/hec1"
else
    try 'only proved programs are installed' 2 '' 'hec1: --install: only proved programs are installed\n' "$hec1" --install "$scratch/here"
    holds 'only proved programs are installed: no folder' test ! -e "$scratch/here"
fi

# The stand-in says what rt says, a crate that is kept in nothing, and ends with a line that has no end; the program that it makes is started by it too,
# as rt does. Files in the repository have it fail, or end well with no program.
kit=$scratch/kit
repository="$scratch/a repository"
mkdir -p "$kit/bin" "$repository/second" "$repository/command"
for one in base middle other hec1 bundle store sheet hydrograph reason; do mkdir -p "$repository/crates/$one/src"; done
cp "$root/hec1" "$repository/"
cp "$root/command/"*.sh "$repository/command/"
cp "$root/second/kit.sh" "$root/second/programs.sh" "$repository/second/"
printf '%s\n' '# NAME: what it stands on' 'base:' 'middle: base io libc' 'other: base' 'hec1: middle' 'bundle: middle other bytes' 'store: base' \
    'sheet: other' 'hydrograph: other' 'reason: other' >"$repository/crates.txt"
for one in hec1 bundle; do echo '// a source' >"$repository/crates/$one/src/main.rt"; done
cat >"$kit/bin/rt" <<'END'
#!/bin/sh
if [ "$1" = version ]; then
    echo 'a stand-in for the kit'
    exit 0
fi
name=${PWD##*/}
echo "$name: $*" >>"$RUNS"
{
    echo 'only=0 proved=0'
    if [ ! -f ../../kept ]; then
        printf '%s\n' 'rt: chose --jobs 2 for base' 'fn base::something: proved' 'crate base: modules loaded=0 checked=40' 'logic=proved functions=1 native=nat'
    fi
    printf '%s\n' 'fn middle::something: proved' 'library base: modules loaded=0 checked=0' 'crate middle: modules loaded=0 checked=12' 'logic=proved functions=9 native=nat'
    sleep "${PAUSE:-0.2}"
    if [ -f ../../fault ]; then
        echo 'what was wrong'
        exit 1
    fi
    if [ -f ../../hollow ]; then exit 0; fi
    mkdir -p out
    case $name in hec1) option= ;; *) option=--$name ;; esac
    printf '#!/bin/sh\nexec "%s" %s\n' "$SECOND" "$option" >"out/$name"
    chmod +x "out/$name"
    printf '%s\n' "crate $name: modules loaded=0 checked=220" 'logic=proved functions=7 axioms=8 target=x86_64' "linked files=out/$name.o"
    printf 'rt: running %s' "out/$name"
} >&2
exec "out/$name"
END
chmod +x "$kit/bin/rt"
RUNS=$scratch/runs SECOND=$second PATH=$kit/bin:$PATH
export RUNS SECOND PATH
: >"$RUNS"
runs() { [ "$(grep -c . "$RUNS")" = "$1" ]; }
hec1=$repository/hec1
log=$repository/target/command/hec1.log
"$hec1" -q good.hc1 >"$scratch/got" 2>"$scratch/err"
holds 'first use: status' test $? = 0
printf '%b' "$good_list" >"$scratch/expected"
same 'first use: listing' "$scratch/expected" "$scratch/got"
printf '%s\n' "hec1: proving and building hec1, which takes a while (log: $log)" \
    'hec1: hec1 is proved and built (N s)' >"$scratch/expected"
sed 's/([0-9]* s)/(N s)/' "$scratch/err" >"$scratch/got"
same 'first use: words' "$scratch/expected" "$scratch/got"
# what the stand-in says before it can fail
of_below() {
    printf '%s\n' 'only=0 proved=0' 'rt: chose --jobs 2 for base' 'fn base::something: proved' 'crate base: modules loaded=0 checked=40' \
        'logic=proved functions=1 native=nat' 'fn middle::something: proved' 'library base: modules loaded=0 checked=0' \
        'crate middle: modules loaded=0 checked=12' 'logic=proved functions=9 native=nat'
}
{
    of_below
    printf '%s\n' 'crate hec1: modules loaded=0 checked=220' 'logic=proved functions=7 axioms=8 target=x86_64' 'linked files=out/hec1.o' \
        'rt: running out/hec1'
} >"$scratch/expected"
same 'first use: the log' "$scratch/expected" "$log"
holds 'first use: one run of rt' runs 1
try 'second use' 0 "$good_list" '' "$hec1" --quiet good.hc1
holds 'second use: no run of rt' runs 1

# closer words want the program reason; where it is not built the words are those of the number, and the status stays
: >"$repository/fault"
"$hec1" pond.hc1 pond.hc1 >"$scratch/got" 2>"$scratch/err"
holds 'no program for closer words: status' test $? = 1
printf '%b' "== pond.hc1\n${bad_list}== pond.hc1\n$bad_list" >"$scratch/expected"
same 'no program for closer words: listings' "$scratch/expected" "$scratch/got"
holds 'no program for closer words: it is tried once' runs 2
{
    printf '%s\n' 'hec1: which field is refused is told by one more program' "hec1: proving and building reason, which takes a while (log: ${log%hec1.log}reason.log)"
    of_below
    echo 'what was wrong'
    echo "hec1: reason was not proved and built; all of the log is in ${log%hec1.log}reason.log"
    for one in 1 2; do echo 'pond.hc1:7: value outside its limits (refusal 7): PI 25.0'; done
} >"$scratch/expected"
same 'no program for closer words: words' "$scratch/expected" "$scratch/err"
rm "$repository/fault"
input "$bad"
"$hec1" <"$scratch/in" >"$scratch/got" 2>"$scratch/err"
holds 'the program for closer words is built too: status' test $? = 1
printf '%b' 'hec1: which field is refused is told by one more program\n' "hec1: proving and building reason, which takes a while (log: ${log%hec1.log}reason.log)\n" \
    "hec1: reason is proved and built (N s)\n-$bad_words" >"$scratch/expected"
sed 's/([0-9]* s)/(N s)/' "$scratch/err" >"$scratch/got"
same 'the program for closer words: words' "$scratch/expected" "$scratch/got"
holds 'the program for closer words: by its name' test "$(tail -n 1 "$RUNS")" = 'reason: run'
try 'second use, standard input' 1 "$bad_list" "-$bad_words" "$hec1"
holds 'second use, refused: no run of rt' runs 3
input ''
touch "$repository/crates/hec1/src/main.rt"
"$hec1" -q good.hc1 >/dev/null 2>&1
holds 'a source is newer: built again' runs 4
touch "$repository/crates.txt"
"$hec1" -q good.hc1 >/dev/null 2>&1
holds 'crates.txt is newer: built again' runs 5
try 'and then no more' 0 "$good_list" '' "$hec1" -q good.hc1
holds 'and then no more: runs' runs 5
rm -r "$repository/crates/hec1/out"
mkdir "$repository/crates/hec1/out" "$repository/crates/base/out"
echo 'what a check keeps' >"$repository/crates/base/out/kept"
try 'what rt keeps is no source' 0 "$good_list" '' "$hec1" -q good.hc1
holds 'what rt keeps is no source: runs' runs 5
echo '// another' >"$repository/crates/hec1/src/new.rt"
: >"$repository/fault"
"$hec1" good.hc1 >"$scratch/out" 2>"$scratch/err"
holds 'a build that fails: status' test $? = 2
holds 'a build that fails: no listing' test ! -s "$scratch/out"
holds 'a build that fails: the log' grep -q '^what was wrong$' "$scratch/err"
holds 'a build that fails: where the log is' test "$(tail -n 1 "$scratch/err")" = "hec1: hec1 was not proved and built; all of the log is in $log"
rm "$repository/fault"
"$hec1" -q good.hc1 >"$scratch/got" 2>/dev/null
holds 'the next build: status' test $? = 0
holds 'the next build: runs' runs 7
"$hec1" --bundle good.hc1 >"$scratch/got" 2>/dev/null
printf '%b--\n' "$good_list" >"$scratch/expected"
same 'the program for bundles is built too' "$scratch/expected" "$scratch/got"
holds 'the program for bundles: by its name' test "$(tail -n 1 "$RUNS")" = 'bundle: run'
"$hec1" --sheet UP basin.hc1 >"$scratch/got" 2>/dev/null
printf '%b' "$up" >"$scratch/expected"
same 'the program for sheets is built too' "$scratch/expected" "$scratch/got"
holds 'the program for sheets: by its name' test "$(tail -n 1 "$RUNS")" = 'sheet: run'

# warnings want the program for hydrographs; where it is not built there are none of what flows, and the status stays
: >"$repository/fault"
"$hec1" short.hc1 short.hc1 >"$scratch/got" 2>"$scratch/err"
holds 'no program for warnings: status' test $? = 0
printf '%b' "== short.hc1\n${good_list}== short.hc1\n$good_list" >"$scratch/expected"
same 'no program for warnings: listings' "$scratch/expected" "$scratch/got"
holds 'no program for warnings: it is tried once' runs 10
holds 'no program for warnings: no warning' sh -c '! grep -q warning: "$1"' sh "$scratch/err"
rm "$repository/fault"
"$hec1" short.hc1 >"$scratch/got" 2>"$scratch/err"
printf '%b' "$good_list" >"$scratch/expected"
same 'the program for warnings is built too' "$scratch/expected" "$scratch/got"
printf '%b' 'hec1: warnings want one more program; --quiet does without\n' "hec1: proving and building hydrograph, which takes a while (log: ${log%hec1.log}hydrograph.log)\n" \
    "hec1: hydrograph is proved and built (N s)\n$short_words" >"$scratch/expected"
sed 's/([0-9]* s)/(N s)/' "$scratch/err" >"$scratch/got"
same 'the program for warnings: words' "$scratch/expected" "$scratch/got"
holds 'the program for warnings: by its name' test "$(tail -n 1 "$RUNS")" = 'hydrograph: run'
try 'the program for hydrographs' 0 "$out_flow" '' "$hec1" --hydrograph OUT basin.hc1
holds 'the program for hydrographs: no run of rt' runs 11
if command -v flock >/dev/null 2>&1; then
    rm -r "$repository/target"
    for one in 1 2 3; do "$hec1" -q good.hc1 >"$scratch/got$one" 2>/dev/null & done
    wait
    printf '%b' "$good_list" >"$scratch/expected"
    for one in 1 2 3; do same "three first uses at once: $one" "$scratch/expected" "$scratch/got$one"; done
    holds 'three first uses at once: one build' runs 12
    rm -r "$repository/target"
    PAUSE=3 "$hec1" -q good.hc1 >"$scratch/got1" 2>/dev/null &
    while ! runs 13; do sleep 0.1; done
    try 'a second use while the first proves' 0 "$good_list" 'hec1: another start is proving the program; waiting for it\n' "$hec1" -q good.hc1
    wait
fi

# what ./test left in target/bin is taken as it is, unless a source is newer
mkdir "$repository/target/bin"
mv "$repository/target/command/hec1" "$repository/target/bin/"
: >"$RUNS"
try 'a program that the test left' 0 "$good_list" '' "$hec1" -q good.hc1
holds 'a program that the test left: no run of rt' runs 0
touch "$repository/crates/hec1/src/main.rt"
"$hec1" -q good.hc1 >"$scratch/got" 2>/dev/null
printf '%b' "$good_list" >"$scratch/expected"
same 'a program that the test left, and a newer source' "$scratch/expected" "$scratch/got"
holds 'a program that the test left, and a newer source: built again' runs 1

# the programs of the comparison: proved where they are not there, and taken from what rt ci left where they are to be of its run
rm -r "$repository/target"
: >"$RUNS"
sh "$repository/second/programs.sh" >"$scratch/out" 2>&1
holds 'the programs of the comparison: status' test $? = 0
printf '%s\n' 'bundle: run' 'hec1: run' >"$scratch/expected"
same 'the programs of the comparison: runs' "$scratch/expected" "$RUNS"
sh "$repository/second/programs.sh" >"$scratch/out" 2>&1
holds 'the programs of the comparison, again: status' test $? = 0
holds 'the programs of the comparison, again: no run of rt' runs 2
: >"$scratch/stamp"
sh "$repository/second/programs.sh" --of-gate "$scratch/stamp" >"$scratch/out" 2>&1
holds 'programs of the gate, an older one: status' test $? = 2
echo 'programs.sh: rt ci built no program bundle' >"$scratch/expected"
same 'programs of the gate, an older one: words' "$scratch/expected" "$scratch/out"
holds 'programs of the gate, an older one: it is gone' test ! -e "$repository/target/bin/bundle"
sleep 0.1
touch "$repository/crates/bundle/out/bundle" "$repository/crates/hec1/out/hec1"
sh "$repository/second/programs.sh" --of-gate "$scratch/stamp" >"$scratch/out" 2>&1
holds 'programs of the gate: status' test $? = 0
holds 'programs of the gate: no run of rt' runs 2
for one in bundle hec1; do
    same "programs of the gate: $one" "$repository/crates/$one/out/$one" "$repository/target/bin/$one"
    holds "programs of the gate: the time of $one" test -z "$(find "$repository/target/bin/$one" -newer "$scratch/stamp")"
done
: >"$repository/fault"
rm -r "$repository/target"
sh "$repository/second/programs.sh" bundle >"$scratch/out" 2>&1
holds 'a program of the comparison that is not proved: status' test $? = 2
holds 'a program of the comparison that is not proved: words' grep -q '^what was wrong$' "$scratch/out"
holds 'a program of the comparison that is not proved: none' test ! -e "$repository/target/bin/bundle"
rm "$repository/fault"
rm -r "$repository/target"
: >"$repository/target"
try 'a file in the place of target' 2 '' "hec1: cannot write to $repository/target/command\n" "$hec1" good.hc1
rm -r "$repository/target" "$repository/crates/hec1/out"
: >"$repository/hollow"
"$hec1" good.hc1 >"$scratch/out" 2>"$scratch/err"
holds 'a kit that makes no program: status' test $? = 2
holds 'a kit that makes no program: words' test "$(tail -n 1 "$scratch/err")" = 'hec1: cannot put the program hec1 in its place'
rm "$repository/hollow"

# how far a proof is: lines that are half a minute apart, by a clock that goes so fast as is wanted
mkdir "$scratch/clock"
printf '#!/bin/sh\nnow=$(($(cat "%s") + STEP))\necho "$now" | tee "%s"\n' "$scratch/time" "$scratch/time" >"$scratch/clock/date"
chmod +x "$scratch/clock/date"
for step in 16 31; do
    rm -rf "$repository/target"
    echo 1000 >"$scratch/time"
    STEP=$step PATH=$scratch/clock:$PATH "$hec1" -q good.hc1 >/dev/null 2>"$scratch/got"
    {
        echo "hec1: proving and building hec1, which takes a while (log: $log)"
        if [ "$step" = 31 ]; then echo 'hec1: proving hec1: 1 of 3 crates (base)'; fi
        echo 'hec1: proving hec1: 2 of 3 crates (middle)'
        if [ "$step" = 31 ]; then echo 'hec1: proving hec1: 3 of 3 crates (hec1)'; fi
        echo "hec1: hec1 is proved and built ($((4 * step)) s)"
    } >"$scratch/expected"
    same "how far a proof is, by $step seconds" "$scratch/expected" "$scratch/got"
done
# of a crate that is kept rt says nothing: the next is told by its place all the same
: >"$repository/kept"
rm -rf "$repository/target"
echo 1000 >"$scratch/time"
STEP=31 PATH=$scratch/clock:$PATH "$hec1" -q good.hc1 2>&1 >/dev/null | grep crates >"$scratch/got"
printf 'hec1: proving hec1: %s\n' '2 of 3 crates (middle)' '3 of 3 crates (hec1)' >"$scratch/expected"
same 'how far a proof is, where a crate is kept' "$scratch/expected" "$scratch/got"
rm "$repository/kept"
rm -rf "$repository/target"
for program in bundle:4 store:2 sheet:3 hydrograph:3 reason:3; do
    echo 1000 >"$scratch/time"
    STEP=31 PATH=$scratch/clock:$PATH "$hec1" --install "$scratch/here" >/dev/null 2>"$scratch/err"
    holds "how many crates: $program" grep -q "^hec1: proving ${program%:*}: 1 of ${program#*:} crates (base)\$" "$scratch/err"
    rm -rf "$repository/target"
done
# on a terminal it is one line, written anew; what is behind the last CR stands
if script -qec true /dev/null >/dev/null 2>&1 </dev/null; then
    HEC1=$hec1 script -qec '"$HEC1" -q good.hc1' /dev/null </dev/null 2>/dev/null | tr -d '\n' | tr '\r' '\n' | sed 's/ *$//; s/([0-9]* s)/(N s)/' | grep . >"$scratch/got"
    {
        echo "hec1: proving and building hec1, which takes a while (log: $log)"
        echo 'hec1: proving hec1: 1 of 3 crates (base)'
        echo 'hec1: proving hec1: 2 of 3 crates (middle)'
        echo 'hec1: proving hec1: 3 of 3 crates (hec1)'
        echo 'hec1: hec1 is proved and built (N s)'
        printf '%b' "$good_list"
    } >"$scratch/expected"
    same 'how far a proof is, on a terminal' "$scratch/expected" "$scratch/got"
    rm -rf "$repository/target"
fi
# a command that is ended while it proves leaves nothing that runs
if command -v setsid >/dev/null 2>&1; then
    : >"$RUNS"
    PAUSE=60 setsid sh -c 'echo $$ >"$1"; exec "$2" -q good.hc1' sh "$scratch/group" "$hec1" >/dev/null 2>&1 &
    while ! runs 1; do sleep 0.1; done
    kill -s TERM -- "-$(cat "$scratch/group")"
    wait
    sleep 1
    cat /proc/[0-9]*/stat 2>/dev/null | awk -v group="$(cat "$scratch/group")" '{ sub(/.*\) /, "") } $3 == group && $1 != "Z" { print }' >"$scratch/left"
    holds 'a command that is ended leaves nothing that runs' test ! -s "$scratch/left"
    rm -rf "$repository/target"
fi

# installed: by the stand-in, over an older one, and where it cannot be
try 'no folder to install to' 2 '' 'hec1: --install wants a folder\n' "$hec1" --install
for words in '' -x --help; do
    try "to install to '$words'" 2 '' 'hec1: --install wants a folder\n' "$hec1" --install "$words"
done
try 'to install to two folders' 2 '' 'hec1: --install takes a folder and nothing else\n' "$hec1" --install "$scratch/here" "$scratch/there"
rm -rf "$scratch/here" "$scratch/there"
mkdir -p "$scratch/here/lib/evzorkhum" "$scratch/here/bin"
echo 'of an older one' >"$scratch/here/lib/evzorkhum/older"
echo 'of another' >"$scratch/here/lib/other"
ln -s "$hec1" "$scratch/here/bin/hec1"
cp "$hec1" "$scratch/before"
(cd "$scratch" && "$hec1" --install here) >"$scratch/out" 2>"$scratch/err"
holds 'installed by the stand-in: status' test $? = 0
holds 'installed by the stand-in: nothing on standard output' test ! -s "$scratch/out"
holds 'installed by the stand-in: words' test "$(tail -n 1 "$scratch/err")" = "hec1: $(CDPATH="" cd -- "$scratch/here" && pwd -P)/bin/hec1 is installed"
same 'installed by the stand-in: the command in the repository stays' "$scratch/before" "$hec1"
(cd "$scratch/here" && find . -type f | LC_ALL=C sort) >"$scratch/got"
printf './%s\n' bin/hec1 lib/evzorkhum/command/deck.sh lib/evzorkhum/command/network.sh lib/evzorkhum/command/picture.sh lib/evzorkhum/command/plot.sh \
    lib/evzorkhum/command/table.sh lib/evzorkhum/kit lib/evzorkhum/kit.sh lib/evzorkhum/programs/bundle lib/evzorkhum/programs/hec1 lib/evzorkhum/programs/hydrograph \
    lib/evzorkhum/programs/reason lib/evzorkhum/programs/sheet lib/evzorkhum/programs/store lib/other >"$scratch/expected"
same 'installed by the stand-in: its files' "$scratch/expected" "$scratch/got"
try 'installed once more' 0 '' "hec1: $(CDPATH="" cd -- "$scratch/here" && pwd -P)/bin/hec1 is installed\n" "$hec1" --install "$scratch/here"
mkdir "$scratch/to the"
mv "$scratch/here" "$scratch/to the/there"
ln -s "$scratch/to the/there/bin/hec1" "$scratch/hec1-link"
try 'installed, by a link' 1 "$bad_list" "pond.hc1$bad_words" env PATH="$scratch/nothing" "$scratch/hec1-link" pond.hc1
mv "$repository" "$scratch/aside"
repository=$scratch/aside
hec1=$repository/hec1
installed 'installed by the stand-in' "$scratch/to the/there/bin/hec1"
: >"$scratch/file"
try 'installed in the place of a file' 2 '' "hec1: $scratch/file: the folder cannot be made\n" "$hec1" --install "$scratch/file"
mkdir "$scratch/taken"
: >"$scratch/taken/lib"
try 'installed where it cannot be written' 2 '' "hec1: $scratch/taken: cannot be written to\n" "$hec1" --install "$scratch/taken"
mv "$repository/second" "$scratch/second"
"$hec1" good.hc1 >"$scratch/out" 2>&1
holds 'a command without its own files: status' test $? = 2
echo "hec1: $repository/second/kit.sh is missing" >"$scratch/expected"
same 'a command without its own files' "$scratch/expected" "$scratch/out"
mv "$scratch/second" "$repository/second"
mv "$repository/command/table.sh" "$scratch/table.sh"
try 'a command without one of its parts' 2 '' "hec1: $repository/command/table.sh is missing\n" "$hec1" --table good.hc1
mv "$scratch/table.sh" "$repository/command/table.sh"

env PATH="$scratch/nothing" "$hec1" good.hc1 >"$scratch/out" 2>"$scratch/err"
holds 'without the kit: status' test $? = 2
echo 'hec1: the Rattle kit is missing: there is no command rt' >"$scratch/expected"
same 'without the kit' "$scratch/expected" "$scratch/err"
try 'the version without the kit' 0 "hec1: Evzorkhum, document 01 with change requests 1 to $requests\n" '' env PATH="$scratch/nothing" "$hec1" --version
try 'the version with the kit' 0 "hec1: Evzorkhum, document 01 with change requests 1 to $requests\na stand-in for the kit\n" '' "$hec1" --version

echo "$passed passed, $failed failed"
[ "$failed" -eq 0 ]
