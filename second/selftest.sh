#!/usr/bin/env bash
# Self-test of the second program.  Builds it and the fuzz driver with the
# address and undefined-behaviour sanitizers, runs small decks against outcomes
# worked out by hand from document 01 and document 02, CR 1 to CR 7, then the
# fuzz.  The last line counts.
#
# Decks and expected texts are written with printf's escapes (\n, \r, \xHH).
set -u
here=$(CDPATH= cd -- "$(dirname -- "$0")" && pwd)
out=$here/../target/second
prog=$out/hec1-checked
fuzz=$out/fuzz-checked
losses=$out/losses-checked
ratios=$out/ratios-checked
moves=$out/moves-checked
sheets=$out/sheets-checked
hydrographs=$out/hydrographs-checked
reasons_counter=$out/reasons-checked
ponds=$out/ponds-checked
zeros_counter=$out/zeros-checked
tables=$out/tables-checked
decks=$out/decks-checked
mkdir -p "$out"
scratch=$(mktemp -d) || exit 1
trap 'rm -rf "$scratch"' EXIT

build() {
    "${CC:-gcc}" -std=c11 -Wall -Wextra -Wpedantic -Werror -g -O1 \
        -fsanitize=address,undefined -fno-sanitize-recover=all -o "$@" || {
        echo "cannot build"
        exit 1
    }
}
cd "$here" || exit 1
. ./kit.sh || exit 1
# shellcheck disable=SC2086,SC2154
build "$prog" $sources
build "$fuzz" fuzz.c engine.c cards.c records.c pond.c mover.c sheet.c hydrograph.c reason.c
build "$losses" losses.c cards.c records.c pond.c bundle.c
build "$ratios" ratios.c cards.c records.c pond.c bundle.c
build "$ponds" ponds.c cards.c records.c bundle.c
build "$zeros_counter" zeros.c records.c pond.c bundle.c
build "$moves" moves.c mover.c bundle.c
build "$sheets" sheets.c cards.c records.c pond.c bundle.c
build "$hydrographs" hydrographs.c cards.c records.c pond.c bundle.c
build "$reasons_counter" reasons.c records.c bundle.c
build "$tables" tables.c table.c page.c engine.c cards.c records.c pond.c
build "$decks" decks.c decks_net.c decks_ponds.c decks_write.c decks_damage.c decks_damage_ponds.c decks_moves.c decks_sheets.c \
    decks_hydrographs.c decks_zeros.c decks_reasons.c decks_tables.c

# Nothing is looked for that was not freed: each run ends at once, and on some
# machines the search takes seconds a run.
export ASAN_OPTIONS=detect_leaks=0

passed=0
failed=0

# check WHAT EXPECTED GOT: compares two strings byte by byte.
check() {
    if [ "$2" = "$3" ]; then
        passed=$((passed + 1))
    else
        failed=$((failed + 1))
        printf 'FAILED: %s\n  expected: %q\n  got:      %q\n' "$1" "$2" "$3"
    fi
}

# The program's output, its exit status and whether it said something on
# standard error.  The status line also keeps trailing newlines from getting
# lost.
run() {
    "$prog" "$@" 2>"$scratch/err"
    local status=$?
    if [ -s "$scratch/err" ]; then echo "status $status, said"
    else echo "status $status, silent"; fi
}

# lists EXPECTED DECK: the listing of a deck.
lists() {
    local expected got
    printf -v expected '%bstatus 0, silent' "$1"
    got=$(printf '%b' "$2" | run)
    check "$2" "$expected" "$got"
}

# refused NUMBER LINE DECK
refused() { lists "REFUSED $1 $2\n" "$3"; }

# full EXPECTED DECK OPTIONS...: the full form.
full() {
    local expected got deck=$2
    printf -v expected '%bstatus 0, silent' "$1"
    shift 2
    got=$(printf '%b' "$deck" | run --full "$@")
    check "$deck $*" "$expected" "$got"
}

# flows ORDINATES DECK [NAMED [RATIO]]: the ordinates of a block under a ratio,
# the last ones by default.  As many are lent as are expected.
flows() {
    local count got
    count=$(wc -w <<<"$1")
    got=$(printf '%b' "$2" | run --full --ordinates "$count" --named "${3:-0}" \
        --ratio "${4:-0}" | sed -n 2p)
    check "$2 ${3:-} ${4:-}" "$1" "$got"
}

# times COUNT TEXT: the text again and again.
times() {
    local k text=
    for ((k = 0; k < $1; k++)); do text+=$2; done
    printf '%s' "$text"
}

# fixed ID FIELD...: a line in fixed form, values at the right of their fields.
fixed() {
    local id=$1 first=${2-}
    shift $(($# > 1 ? 2 : 1))
    printf '%-2s%6s' "$id" "$first"
    [ $# -eq 0 ] || printf '%8s' "$@"
}

# ---- The deck of document 01 and its listing ---------------------------

pond='ID POND\n*FREE\nIT 60,,,4\nKK UP\nBA 1.50\nPI 0.50,0.30,0.10\nLU 0.50,0.10\nUI 10,4\nKK RIV\nRM 1,1.00,0.20\nKK SIDE\nQI 1,2,2,1\nKK OUT\nHC 2\nZZ\n'
pond_list='UP 1 1.50 2.00 2 168000000\nRIV 4 1.50 1.37 3 154563495\nSIDE 2 0.00 2.00 2 360000000\nOUT 3 1.50 3.37 3 514563495\nEND 4\n'

lists "$pond_list" "$pond"
lists "$pond_list" "${pond%'\n'}"                       # last line without LF
lists "$pond_list" "${pond//'\n'/'\r\n'}"               # CR LF throughout
lists "$pond_list" "${pond//'\n'/'\n\n   \n'}"          # blank lines between
lists "$pond_list" "${pond//'\n'/'   \n'}"              # trailing blanks
lists "$pond_list" "${pond//','/' , '}"                 # blanks beside commas
lists "$pond_list" "${pond}anything at all \x00\xff\r\t"    # behind ZZ
lists "$pond_list" "${pond//'\n'/'\nKM  note, with, commas\n'}"

pond_fixed="$(fixed IT 60 '' '' 4)\nKK    UP\n$(fixed BA 1.50)\n$(fixed PI 0.50 0.30 0.10)\n$(fixed LU 0.50 0.10)\n$(fixed UI 10 4)\nKKRIV\n$(fixed RM 1 1.00 0.20)\nKK SIDE text from column nine\n$(fixed QI 1 2 2 1)\nKK OUT\n$(fixed HC 2)\nZZ\n"
lists "$pond_list" "$pond_fixed"
# *FIX in force again after *FREE, and switches inside a block
lists "$pond_list" "*FREE\n*FIX\n$pond_fixed"
lists "$pond_list" "*FREE\nIT 60,,,4\nKK UP\n*FIX\n$(fixed BA 1.50)\n*FREE\nPI 0.50\n*FIX  \n$(fixed PI 0.30 0.10)\n*FREE   \nLU 0.50,0.10\nUI 10,4\nKK RIV\nRM 1,1.00,0.20\nKK SIDE\nQI 1,2,2,1\nKK OUT\nHC 2\nZZ\n"

# ---- P1 to P10 ----------------------------------------------------------

up='*FREE\nIT 60,,,4\nKK UP\nBA 1.50\nPI 0.50,0.30,0.10\nLU 0.50,0.10\n'
flows '0 120000 0 0' "${up}UI 0.01\nZZ\n"                           # P1
flows '0 120000000 48000000 0' "$pond" 1                            # P2
flows '0 27692307 82082840 44788348' "$pond" 2                      # P3
flows '60000000 120000000 120000000 60000000' "$pond" 3
flows '60000000 147692307 202082840 104788348' "$pond" 4            # P4
flows '60000000 147692307 202082840 104788348' "$pond" 0

qi='*FREE\nIT 60,,,4\nKK A\nQI 1,2,3,4\nKK B\n'                     # 5 lines
refused 12 7 "${qi}RM 1,0.50,0.20\nZZ\n"                            # P5
flows '60000000 60000000 120000000 180000000' "${qi}RM 1,1.00,0.50\nZZ\n" # P6
seven='*FREE\nIT 1,,,4\nKK A\nBA 1\nPI 0.0001,0.0001,0.0001,0.0001\nLU 0,0.0053\nUI 0.01\n'
flows '7 7 7 7' "${seven}ZZ\n"
flows '7 7 7 7' "${seven}KK B\nRM 50,1.00,0.20\nZZ\n"               # P7
flows '420000000 420000000 420000000' '*FREE\nIT 60,,,3\nKK A\nQI 7,7,7\nKK B\nRM 1,1,.2\nZZ\n'
one='A 2 0.00 1.00 1 60000000\nEND 1\n'
lists "$one" '*FREE\nIT 60.,,,4\nKK A\nQI 1\nZZ\n'                  # P8
lists "$one" '*FREE\nIT 60.0,,,4\nKK A\nQI 1\nZZ\n'
refused 6 2 '*FREE\nIT 60.5,,,4\nKK A\nQI 1\nZZ\n'
rain='*FREE\nIT 60,,,4\nKK A\nBA 1\nLU 0,0\nUI 0.01\n'              # 6 lines
flows '600000 0 1200000 0' "${rain}PI 1,,2\nZZ\n"                   # P9
refused 8 7 '*FREE\nIT 60,,,2\nKK A\nBA 1\nLU 0,0\nUI 0.01\nPI 1,,2\nZZ\n'
lists 'A 2 0.00 2.00 2 360000000\nEND 1\n' '*FREE\nIT 60,,,4\nKK A\nQI 1,2,2,1\nZZ\n' # P10
lists 'A 2 0.00 3.00 1 720000000\nEND 1\n' '*FREE\nIT 60,,,4\nKK A\nQI 3,3,3,3\nZZ\n'

# ---- Run, not proved ----------------------------------------------------

free='*FREE\nIT 60,,,4\n'                                           # 2 lines
text78=$(times 78 x)
lists "$one" "${free}KK A\nKM$text78\nQI 1\nZZ\n"
lists "$one" "${free}KK A\nKM$text78\r\nQI 1\nZZ\n"
refused 3 4 "${free}KK A\nKM${text78}x\nQI 1\nZZ\n"
refused 3 4 "${free}KK A\nKM${text78}x\r\nQI 1\nZZ\n"
lists 'A 2 0.00 100000.00 1 6000000000000\nEND 1\n' "${free}KK A\nQI 100000\nZZ\n"
refused 7 4 "${free}KK A\nQI 100000.01\nZZ\n"
inflow='KK A\nQI 1\n'
refused 15 43 "$free$(times 20 "$inflow")ZZ\n"                      # 20 held
refused 11 45 "$free$(times 21 "$inflow")ZZ\n"                      # 21st
refused 11 45 "$free$(times 22 "$inflow")ZZ\n"
refused 10 9 "${free}$(times 2 "$inflow")KK C\nHC 3\nZZ\n"
refused 15 3 'ID\nIT    60                       4\nZZ\n'
refused 15 4 'ID X\n*FREE\nIT 60,,,4\nZZ\n'

# ---- Rooms (1, 17), the named block, and zeros --------------------------
# without a JR; with one they stand among the ratios

small="${free}KK A\nQI 1\nZZ\n"
whole=6400010000000000      # ratio 1.00, the first place, and zeros
part_a=412020202020020000000000008793030000000001000000
part_a+=0087930300000000    # what a record was before it said its ratio
rec_a=$part_a$whole
zeros() { [ "$1" -eq 0 ] || printf '%0*d' $((2 * $1)) 0; }

full "4 1 1\n60000000 0 0 0 0 0\n$rec_a$(zeros 8)\n0\n" "$small" --ordinates 6 --records 48
full "4 1 1\n60000000 0 0 0\n$rec_a\n0\n" "$small" --ordinates 4 --records 40 --named 1
full "4 1 1\n60000000 0 0 0\n$rec_a\n0\n" "$small" --ordinates 4 --records 40 --work 7001
full "4 1 1\n60000000 0 0 0$(times 296 ' 0')\n$rec_a$(zeros 71960)\n0\n" "$small"
full "REFUSED 17 0\n0 0 0\n$(zeros 40)\n0\n" "$small" --ordinates 3 --records 40
full "REFUSED 17 0\n0 0 0 0\n$(zeros 39)\n0\n" "$small" --ordinates 4 --records 39
full "REFUSED 17 0\n0 0 0 0\n$(zeros 32)\n0\n" "$small" --ordinates 4 --records 32     # the old 32 a block
full "REFUSED 17 0\n0 0 0 0\n$(zeros 40)\n0\n" "$small" --ordinates 4 --records 40 --named 2
full "REFUSED 17 0\n0 0 0 0\n$(zeros 80)\n0\n" "$small" --ordinates 4 --records 80 --named 2
full "REFUSED 17 0\n0 0 0 0\n\n0\n" "$small" --ordinates 4 --records 0 --named 4294967295
full "REFUSED 17 0\n\n$(zeros 40)\n0\n" "$small" --ordinates 0 --records 40
full "REFUSED 17 0\n\n\n0\n" "$small" --ordinates 0 --records 0
full "REFUSED 1 0\n0 0 0 0\n$(zeros 40)\n0\n" "$small" --ordinates 4 --records 40 --work 5999
full "REFUSED 1 0\n0\n00\n0\n" "$small" --ordinates 1 --records 1 --work 0
full "REFUSED 1 0\n0\n00\n0\n" '\xff' --ordinates 1 --records 1 --work 5999
full "REFUSED 1 0\n0\n00\n0\n" "$(times 60001 x)" --ordinates 1 --records 1 --work 5999
full "REFUSED 2 0\n0\n00\n0\n" "$(times 60001 x)" --ordinates 1 --records 1 --work 6000
# other refusals come before 17; a named block is never looked at before it
full "REFUSED 16 0\n\n\n0\n" "${free}KK A\nQI 1\n" --ordinates 0 --records 0 --named 9
full "REFUSED 15 3\n\n\n0\n" "${free}ZZ\n" --ordinates 0 --records 0 --named 9
full "REFUSED 4 6\n0 0 0 0\n$(zeros 40)\n0\n" "${free}KK A\nQI 1\nKK B\nXX\n" --ordinates 4 --records 40 --named 1
full "REFUSED 9 6\n0 0 0 0 0\n$(zeros 41)\n0\n" "${free}KK A\nQI 1\nKK B\nZZ\n" --ordinates 5 --records 41 --named 1
full "REFUSED 13 10\n0 0 0 0 0\n$(zeros 86)\n0\n" "${free}KK A\nQI 1\nKK B\nBA 1\nPI 20\nLU\nUI 99999\nZZ\n" --ordinates 5 --records 86 --named 1
# the records of the paper's deck, in full; the third byte group is the area
rec_up=55502020202001009600000000 rec_up=${rec_up}0e27070000000002000000007a030a00000000$whole
rec_riv=524956202020040096000000187ce4040000000003000000a773360900000000$whole
rec_side=534944452020020000000000000e27070000000002000000002a751500000000$whole
rec_out=4f5554202020030096000000188a0b0c0000000003000000a79dab1e00000000$whole
full "4 4 1\n60000000 147692307 202082840 104788348\n$rec_up$rec_riv$rec_side$rec_out\n0\n" "$pond" --ordinates 4 --records 160
full "4 4 1\n0 27692307 82082840 44788348 0\n$rec_up$rec_riv$rec_side$rec_out$(zeros 3)\n0\n" "$pond" --ordinates 5 --records 163 --named 2
full "REFUSED 17 0\n0 0 0 0\n$(zeros 159)\n0\n" "$pond" --ordinates 4 --records 159 --named 2
full "REFUSED 17 0\n0 0 0 0\n$(zeros 128)\n0\n" "$pond" --ordinates 4 --records 128
full "REFUSED 17 0\n0 0 0 0\n$(zeros 160)\n0\n" "$pond" --ordinates 4 --records 160 --named 5
# without --full the rooms are enough whatever the options say
check 'listing with room options' "$(printf '%bstatus 0, silent' "$one")" \
    "$(printf '%b' "$small" | run --ordinates 0 --records 0 --work 0 --named 7)"

# ---- 2: length ----------------------------------------------------------

small_length=$(printf '%b' "$small" | wc -c)
pad() { times $(($1 - small_length)) x; }
lists "$one" "$small$(pad 60000)"
refused 2 0 "$small$(pad 60001)"
refused 2 0 "$(times 60001 '\n')"
refused 16 0 "$(times 60000 '\n')"
refused 2 0 "\xff$(times 60000 x)"
refused 2 0 "$(times 300000 x)"
refused 3 1 "$(times 60000 x)"

# ---- 3: bytes and lines -------------------------------------------------

for byte in '\x00' '\x01' '\x1f' '\x7f' '\x80' '\xff' '\t' '\r' '\x0b'; do
    refused 3 2 "*FREE\nKM a${byte}b\nIT 60,,,4\nKK A\nQI 1\nZZ\n"
    refused 3 2 "*FREE\nKM ab${byte}\x20\nIT 60,,,4\nKK A\nQI 1\nZZ\n"
done
lists "$one" "*FREE\nKM \x20\x21\x7e\nIT 60,,,4\nKK A\nQI 1\nZZ\n"
refused 3 1 'ID\t\n'
refused 3 5 "${free}KK A\nQI 1\nZZ\x80\n"
refused 3 5 "${free}KK A\nQI 1\nZZ\r"               # CR without LF at the end
lists "$one" "${free}KK A\nQI 1\nZZ\r\n"
lists "$one" "${free}KK A\nQI 1\nZZ"
refused 3 1 '\r'
refused 3 1 '\r\r\n'
refused 3 2 '\r\n\r\r\n'
refused 16 0 '\r\n'
refused 3 3 "${free}KK A\r\r\nQI 1\nZZ\n"
refused 3 1 "\r${free}KK A\nQI 1\nZZ\n"
refused 3 3 "$free \t \n${inflow}ZZ\n"              # a blank line must pass too
refused 3 3 "$free$(times 81 ' ')\n${inflow}ZZ\n"
lists "$one" "$free$(times 80 ' ')\n${inflow}ZZ\n"
lists "$one" "$free$(times 80 ' ')\r\n${inflow}ZZ\n"
refused 3 1 "$(times 81 ' ')"
refused 16 0 "$(times 80 ' ')"
refused 3 1 "ZZ$(times 79 ' ')\n"
refused 3 5 "$free${inflow}ZZ$(times 79 ' ')"
lists "$one" "$free${inflow}ZZ$(times 78 ' ')"
refused 3 1 'XX\t\n'                                # 3 before 4
refused 3 1 'ZZ\xff\n'                              # 3 before 5
refused 3 3 "${free}KK TOOLONGNAME\x80\n"           # 3 before 6
refused 3 4 "${free}KK A\nQI 100000.01\t\n"         # 3 before 7
refused 3 4 "${free}KK A\nQI 1 1 1 1 1 \x80\n"      # 3 before 8
refused 3 4 "${free}KK A\nZZ\x80\n"                 # 3 before 9

# ---- 4: identifiers and controls ---------------------------------------

for line in XX kk Kk K ' K' ' KK' '  KK A' 1 '*' '*F' '*FR' '*FREEX' '*FREE X' \
    '*FREE,' '*FREE.' '*FIXED' '*FIX 1' '*FIXX' '* FREE' '*free' '*FI' 'Z' \
    ',' '* ' '**' 'BI 1' 'PR 1' 'pb 1' 'P' 'IN 1' 'LS' 'IO' 'Z Z' '*FRE E' '*FRE'; do
    refused 4 2 "ID\n$line\n"
    refused 4 3 "$free$line\n"
done
refused 4 5 "${free}KK A\nQI 1\nzz\n"
refused 4 5 "${free}KK A\nQI 1\nZ"
lists "$one" "${free}*FIX\n*FREE     \n*FREE\n${inflow}ZZ\n"
refused 4 1 '*FREE x\n*FREE\n'
refused 4 4 "${free}KK A\nXX\nKK B\n"               # 4 before the block's 9
refused 4 3 '\n \nX\n'                              # blank lines are counted
refused 4 3 '\r\n \r\nX\r\n'

# ---- 5: place -----------------------------------------------------------

refused 5 3 "${free}ID\n"
refused 5 4 "${free}KK A\nID\n"
refused 5 3 "${free}IT 60,,,4\n"
refused 5 4 "${free}KK A\nIT 60,,,4\n"
refused 5 3 "${free}IT x\n"                         # 5 before 6
refused 5 1 'KK A\n'
refused 5 1 'KK\n'
refused 5 1 'ZZ\n'
refused 5 1 'ZZ'
refused 5 2 'ID\nZZ\n'
for line in BA PB PI LU UI QI HC RM; do     # JR has a part of its own
    refused 5 1 "$line\n"
    refused 5 3 "$free$line\n"
    refused 5 3 "$free$line x\n"
done
refused 5 5 "${free}KK A\nBA 1\nBA 1\n"
refused 5 5 "${free}KK A\nLU\nLU\n"
refused 5 5 "${free}KK A\nHC 2\nHC 2\n"
refused 5 5 "${free}KK A\nRM 1,1,.2\nRM 1,1,.2\n"
refused 5 6 "${free}KK A\nBA 1\nQI 1\nBA x\n"
refused 5 7 "${free}KK A\nBA 1\nKM\n*FREE\nBA 0\n"
refused 9 6 "${free}KK A\nHC 2\nRM 1,1,.2\nZZ\n"    # not a second one: 9
lists 'A 2 1.00 1.00 1 60000000\nB 2 2.00 1.00 1 60000000\nC 3 3.00 2.00 1 120000000\nEND 3\n' \
    "${free}KK A\nBA 1\nQI 1\nKK B\nBA 2\nQI 1\nKK C\nHC 2\nZZ\n"
lists "$one" "ID\nKM\nID a\nKM\n*FREE\nID b,c,d,e,f,g,h,i,j,k,l,m,n\nIT 60,,,4\nKM\n${inflow}KM\nZZ\n"
lists "$one" "$free${inflow}ZZ\nXX\nZZ\nID\n"
refused 6 1 'IT x\nIT\n'                            # the first stays the first

# ---- 6: fields ----------------------------------------------------------

area="${free}KK A\nQI 1\n"                          # 4 lines; BA comes fifth
for value in . + - +. -. 1.2.3 ++1 +-1 1- 1+ 1e3 x 1x x1 1.234 0.001 .001 \
    0000000001 0000000.001 00000001.50 '1 2' '1,2' '1,0' '1,,0' ',1' '1,,,,,,,,,0' \
    '1,,,,,,,,,,0' '1;' '1/2' '#' '"1"' '1..' '..1' '1.-' '.+1' 9999999999; do
    refused 6 5 "${area}BA $value\nZZ\n"
done
ba() { printf 'A 2 %s 1.00 1 60000000\\nEND 1\\n' "$1"; }
lists "$(ba 1.00)" "${area}BA 1\nZZ\n"
lists "$(ba 1.00)" "${area}BA1\nZZ\n"
lists "$(ba 1.00)" "${area}BA    1   \nZZ\n"
lists "$(ba 1.00)" "${area}BA 1,\nZZ\n"
lists "$(ba 1.00)" "${area}BA 1 ,\nZZ\n"
lists "$(ba 1.00)" "${area}BA 1,,,,,,,,,,,,,,,,,,\nZZ\n"
lists "$(ba 1.00)" "${area}BA 1, , , ,\nZZ\n"
lists "$(ba 1.00)" "${area}BA 1.\nZZ\n"
lists "$(ba 1.00)" "${area}BA +1.0\nZZ\n"
lists "$(ba 1.00)" "${area}BA 000000001\nZZ\n"
lists "$(ba 1.50)" "${area}BA 0000001.50\nZZ\n"
lists "$(ba 1.50)" "${area}BA +0000001.50\nZZ\n"
lists "$(ba 0.50)" "${area}BA .5\nZZ\n"
lists "$(ba 0.05)" "${area}BA +.05\nZZ\n"
refused 6 2 '*FREE\nIT 60,,,4,1\n'
refused 6 2 '*FREE\nIT 60,,,4,0\n'
refused 6 2 '*FREE\nIT 60,,,4,,,,,,0\n'
refused 6 2 '*FREE\nIT 60,,,4,,,,,,,0\n'
refused 6 2 '*FREE\nIT 60,,,4.5\n'
refused 6 2 '*FREE\nIT 0,,,x\n'
refused 6 2 '*FREE\nIT x,,,0\n'
refused 6 2 '*FREE\nIT 0,,,301,x\n'                 # 6 before 7
lists "$one" '*FREE\nIT 60,12JAN,9.9.9,4\nKK A\nQI 1\nZZ\n'
lists "$one" '*FREE\nIT 60 -- %% 4 ,,,,,,,,,,\nKK A\nQI 1\nZZ\n'
lists "$one" 'IT    60 1 JAN x  , ,,       4\n*FREE\nKK A\nQI 1\nZZ\n'
refused 6 1 'IT  6 0                       4\n'
refused 6 1 'IT    60                       4       0\n'
refused 6 1 "$(fixed IT 60 '' '' 4 '' '' '' '' '' 0)\n"
refused 6 4 "${free}KK A\nLU 0,0,0,0\n"
refused 6 4 "${free}KK A\nLU 0,0,,0\n"
refused 6 4 "${free}KK A\nLU 0.00001\n"
refused 6 4 "${free}KK A\nLU 0,0.00001\n"
refused 6 4 "${free}KK A\nLU 0,0,0.001\n"
refused 6 4 "${free}KK A\nLU 21,21,1,x\n"
refused 6 4 "${free}KK A\nHC 2.5\n"
refused 6 4 "${free}KK A\nHC 2,2\n"
refused 6 4 "${free}KK A\nHC 9 9\n"
refused 6 4 "${free}KK A\nRM 1.5,1,0\n"
refused 6 4 "${free}KK A\nRM 1,1.001,0\n"
refused 6 4 "${free}KK A\nRM 1,1,0.001\n"
refused 6 4 "${free}KK A\nRM 1,1,0,0\n"
refused 6 4 "${free}KK A\nRM 0,0,9,z\n"
refused 6 4 "${free}KK A\nPI 0.00001\n"
refused 6 4 "${free}KK A\nUI 0.001\n"
refused 6 4 "${free}KK A\nQI 0.001\n"
refused 6 4 "${free}KK A\nQI 1,2,3,x\n"
refused 6 4 "${free}KK A\nQI 1 2 3 4 5 6 7 8 9 10 11\n"
refused 6 4 "${free}KK A\nQI ,,,,,,,,,,1\n"         # an eleventh field
refused 8 4 "${free}KK A\nQI ,,,,,,,,,1\n"          # ten, and ten values
lists "$(printf 'A 2 0.00 0.00 1 0\\nEND 1\\n')" "${free}KK A\nQI ,,,,,,,,,,,,,,,,,,,,\nZZ\n"
refused 6 4 "${free}KK A\nQI 100001,x,1,1,1,1\n"    # 6 before 7 and 8
refused 7 4 "${free}KK A\nQI 1,1,1,1,1,100001\n"    # 7 before 8
refused 8 4 "${free}KK A\nQI 1,1,1,1,1,1\n"
refused 6 5 "${free}KK A\nQI 1,1,1,1\nQI x\n"
refused 7 5 "${free}KK A\nQI 1,1,1,1\nQI -1\n"
refused 8 5 "${free}KK A\nQI 1,1,1,1\nQI 1\n"
lists 'A 2 0.00 1.00 1 240000000\nEND 1\n' "${free}KK A\nQI 1,1,1,1\nQI\nQI ,,\nZZ\n"
# fixed form: a comma, a blank inside, a value across two fields
fix='IT    60                       4\nKKA\n'       # 2 lines
refused 6 3 "${fix}QI   1,2\n"
refused 6 3 "${fix}QI   1 2\n"
flows '60000000 120000000 0 0' "${fix}QI     12\nZZ\n"
flows '60000000 0 120000000 0' "$fix$(fixed QI 1 '' 2)\nZZ\n"
flows '0 0 0 60000000' "$fix$(fixed QI '' '' '' 1)\nZZ\n"
flows '60000000 0 0 0' "${fix}QI1\nZZ\n"
flows '60000000 0 0 0' "${fix}QI1     \nZZ\n"
flows '60000000 120000000 0 0' "${fix}QI 1    2\nZZ\n"
flows '0 60000000 0 0' "${fix}QI$(times 6 ' ')1\nZZ\n"
flows '0 60000000 0 0' "${fix}QI$(times 13 ' ')1\nZZ\n"
flows '0 0 60000000 0' "${fix}QI$(times 14 ' ')1\nZZ\n"
refused 8 3 "$fix$(fixed QI 1 1 1 1 1)\nZZ\n"
refused 8 3 "${fix}QI$(times 77 ' ')1\nZZ\n"        # column 80 is field 10
ten='IT    60                      10\nKKA\n'
flows '0 0 0 0 0 0 0 0 0 60000000' "${ten}QI$(times 77 ' ')1\nZZ\n"
flows '0 0 0 0 0 0 0 0 0 60000000' "${ten}QI$(times 70 ' ')1\nZZ\n"
flows '0 0 0 0 0 0 0 0 60000000 0' "${ten}QI$(times 69 ' ')1\nZZ\n"
flows "$(times 9 '60000000 ')60000000" "$ten$(fixed QI 1 1 1 1 1 1 1 1 1 1)\nZZ\n"
refused 9 3 "${fix}ZZ\n"
lists 'A 2 1234.50 1.00 1 60000000\nEND 1\n' "${fix}BA1234.5\nQI 1\nZZ\n"
refused 6 3 "${fix}BA1234.56\nQI 1\nZZ\n"           # the 6 stands in field 2
# free form: separators
flows '60000000 120000000 180000000 0' "${free}KK A\nQI 1 2   3\nZZ\n"
flows '60000000 120000000 180000000 0' "${free}KK A\nQI 1, 2 ,3\nZZ\n"
flows '60000000 120000000 180000000 0' "${free}KK A\nQI1,2 3  \nZZ\n"
flows '60000000 0 180000000 0' "${free}KK A\nQI 1,,3\nZZ\n"
flows '60000000 0 180000000 0' "${free}KK A\nQI 1 ,, 3\nZZ\n"
flows '60000000 0 180000000 0' "${free}KK A\nQI 1, ,3,\nZZ\n"
flows '60000000 0 180000000 0' "${free}KK A\nQI 1 , , 3 , ,\nZZ\n"
flows '0 60000000 0 0' "${free}KK A\nQI ,1\nZZ\n"
flows '0 60000000 0 0' "${free}KK A\nQI   , 1\nZZ\n"
flows '0 60000000 0 0' "${free}KK A\nQI,1,,\nZZ\n"
flows '0 0 60000000 0' "${free}KK A\nQI ,,1\nZZ\n"

# names
named() { lists "$1 2 0.00 1.00 1 60000000\nEND 1\n" "$2"; }
fixq='IT    60                       4\n'           # 1 line
named ABCDEF "${fixq}KKABCDEF\nQI 1\nZZ\n"
named ABCDEF "${fixq}KKABCDEFGHIJ\nQI 1\nZZ\n"      # column 9 on is text
named ABCDE "${fixq}KK ABCDEFGHIJ\nQI 1\nZZ\n"
named F "${fixq}KK     FG\nQI 1\nZZ\n"
named A,B "${fixq}KK A,B\nQI 1\nZZ\n"
named , "${fixq}KK ,\nQI 1\nZZ\n"
named A "${fixq}KKA       text, and, more, of, it, a, b, c, d, e, f, g\nQI 1\nZZ\n"
named '~!@#$^' "${fixq}KK~!@#\$^\nQI 1\nZZ\n"
refused 6 2 "${fixq}KK\nQI 1\nZZ\n"
refused 6 2 "${fixq}KK      \nQI 1\nZZ\n"
refused 6 2 "${fixq}KK      A\nQI 1\nZZ\n"          # column 9 is no name
refused 6 2 "${fixq}KK A B\nQI 1\nZZ\n"
refused 6 2 "${fixq}KK UP THE RIVER\nQI 1\nZZ\n"
named A "${free}KK A\nQI 1\nZZ\n"
named A "${free}KKA\nQI 1\nZZ\n"
named A "${free}KK     A B C D E F G H I J K L M\nQI 1\nZZ\n"
named A "${free}KK A,B\nQI 1\nZZ\n"
named A "${free}KK A,,,,,,,,,,,,,,,x\nQI 1\nZZ\n"
named A "${free}KK A , B\nQI 1\nZZ\n"
named ABCDEF "${free}KK ABCDEF,G\nQI 1\nZZ\n"
named ABCDEF "${free}KK          ABCDEF G\nQI 1\nZZ\n"
refused 6 3 "${free}KK ABCDEFG\nQI 1\nZZ\n"
refused 6 3 "${free}KKABCDEFG\nQI 1\nZZ\n"
refused 6 3 "${free}KK\nQI 1\nZZ\n"
refused 6 3 "${free}KK     \nQI 1\nZZ\n"
refused 6 3 "${free}KK ,A\nQI 1\nZZ\n"
refused 6 3 "${free}KK,\nQI 1\nZZ\n"
lists 'A 2 0.00 1.00 1 60000000\nA 2 0.00 1.00 1 60000000\nA 3 0.00 2.00 1 120000000\nEND 3\n' \
    "$free$inflow${inflow}KK A\nHC 2\nZZ\n"         # equal names are allowed

# text records take any printable text in both forms
named A "ID,,,\nID a b c d e f g h i j k l m n o p\nIDPOND\n${free}KM,x,,,,,,,,,,,,,,,,y\nKMx\n${inflow}ZZTOP 1,2,3,4,5,6,7,8,9,10,11,12\n"

# ---- 7: limits from both sides ------------------------------------------

it() { printf '*FREE\\nIT %s\\nKK A\\nQI 1\\nZZ\\n' "$1"; }
for value in 1 1440 +60 1440. 000000001; do lists "$one" "$(it "$value,,,4")"; done
for value in 0 1441 -1 '' -0 999999999 -60; do refused 7 2 "$(it "$value,,,4")"; done
for value in 1 300 +4 4. 000000300; do lists "$one" "$(it "60,,,$value")"; done
for value in 0 301 -4 '' 999999999; do refused 7 2 "$(it "60,,,$value")"; done
refused 7 2 '*FREE\nIT\n'
refused 7 1 'IT\n'
refused 7 1 'IT    60\n'
refused 7 2 '*FREE\nIT ,,,\n'
lists "$(ba 0.01)" "${area}BA 0.01\nZZ\n"
lists "$(ba 9999.99)" "${area}BA 9999.99\nZZ\n"
for value in 0 -0 0.00 '' 10000 10000.00 -0.01 -1 999999999 ',' ',,'; do
    refused 7 5 "${area}BA $value\nZZ\n"
done
unit="${free}KK A\nBA 1\nLU 0,0\nUI 0.01\n"         # 6 lines
flows '12000000 0 0 0' "${unit}PI 20\nZZ\n"
flows '12000000 60 0 0' "${unit}PI 20.0000,.0001\nZZ\n"
flows '0 0 0 0' "${unit}PI -0,-0.0000,+0,0.\nZZ\n"
for value in 20.0001 -0.0001 21 -1 99999.9999 999999999; do
    refused 7 7 "${unit}PI $value\nZZ\n"
done
refused 7 7 "${unit}PI 1,2,3,20.0001\nZZ\n"
wet="${free}KK A\nBA 1\nPI 20\nUI 0.01\n"           # 6 lines
flows '0 0 0 0' "${wet}LU 20,0\nZZ\n"
flows '0 0 0 0' "${wet}LU 0,20\nZZ\n"
flows '0 0 0 0' "${wet}LU 20.0000,20.0000,0.00\nZZ\n"
flows '60 0 0 0' "${wet}LU 19.9999,0\nZZ\n"
flows '60 0 0 0' "${wet}LU 0,19.9999\nZZ\n"
flows '12000000 0 0 0' "${wet}LU\nZZ\n"             # blank fields are 0
flows '12000000 0 0 0' "${wet}LU ,,-0\nZZ\n"
flows '11994000 0 0 0' "${wet}LU ,0.01,0.\nZZ\n"
for value in 20.0001 -0.0001 0,20.0001 0,-0.0001 0,0,0.01 0,0,-0.01 0,0,1 ,,5; do
    refused 7 7 "${wet}LU $value\nZZ\n"
done
graph="${free}KK A\nBA 1\nLU 0,0\nPI 0.0001\n"      # 6 lines; excess 60
flows '599999940 60 0 0' "${graph}UI 99999.99,0.01\nZZ\n"
flows '0 60 0 0' "${graph}UI -0,0.01\nZZ\n"
for value in 100000 100000.00 -0.01 1,-1 999999999; do
    refused 7 7 "${graph}UI $value\nZZ\n"
done
for value in 100000.01 -0.01 1,-1 999999999 9999999.99; do
    refused 7 4 "${free}KK A\nQI $value\nZZ\n"
done
flows '0 6000000000000 600000 0' "${free}KK A\nQI -0.00,100000.00,0.01\nZZ\n"
two="$free$inflow$inflow"                           # 6 lines
for value in 0 1 6 -2 '' ,, -0 999999999; do refused 7 8 "${two}KK C\nHC $value\nZZ\n"; done
flows '120000000 0 0 0' "${two}KK C\nHC 2\nZZ\n"
flows '120000000 0 0 0' "${two}KK C\nHC +2.,,\nZZ\n"
five="$free$(times 5 "$inflow")"                    # 12 lines
flows '300000000 0 0 0' "${five}KK C\nHC 5\nZZ\n"
for value in 0,1,.2 51,1,.2 -1,1,.2 ,1,.2 1,0,.2 1,,.2 1,24.01,0 1,-1,0 \
    1,1,0.51 1,1,-0.01 1,1,1 '' 1 999999999,1,0 1,9999999.99,0; do
    refused 7 6 "${qi}RM $value\nZZ\n"
done
# the ends of N, K and X, each with the others chosen to meet 12's demands
minute='*FREE\nIT 1,,,4\nKK A\nQI 7,7,7,7\nKK B\n'  # 5 lines
steady='420000000 420000000 420000000 420000000'
flows "$steady" "${minute}RM 1,0.01,0\nZZ\n"        # A 250, B 0, C 300
flows "$steady" "${minute}RM 1,0.01,0.16\nZZ\n"     # A 250, B 48, C 252
refused 12 7 "${minute}RM 1,0.01,0.17\nZZ\n"        # C 249
flows "$steady" "${minute}RM 50,24,0\nZZ\n"         # A 12,500, C 720,000
flows "$steady" "${minute}RM 50,24.00,-0\nZZ\n"
flows "$steady" "${minute}RM 50,24.00\nZZ\n"        # X blank is 0
flows "$steady" "${minute}RM 50,24.00,0.01\nZZ\n"   # B 7,200

# ---- 8: counts ----------------------------------------------------------

ones() { local t; t=$(times "$1" ',1'); printf '%s' "${t#,}"; }
refused 8 4 "${free}KK A\nPI 1,1,1,1,1\nZZ\n"
refused 8 5 "${free}KK A\nPI 1,1,1\nPI 1,1\nZZ\n"
refused 8 8 "${free}KK A\nPI 1,1,1\nKM\nPI 1\nPI\nPI 0\n"
refused 8 8 "${free}KK A\nPI 1,1,1\nBA 1\nPI 1\nPI\nPI ,0\n"
ui150=$(times 15 "UI $(ones 10)\n")
flows '60 60 60 60' "${free}KK A\nBA 1\nPI 0.0001\nLU\n${ui150//1/0.01}ZZ\n"
refused 8 22 "${free}KK A\nBA 1\nPI 0.0001\nLU\n${ui150}UI 1\nZZ\n"
refused 8 22 "${free}KK A\nBA 1\nPI 0.0001\nLU\n${ui150}UI 0\nZZ\n"
refused 9 23 "${free}KK A\nBA 1\nPI 1\nQI 1\n${ui150}UI ,,\nZZ\n"
qi300=$(times 30 'QI 1e5,1e5,1e5,1e5,1e5,1e5,1e5,1e5,1e5,1e5\n')
lists 'A 2 0.00 100000.00 1 1800000000000000\nEND 1\n' \
    "*FREE\nIT 60,,,300\nKK A\n${qi300//1e5/100000}ZZ\n"
refused 8 34 "*FREE\nIT 60,,,300\nKK A\n${qi300//1e5/100000}QI 1\nZZ\n"
refused 8 33 "*FREE\nIT 60,,,299\nKK A\n${qi300//1e5/1}ZZ\n"
pi300=${qi300//QI/PI}
lists 'A 1 1.00 0.00 1 0\nEND 1\n' "*FREE\nIT 60,,,300\nKK A\nBA 1\nLU\nUI\n${pi300//1e5/20}ZZ\n"
refused 8 37 "*FREE\nIT 60,,,300\nKK A\nBA 1\nLU\nUI\n${pi300//1e5/20}PI 1\nZZ\n"
# counts begin anew in each block
flows '120000000 120000000 120000000 120000000' "${free}KK A\nQI 1,1,1,1\nKK B\nQI 1,1,1\nQI 1\nKK C\nHC 2\nZZ\n"
# a value of a list does not outlive its block
flows '60000000 60000000 60000000 60000000' "${free}KK A\nQI 1,1,1,1\nKK B\nQI\nKK C\nHC 2\nZZ\n"
flows '0 0 0 0' "${free}KK A\nQI 1,1,1,1\nKK B\nQI\nKK C\nHC 2\nZZ\n" 2
# PI and QI count apart, and lists may be broken by other records
refused 9 8 "${free}KK A\nPI 1,1,1,1\nQI 1,1,1,1\nUI $(ones 10)\nKM\nZZ\n"
flows '600000 0 1200000 600000' "${free}KK A\nPI 1\nBA 1\nPI ,2\nKM\nLU\n*FIX\n$(fixed PI 1)\n*FREE\nPI\nUI .01\nZZ\n"

# ---- 9: sets ------------------------------------------------------------

cards=('BA 1\n' 'PI 1\n' 'LU\n' 'UI .01\n' 'QI 1\n' 'HC 2\n' 'RM 1,1,.2\n' 'PB 1\n')
# every choice of records, behind two held hydrographs: 6 + 1 lines, then ZZ
for ((set = 0; set < 256; set++)); do
    body= count=0
    for ((k = 0; k < 8; k++)); do
        if ((set >> k & 1)); then body+=${cards[k]} count=$((count + 1)); fi
    done
    case $set in
    15) # BA PI LU UI
        refused 15 12 "${two}KK C\n${body}ZZ\n" ;;
    143) # BA PI LU UI PB
        refused 15 13 "${two}KK C\n${body}ZZ\n" ;;
    16) # QI
        refused 15 9 "${two}KK C\n${body}ZZ\n" ;;
    17) # QI BA
        refused 15 10 "${two}KK C\n${body}ZZ\n" ;;
    32) # HC
        lists 'A 2 0.00 1.00 1 60000000\nA 2 0.00 1.00 1 60000000\nC 3 0.00 2.00 1 120000000\nEND 3\n' "${two}KK C\n${body}ZZ\n" ;;
    64) # RM
        refused 15 9 "${two}KK C\n${body}ZZ\n" ;;
    *)
        refused 9 $((8 + count)) "${two}KK C\n${body}ZZ\n" ;;
    esac
done
refused 9 4 "${free}KK A\nKK B\n"
refused 9 5 "${free}KK A\nKM\nKK B\n"
refused 9 7 "${free}KK A\nBA 1\nPI 1\nLU\nKK B\n"
lists 'A 1 1.00 0.00 1 0\nEND 1\n' "${free}KK A\nUI\nLU\nPI\nBA 1\nZZ\n"
lists 'A 2 0.00 0.00 1 0\nEND 1\n' "${free}KK A\nQI\nZZ\n"
lists 'A 2 0.00 0.00 1 0\nEND 1\n' "${free}KK A\nQI ,,,\nZZ\n"
refused 6 4 "${free}KK A\nKK TOOLONG\n"             # the line's 6 before the block's 9
refused 9 4 "${free}KK A\nKK B\nXX\n"
refused 9 4 "${free}KK A\nZZ\n"                     # 9 before 15
refused 9 6 "${free}KK A\nHC 2\nQI 1\nZZ\n"         # 9 before 10

# ---- 10, 11 --------------------------------------------------------------

refused 10 5 "${free}KK A\nRM 1,1,.2\nZZ\n"
refused 10 5 "${free}KK A\nRM 1,1,.2\nKK B\n"
refused 10 6 "${free}KK A\nHC 2\nKM\nKK B\n"
refused 10 7 "${free}${inflow}KK B\nHC 2\nZZ\n"
refused 10 9 "${two}KK B\nHC 5\nZZ\n"
refused 10 5 "${free}KK A\nRM 1,.5,.2\nZZ\n"        # 10 before 12
refused 6 5 "${free}KK A\nRM 1,1,.2\nKK ,\n"        # the line's 6 before 10
refused 10 11 "${two}KK C\nHC 2\nKK D\nHC 2\nZZ\n"  # one is left after a sum
twenty=$(times 20 "$inflow")
fives=$(times 4 'KK F\nHC 5\n')
flows '1200000000 0 0 0' "$free$twenty${fives}KK F\nHC 4\nZZ\n"
refused 11 45 "$free${twenty}KK B\nQI 1\nKK C\nHC 5\nZZ\n"
refused 11 48 "$free${twenty}KK B\nBA 1\nPI 20\nLU\nUI 99999\nZZ\n"   # 11 before 13
# HC and RM with twenty held add none: 42 lines, HC 2, ZZ with 19 held
refused 15 45 "$free${twenty}KK B\nHC 2\nZZ\n"
refused 15 45 "$free${twenty}KK B\nRM 1,1,.2\nZZ\n"
refused 11 49 "$free${twenty}KK B\nHC 2\n$inflow${inflow}ZZ\n"
refused 15 47 "$free${twenty}KK B\nHC 2\n${inflow}ZZ\n"

# ---- 12, routing --------------------------------------------------------

refused 12 7 "${qi}RM 1,1.01,0.50\nZZ\n"            # B 15,150 over A 15,000
refused 12 7 "${qi}RM 1,0.49,0\nKK C\n"             # C 14,700 under A
refused 6 7 "${qi}RM 1,0.49,0\nKK ,\n"              # the line's 6 before 12
refused 12 7 "${qi}RM 50,24,0\nZZ\n"                # A 750,000 over C 720,000
refused 12 7 "${qi}RM 49,24,0\nZZ\n"                # A 735,000
refused 12 7 "${qi}RM 48,24,0.01\nZZ\n"             # A 720,000, C 712,800
flows '120000000 180000000 120000000 0' '*FREE\nIT 60,,,4\nKK A\nQI 2,4\nKK B\nRM 1,0.50,0\nZZ\n'
# remainders kept: 60 46 10 3, worked with D 39,000
drop='BA 1\nPI 0.0001\nLU 0,0\nUI 0.01\n'
flows '60 46 10 3' "${free}KK A\n${drop}KK B\nRM 1,1,0.2\nZZ\n"
flows '60 56 40 16' "*FREE\nIT 30,,,4\nKK A\n${drop}KK B\nRM 2,1,0.2\nZZ\n"
flows '60 56 40 16' "${free}KK A\n${drop}KK B\nRM 1,1,0.2\nKK C\nRM 1,1,0.2\nZZ\n"
flows '60000000 60000000 60000000 120000000' "${qi}RM 2,2.00,0.50\nZZ\n"   # lag of two
flows '60000000' '*FREE\nIT 60,,,1\nKK A\nQI 1\nKK B\nRM 1,1,.2\nZZ\n'
# the largest numerators: A = C = 720,000, all flows at the limit
top=6000000000000
flows "$top $top $top $top" '*FREE\nIT 1440,,,4\nKK A\nQI 100000,100000,100000,100000\nKK B\nRM 2,24,0\nZZ\n'
# two steps of plain averaging: 1 0 0 0 becomes 1 1/2 0 0, then 1 3/4 1/4 0
flows "$top 4500000000000 1500000000000 0" '*FREE\nIT 1440,,,4\nKK A\nQI 100000\nKK B\nRM 2,24,0\nZZ\n'

# ---- 13 -----------------------------------------------------------------

flows '6000000000000 0 0 0' "${free}KK A\nBA 1\nPI 2\nLU\nUI 50000\nZZ\n"
refused 13 8 "${free}KK A\nBA 1\nPI 2\nLU\nUI 50000.01\nZZ\n"
refused 13 8 "${free}KK A\nBA 1\nPI 2,0.0001\nLU\nUI 50000,50000\nZZ\n"
refused 13 8 "${free}KK A\nBA 1\nPI 0,0,0,2\nLU\nUI 50000.01\nKK B\n"
flows '0 0 0 0' "${free}KK A\nBA 1\nPI\nLU\nUI 99999.99\nZZ\n"
flows '0 0 0 0' "${free}KK A\nBA 1\nPI 0,0,0,0\nLU\nUI 99999.99\nZZ\n"
flows '0 0 0 0' "${free}KK A\nBA 1\nPI 0,0,0,20\nLU\nUI 0,99999.99\nZZ\n"  # beyond the end
ui_top=$(times 30 'UI x,x,x,x,x\n')
refused 13 66 "*FREE\nIT 60,,,300\nKK A\nBA 1\nLU\n${pi300//1e5/20}${ui_top//x/99999.99}ZZ\n"
half="${free}KK A\nQI 50000\nKK B\nQI"
flows '6000000000000 0 0 0' "$half 50000\nKK C\nHC 2\nZZ\n"
refused 13 9 "$half 50000.01\nKK C\nHC 2\nZZ\n"
flows '3000000000000 6000000000000 0 0' "$half 0,100000\nKK C\nHC 2\nZZ\n"
refused 13 15 "$free$(times 5 'KK A\nQI 100000\n')KK C\nHC 5\nZZ\n"
flows '6000000000000 0 0 0' "$free$(times 5 'KK A\nQI 20000\n')KK C\nHC 5\nZZ\n"
refused 6 9 "$half 50000.01\nKK C\nHC 2\nKK\n"      # the line's 6 before 13
refused 13 9 "$half 100000\nKK C\nHC 2\nZZ\n"       # 13 before 15

# ---- 14, 15, 16 ----------------------------------------------------------

routed=$(times 199 'KK R\nRM 1,1,.2\n')             # with inflow: 402 lines
got=$(printf '%b' "$free$inflow${routed}ZZ\n" | run | tail -n 2)
check '200 blocks' "$(printf 'END 200\nstatus 0, silent')" "$got"
got=$(printf '%b' "$free$inflow${routed}ZZ\n" | run | sed -n 200p)
check 'the 200th block' 'R 4 0.00 1.00 1 ' "${got%"${got##* }"}"
refused 14 403 "$free$inflow${routed}KK S\nRM 1,1,.2\nZZ\n"
refused 14 403 "$free$inflow${routed}KK S"
refused 6 403 "$free$inflow${routed}KK ,\n"         # 6 before 14
refused 9 402 "$free$inflow${routed%'RM 1,1,.2\n'}KK S\n"           # 9 before 14
refused 12 403 "$free$inflow${routed%'1,1,.2\n'}1,.5,.2\nKK S\n"    # 12 before 14
full "REFUSED 17 0\n0 0 0 0\n$(zeros 7999)\n0\n" "$free$inflow${routed}ZZ\n" --ordinates 4 --records 7999 --named 200
full "REFUSED 17 0\n0 0 0 0\n$(zeros 8000)\n0\n" "$free$inflow${routed}ZZ\n" --ordinates 4 --records 8000 --named 201
refused 15 3 "${free}ZZ\n"
refused 15 3 "${free}ZZ"
refused 15 7 "${two}ZZ\n"
refused 15 8 "$two\nZZ\nZZ\n"
refused 15 9 "${two}KK C\nRM 1,1,.2\nZZ\n"
refused 16 0 ''
refused 16 0 '\n'
refused 16 0 '   '
refused 16 0 '*FREE'
refused 16 0 'ID\nKM\n'
refused 16 0 "$free"
refused 16 0 "$free$inflow"
refused 16 0 "${free}KK A\n"                        # an open block is not judged
refused 16 0 "${free}KK A\nHC 2\nRM 1,1,.2"
refused 16 0 "$free${inflow}KM ZZ\n"
refused 3 5 "$free$inflow\t"                        # 3 before 16
refused 4 5 "$free${inflow}Q"
refused 8 4 "${free}KK A\nQI 1 1 1 1 1"

# ---- Water ---------------------------------------------------------------

ui12="BA 1\nLU 0,0\nUI 1,2\n"
flows '60000000 180000000 120000000 0' "${free}KK A\n${ui12}PI 1,1\nZZ\n"
flows '60000000 180000000' "*FREE\nIT 60,,,2\nKK A\n${ui12}PI 1,1\nZZ\n"
flows '60000000 180000000' "*FREE\nIT 60,,,2\nKK A\nBA 1\nLU 0,0\nUI 1,2,3,4\nPI 1,1\nZZ\n"
flows '0 60000000 120000000 60000000' "${free}KK A\n${ui12}PI 0,1,,1\nZZ\n"
loss() { printf '*FREE\\nIT %s,,,4\\nKK A\\nBA 1\\nUI .01\\nLU %s\\nPI %s\\nZZ\\n' "$1" "$2" "$3"; }
flows '0 0 600000 0' "$(loss 60 0,0 0,0,1)"
flows '0 0 599999 0' "$(loss 1 0,0.0001 0,0,1)"
flows '0 598560 0 598560' "$(loss 1440 0,0.0001 0,1,0,1)"
flows '11800000 0 0 0' "$(loss 1 0,20 20)"
flows '0 0 0 0' "$(loss 1440 0,20 20,20,20,20)"
flows '0 0 0 6000' "$(loss 60 0,0.1 0.1,0.05,0.0999,0.11)"
# peaks print in hundredths, half up; the sum does not round
lists 'A 1 1.00 0.00 1 299999\nEND 1\n' "$(loss 1 0,0.0001 0.5)"
lists 'A 1 1.00 0.01 1 300000\nEND 1\n' "$(loss 1 0,0 0.5)"
lists 'A 1 1.00 0.01 1 899999\nEND 1\n' "$(loss 1 0,0.0001 1.5)"
lists 'A 1 1.00 0.02 1 900000\nEND 1\n' "$(loss 1 0,0 1.5)"
# the last held are added, and areas with them; routing keeps its area
lists 'A 2 1.50 1.00 1 60000000\nB 2 2.25 2.00 1 120000000\nC 2 0.00 4.00 1 240000000\nD 3 2.25 6.00 1 360000000\nE 3 3.75 7.00 1 420000000\nEND 5\n' \
    "${free}KK A\nBA 1.5\nQI 1\nKK B\nQI 2\nBA 2.25\nKK C\nQI 4\nKK D\nHC 2\nKK E\nHC 2\nZZ\n"
lists 'A 2 1.50 1.00 1 60000000\nB 2 2.25 0.00 1 0\nR 4 2.25 0.00 1 0\nD 3 3.75 1.00 1 60000000\nEND 4\n' \
    "${free}KK A\nBA 1.5\nQI 1\nKK B\nQI 0\nBA 2.25\nKK R\nRM 1,1,0.2\nKK D\nHC 2\nZZ\n"
# only the last held one is routed
flows '60000000 60000000 120000000 180000000' "${free}KK Z\nQI 9,9,9,9\nKK A\nQI 1,2,3,4\nKK B\nRM 1,1,.5\nKK C\nHC 2\nZZ\n" 3
flows '600000000 600000000 660000000 720000000' "${free}KK Z\nQI 9,9,9,9\nKK A\nQI 1,2,3,4\nKK B\nRM 1,1,.5\nKK C\nHC 2\nZZ\n"
flows '540000000 540000000 540000000 540000000' "${free}KK Z\nQI 9,9,9,9\nKK A\nQI 1,2,3,4\nKK B\nRM 1,1,.5\nKK C\nHC 2\nZZ\n" 1
# a sum of areas may pass the limit of a single one
lists "$(times 5 'A 2 9999.99 1.00 1 60000000\n')C 3 49999.95 5.00 1 300000000\nEND 6\n" \
    "$free$(times 5 'KK A\nBA 9999.99\nQI 1\n')KK C\nHC 5\nZZ\n"

# ---- Storm totals (document 02, CR 1) ------------------------------------

# storm TOTAL PATTERN [NQ [LOSS [UNITS]]]: one basin in 9 lines, PB on the
# fifth.  With the one unit ordinate 1.00 an ordinate is 100 times the excess
# of its interval in depth units.  An inch has 600,000 of them, 0.0001 inch 60.
storm() {
    printf '*FREE\\nIT 60,,,%s\\nKK A\\nBA 1\\nPB %s\\nPI %s\\nLU %s\\nUI %s\\nZZ\\n' \
        "${3:-4}" "$1" "$2" "${4:-}" "${5:-1}"
}
# list CARD VALUE: 300 values, ten on a line.
list() {
    local line
    line=$(times 10 ",$2")
    times 30 "$1 ${line#,}\n"
}

flows '2000 2000 2000 0' "$(storm 0.0001 1,1,1)"        # 20, 40, 60
# sevenths of 60: 8 4/7, 17 1/7, 25 5/7, 34 2/7, 42 6/7, 51 3/7, 60
flows '800 900 800 900 800 900 900' "$(storm .0001 1,1,1,1,1,1,1 7)"
flows '800 900 800 900 800 900 900 0' "$(storm .0001 20,20,20,20,20,20,20 8)"
flows '800 900 800 900 800 900 900' "$(storm .0001 .0001,.0001,.0001,.0001,.0001,.0001,.0001 7)"
flows '800 1700 3500 0' "$(storm .0001 1,2,4)"          # 8 4/7, 25 5/7, 60
flows '3400 1700 900 0' "$(storm .0001 4,2,1)"          # 34 2/7, 51 3/7, 60
flows '0 2000 0 4000' "$(storm .0001 0,1,0,2)"          # zeros before and inside
flows '0 6000 0 0' "$(storm .0001 ,3,0,0)"              # and behind
flows '6000 0 0 0' "$(storm .0001 7)"                   # a single value
flows '0 0 0 6000' "$(storm .0001 ,,,.0001)"
# 60 in 300 equal shares: the total after i intervals is i/5, rounded down
text=$(times 60 '0 0 0 0 100 ')
flows "${text% }" "*FREE\nIT 5,,,300\nKK A\nBA 1\nPB .0001\n$(list PI 20)LU\nUI 1\nZZ\n"
# 780 in 300 shares: 13 i/5, that is 2, 5, 7, 10, 13 and so on
text=$(times 60 '200 300 200 300 300 ')
flows "${text% }" "*FREE\nIT 5,,,300\nKK A\nBA 1\nPB .0013\n$(list PI .0001)LU\nUI 1\nZZ\n"
# the greatest total, 60,000,000; a seventh of it is 8,571,428 4/7
flows '2000000000 2000000000 2000000000 0' "$(storm 100 1,1,1)"
flows '857142800 857142900 857142800 857142900 857142800 857142900 857142900' "$(storm 100 1,1,1,1,1,1,1 7)"
flows '29900 5999970100 0 0' "$(storm 100.0000 .0001,20)"   # 299.9985 to one part of 200,001
flows '5999970000 30000 0 0' "$(storm 100 20,.0001)"        # 59,999,700.0015
flows '0 6000 0 0' "$(storm .0001 .0001,20)"
flows '5900 100 0 0' "$(storm .0001 20,.0001)"              # 59.9997
# 4.37 inches are 2,622,000; the parts are 11, 34, 81 and 88 of 88:
# 327,750; 1,013,045.45; 2,413,431.82; 2,622,000
flows '32775000 68529500 140038600 20856900' "$(storm 4.37 .11,.23,.47,.07)"
# all of it falls: the sum is 100 times the total
lists 'A 1 1.00 2.33 3 262200000\nEND 1\n' "$(storm 4.37 .11,.23,.47,.07)"
lists 'A 1 1.00 33.33 1 6000000000\nEND 1\n' "$(storm 100 7,7,7)"
# a total that is the pattern's own sum changes nothing, twice that doubles
flows '30000000 18000000 6000000 0' "${free}KK A\nBA 1\nPI .5,.3,.1\nLU\nUI 1\nZZ\n"
flows '30000000 18000000 6000000 0' "$(storm 0.9 .5,.3,.1)"
flows '60000000 36000000 12000000 0' "$(storm 1.8 .5,.3,.1)"
# no total, no rain, whatever the pattern; a blank is 0
for value in '' 0 0.0000 -0 +0. , ,,,; do
    flows '0 0 0 0' "$(storm "$value" 1,2,3)"
    flows '0 0 0 0' "$(storm "$value" 0,0)"
    flows '0 0 0 0' "$(storm "$value" '')"
    flows '0 0 0 0' "$(storm "$value" 20,20,20,20 4 0 99999.99)"
done
# PB among the lines of PI, whose values are 1, 0, 2, 3: of 600 a sixth, a
# sixth, a half and all
flows '100 0 200 300' "${free}KK A\nPI 1\nUI .01\nPI ,2\nPB .0010\nBA 1\nPI\nPI 3\nLU\nZZ\n"
flows '100 0 200 300' "${free}KK A\nPI 1,,2,3\nKM\nUI .01\nLU\n*FIX\n$(fixed PB .001)\n*FREE\nBA 1\nZZ\n"
flows '2000 2000 2000 0' "${fix}$(fixed BA 1)\n$(fixed PB .0001)\n$(fixed PI 1 1 1)\nLU\n$(fixed UI 1)\nZZ\n"
flows '6000 0 0 0' "${fix}$(fixed BA 1)\nPB.0001\nPI 1\nLU\n$(fixed UI 1)\nZZ\n"
flows '0 0 0 0' "${fix}$(fixed BA 1)\nPB\nPI 1\nLU\n$(fixed UI 1)\nZZ\n"

# the loss reads the cut rain: 60, 120, 180, 240 against losses of 60 to 240
flows '6000 6000 6000 6000' "$(storm .0004 1,1,1,1 4 0)"
flows '0 6000 6000 6000' "$(storm .0004 1,1,1,1 4 .0001)"
flows '0 0 6000 6000' "$(storm .0004 1,1,1,1 4 .0002)"
flows '0 0 0 6000' "$(storm .0004 1,1,1,1 4 .0003)"
flows '0 0 0 0' "$(storm .0004 1,1,1,1 4 .0004)"
flows '100 5900 0 0' "$(storm .0002 .0061,.0059 4 .0001)"   # 61 is one over the loss of 60
flows '0 6000 0 0' "$(storm .0002 .0060,.0060 4 .0001)"     # 60 is the loss
flows '0 6000 0 0' "$(storm .0002 .0059,.0061 4 .0001)"     # 59 is one under it: 61 - 1
flows '0 0 0 0' "$(storm .0001 20,20 4 .0001)"
# 105 in each interval, of which 60, 120 (105 + 15), 180 (105 + 75) and 240
# (105 + 105 + 30) fill the loss
flows '4500 10500 10500 10500' "$(storm .0007 1,1,1,1 4 .0001)"
flows '0 9000 10500 10500' "$(storm .0007 1,1,1,1 4 .0002)"
flows '0 3000 10500 10500' "$(storm .0007 1,1,1,1 4 .0003)"
flows '0 0 7500 10500' "$(storm .0007 1,1,1,1 4 .0004)"
flows '4500 4500 4500 4500' "$(storm .0007 1,1,1,1 4 0,.0001)"
flows '0 0 0 0' "$(storm .0004 1,1,1,1 4 0,.0001)"
flows '0 100 0 0' "$(storm .0002 .0059,.0061 4 0,.0001)"
flows '700 800 700 800 700 800 800' '*FREE\nIT 1,,,7\nKK A\nBA 1\nPB .0001\nPI 1,1,1,1,1,1,1\nLU 0,.0001\nUI 1\nZZ\n'
# and so does the runoff: 20, 20, 20 on 1 and 2
flows '2000 6000 6000 4000' "$(storm .0001 1,1,1 4 0 1,2)"
# a total stays in its block, and each block may have one
pair() { printf '%sKK A\\nBA 1\\n%sPI .5\\nLU\\nUI 1\\nKK B\\nBA 1\\n%sPI .5\\nLU\\nUI 1\\nKK C\\nHC 2\\nZZ\\n' "$free" "$1" "$2"; }
flows '30000000 0 0 0' "$(pair 'PB 9\n' '')" 2
flows '540000000 0 0 0' "$(pair 'PB 9\n' '')" 1
flows '540000000 0 0 0' "$(pair '' 'PB 9\n')" 2
flows '30000000 0 0 0' "$(pair '' 'PB 9\n')" 1
flows '600000000 0 0 0' "$(pair 'PB 9\n' 'PB 1\n')"

# 5, 6 and 7 of PB
for value in 1 0 '' x 101 -1 1,1 0.00000; do
    refused 5 5 "${free}KK A\nPB 1\nPB $value\nZZ\n"
    refused 5 5 "${free}KK A\nPB\nPB $value\nZZ\n"
    refused 5 3 "${free}PB $value\nKK A\n"
done
refused 5 8 "${free}KK A\nPB 1\nBA 1\nKM\n*FREE\nPB 2\nZZ\n"
refused 5 5 "${free}KK A\nPB 1\nPB 2\nQI 1\nZZ\n"           # even where PB makes no set
for value in x . + 1.2.3 1- 1e2 .00001 1.00001 0.000010 0000000001 1,0 1,1 '1 2' ,0 ,1 1,TYPE2 ,TYPE2 \
    1,,0 1,,,,,,,,,0 1,,,,,,,,,,0 101,0 -1,x 101,TYPE2; do
    refused 6 5 "${free}KK A\nBA 1\nPB $value\nZZ\n"
done
for value in 100.0001 100.01 101 -0.0001 -1 -100 99999.9999 999999999; do
    refused 7 5 "${free}KK A\nBA 1\nPB $value\nZZ\n"
done
for value in 100 100.0000 +100. 000000100 ' 100 ,,'; do
    flows '6000000000 0 0 0' "$(storm "$value" 1)"
done
flows '5999994000 0 0 0' "$(storm 99.9999 1)"
refused 6 3 "${fix}PB      1\n"                     # column 9 is field 2
refused 6 3 "${fix}PB12.3456\n"                     # and so is the last 6
refused 7 3 "${fix}PB1234.5\n"

# 18: a total above 0 with nothing to cut it by, where the block closes
for value in '' 0 0,0 0,0,0,0 0.0 .0000,-0,+0. ,, ,0; do
    for total in 1 .0001 100; do refused 18 9 "$(storm "$total" "$value")"; done
done
flows '0 0 0 60000000' "$(storm 1 0,0,0,.0001)"     # the least pattern is one
dry='BA 1\nPB 1\nPI 0\nLU\nUI 1\n'                  # 5 lines
wet=${dry/PI 0/PI 1}
refused 18 9 "${free}KK A\n${dry}KK B\nXX\n"
refused 18 10 "${free}KK A\nPI\nUI 1\nPI 0\nBA 1\nPB .0001\nLU\nKK B\n"
full "REFUSED 18 9\n0 0 0 0 0\n$(zeros 41)\n0\n" "${free}KK A\n${dry}ZZ\n" --ordinates 5 --records 41
full "REFUSED 18 9\n\n\n0\n" "${free}KK A\n${dry}ZZ\n" --ordinates 0 --records 0 --named 9
full "REFUSED 1 0\n0\n00\n0\n" "${free}KK A\n${dry}ZZ\n" --ordinates 1 --records 1 --work 5999
full "REFUSED 17 0\n0 0 0\n$(zeros 40)\n0\n" "${free}KK A\n${wet}ZZ\n" --ordinates 3 --records 40
for line in BA LU UI; do                            # 9 before 18
    text=${dry/"$line"/KM}
    refused 9 9 "${free}KK A\n${text}ZZ\n"
    refused 9 49 "$free${twenty}KK A\n${text}ZZ\n"
done
for line in 'QI 1' 'HC 2' 'RM 1,1,.2'; do
    refused 9 10 "${free}KK A\n$dry$line\nZZ\n"
    refused 9 6 "${free}KK A\nPB 1\n$line\nZZ\n"    # a total beside another kind's record
    refused 9 6 "${free}KK A\nPB 0\n$line\nZZ\n"
done
refused 9 7 "${free}KK A\nBA 1\nQI 1\nPB 1\nZZ\n"
refused 9 8 "${free}KK A\n${dry/PI 0'\n'/}ZZ\n"     # no PI at all is 9, not 18
refused 18 49 "$free${twenty}KK B\n${dry}ZZ\n"      # 18 before 11
refused 11 49 "$free${twenty}KK B\n${wet}ZZ\n"
refused 18 9 "${free}KK A\n${dry}KK B\nHC 2\nZZ\n"  # the earlier line, before 10
refused 10 5 "${free}KK Z\nHC 2\nKK A\n${dry}ZZ\n"
refused 18 13 "${two}KK C\n${dry}ZZ\n"              # 18 before 15
refused 15 13 "${two}KK C\n${wet}ZZ\n"
many="$free$inflow$(times 198 'KK R\nRM 1,1,.2\n')KK D\n"   # 401 lines, 200 blocks
refused 18 407 "$many${dry}KK S\n"                  # 18 before 14
refused 14 407 "$many${wet}KK S\n"
refused 6 9 "${free}KK A\n${dry}KK ,\n"             # the line's own come first
refused 3 9 "${free}KK A\n${dry}ZZ\x80\n"
refused 4 9 "${free}KK A\n${dry}ZK\n"
refused 16 0 "${free}KK A\n$dry"                    # nothing closes the block

# 13: a hundred inches in one interval are 60,000,000 units
flows '6000000000000 0 0 0' "$(storm 100 1 4 '' 1000)"
refused 13 9 "$(storm 100 1 4 '' 1000.01)"
flows '5999994000000 0 0 0' "$(storm 99.9999 1 4 '' 1000)"
flows '6000000000000 6000000000000 0 0' "$(storm 100 1,1 4 '' 2000)"
refused 13 9 "$(storm 100 1,1 4 '' 2000,.01)"
flows '0 0 0 6000000000000' "$(storm 100 ,,,20 4 '' 1000,99999.99)"
refused 13 9 "$(storm 100 ,,20 4 '' 1000,99999.99)"
refused 13 38 "*FREE\nIT 60,,,300\nKK A\nBA 1\nPB 100\nPI 20\nLU\n${ui_top//x/99999.99}ZZ\n"
refused 13 67 "*FREE\nIT 60,,,300\nKK A\nBA 1\nLU\nPB 100\n$(list PI 20)${ui_top//x/99999.99}ZZ\n"

# Any pattern, cut in another way: share by share, with what a division leaves
# carried on to the next.  'shares' has two lines a storm: NQ and the total in
# ten-thousandths, then the ordinates.  All numbers stay below 2^53, and the
# remainder is taken off before a division, so awk is exact.
storms=300
awk -v n="$storms" -v scratch="$scratch" '
    function chance(below) {
        seed = seed * 16807 % 2147483647
        return seed % below
    }
    function inches(v) { return sprintf("%d.%04d", (v - v % 10000) / 10000, v % 10000) }
    function one(k,    nq, count, i, top, kind, sum, total, rest, x, line, deck, shares) {
        nq = chance(3) ? 1 + chance(24) : k % 10 ? 1 + chance(300) : 300
        count = chance(4) ? 1 + chance(nq) : nq
        top = 10 ^ chance(6)
        if (top == 100000) top = 200000
        kind = chance(5)
        sum = 0
        for (i = 1; i <= count; i++) {
            p[i] = kind == 0 ? top : kind == 1 && chance(3) ? 0 : chance(top + 1)
            sum += p[i]
        }
        if (sum == 0) p[1 + chance(count)] = sum = 1
        kind = chance(6)
        total = kind == 0 ? 1 : kind == 1 ? 1000000 : kind == 2 ? 999983 : kind == 3 ? chance(100) : chance(1000001)
        deck = scratch "/storm." k
        printf "*FREE\nIT 60,,,%d\nKK A\nBA 1\nPB %s\n", nq, inches(total) >deck
        rest = 0
        shares = ""
        for (i = 1; i <= nq; i++) {
            x = 0
            if (i <= count) {
                x = rest + 60 * total * p[i]
                rest = x % sum
                x = (x - rest) / sum
                line = line (i % 9 == 1 ? "PI " : ",") inches(p[i])
                if (i % 9 == 0 || i == count) {
                    print line >deck
                    line = ""
                }
            }
            shares = shares (i > 1 ? " " : "") sprintf("%.0f", 100 * x)
        }
        print "LU\nUI 1\nZZ" >deck
        close(deck)
        print nq, total
        print shares
    }
    BEGIN {
        seed = 20240301
        for (k = 1; k <= n; k++) one(k)
    }' >"$scratch/shares"
for ((k = 1; k <= storms; k++)); do
    read -r nq total && read -r text || break
    got=$("$prog" --full --ordinates "$nq" <"$scratch/storm.$k" | sed -n 2p)
    check "storm $k" "$text" "$got"
    # what falls adds up to the total, to the last unit
    sum=0
    for value in $got; do sum=$((sum + value)); done
    check "storm $k, added up" $((6000 * total)) "$sum"
done <"$scratch/shares"
check 'as many storms as were asked for' $((storms + 1)) "$k"

# the worked example: its listing, and the column of units in its table, which
# is the rain of both basins
example=$here/../examples/ten-year-storm
check 'the ten-year storm' "$(cat "$example/storm.listing")" "$("$prog" <"$example/storm.hc1")"
text=$(awk -F ' *[|] *' '$2 ~ /^[0-9]+$/ { gsub(/,/, "", $6); printf "%s ", $6 }' "$example/README.md")$(times 11 '0 ')0
for k in 1 3; do
    got=$(sed -e 's/^LU.*/LU/' -e 's/^UI.*/UI 0.01/' "$example/storm.hc1" |
        "$prog" --full --ordinates 36 --named "$k" | sed -n 2p)
    check "the ten-year storm, rain of block $k" "$text" "$got"
done

# ---- Losses (document 02, CR 2) -------------------------------------------

# In inches, unless said otherwise.  A depth of 0.1 is 60,000 units, 0.01 is
# 6,000 and 0.0001 is 60; the ordinates of 'loss' are excess in these units.
# With LU 0.50,0.10 and 60 minutes 0.50 is to be filled, and an interval's
# uniform loss is 0.10.
hourly() { loss 60 0.50,0.10 "$1"; }

# the deck of document 01: 0.50 fills it, 0.30 - 0.10, 0.10 - 0.10
flows '0 120000 0 0' "$(hourly 0.50,0.30,0.10)"
# a first interval of 0.60: 0.60 - 0.50 - 0.10; then as above
flows '0 0 0 0' "$(hourly 0.60)"
flows '0 120000 0 0' "$(hourly 0.60,0.30,0.10)"
lists "$pond_list" "${pond/0.50,0.30/0.60,0.30}"
# 0.0001 less and 0.0001 more than both losses
flows '0 0 0 0' "$(hourly 0.5999)"
flows '60 0 0 0' "$(hourly 0.6001)"
# filled inside an interval, with excess: 0.75 - 0.50 - 0.10 = 0.15 in the
# first one; 0.60 - 0.30 - 0.10 = 0.20 in the second; 0.40 - 0.10 - 0.10 in the
# last; every later 0.30 leaves 0.20
flows '90000 120000 0 0' "$(hourly 0.75,0.30)"
flows '0 120000 120000 0' "$(hourly 0.20,0.60,0.30)"
flows '0 0 0 120000' "$(hourly 0.20,0.10,0.10,0.40)"
flows '0 0 24000 84000' "$(loss 60 0.5,0.06 0.2,0.2,0.2,0.2)"   # 0.2 - 0.1 - 0.06 = 0.04
# filled inside an interval, and the uniform loss takes the 0.05 or 0.10 left
flows '0 120000 0 0' "$(hourly 0.55,0.30)"
flows '0 0 120000 0' "$(hourly 0.20,0.35,0.30)"
flows '0 0 0 0' "$(hourly 0.20,0.10,0.10,0.15)"
flows '0 0 120000 0' "$(hourly 0.20,0.40,0.30)"
flows '0 60 120000 0' "$(hourly 0.20,0.4001,0.30)"
# filled exactly at an interval's end: 0.20 + 0.30; 0.50 in the last one; and
# 0.0001 before that end (60 are left in its interval) and behind it (0.30
# less 0.0001 in the next one)
flows '0 0 120000 0' "$(hourly 0.20,0.30,0.30)"
flows '0 0 0 0' "$(hourly 0,0,0,0.50)"
flows '0 0 0 60' "$(loss 60 0.4999 0,0,0,0.50)"
flows '0 0 180000 0' "$(loss 60 0.50,0 0.20,0.30,0.30)"
flows '0 60 180000 0' "$(loss 60 0.4999,0 0.20,0.30,0.30)"
flows '0 0 179940 0' "$(loss 60 0.5001,0 0.20,0.30,0.30)"
flows '0 0 120000 0' "$(loss 60 0.4999,0.10 0.20,0.30,0.30)"
flows '0 0 119940 0' "$(loss 60 0.5001,0.10 0.20,0.30,0.30)"
flows '0 120000 120000 0' "$(loss 60 0.2,0 0.2,0.2,0.2)"
flows '0 60 120000 0' "$(loss 60 0.3999,0 0.2,0.2,0.2)"         # 0.2 - 0.1999
flows '0 0 120000 0' "$(loss 60 0.4,0 0.2,0.2,0.2)"
flows '0 60 60 60' "$(loss 60 0.0001,0 0.0001,0.0001,0.0001,0.0001)"
flows '0 0 600000 0' "$(loss 60 1,0 0.5,0.5,1,0)"
# never filled: 0.4999 and 0.40 of 0.50; no rain at all
flows '0 0 0 0' "$(hourly 0.20,0.20,0.0999)"
flows '0 0 0 0' "$(loss 60 0.50,0 0.10,0.10,0.10,0.10)"
flows '0 0 0 0' "$(hourly 0,0)"
flows '0 0 0 0' "$(hourly '')"
# no initial loss, 0 or blank: 0.60 - 0.10 and 0.30 - 0.10
flows '300000 120000 0 0' "$(loss 60 0,0.10 0.60,0.30)"
flows '300000 120000 0 0' "$(loss 60 ,0.10 0.60,0.30)"
# no uniform loss, 0 or blank: 0.60 - 0.50, and 0.30
flows '60000 180000 0 0' "$(loss 60 0.50,0 0.60,0.30)"
flows '60000 180000 0 0' "$(loss 60 0.50 0.60,0.30)"
# a dry interval fills nothing and forgets nothing: 0.60 - 0.30 - 0.10 behind
# it; in front of all rain, 0.75 - 0.50 - 0.10
flows '0 0 120000 120000' "$(hourly 0.20,0,0.60,0.30)"
flows '0 0 120000 120000' "$(hourly 0.20,,0.60,0.30)"
flows '0 0 0 120000' "$(hourly 0.20,0,0,0.60)"
flows '0 0 90000 120000' "$(hourly 0,0,0.75,0.30)"
# and once it is filled it stays so
flows '90000 0 0 120000' "$(hourly 0.75,0,0,0.30)"
# unfilled through several intervals: 0.05 is open in the fourth, 0.30 - 0.15
flows '0 0 0 90000' "$(hourly 0.10,0.15,0.20,0.30)"
flows '0 0 0 60' "$(loss 60 0.0010,0 0.0003,0.0003,0.0003,0.0002)"
# daily intervals, one big first day: a day of 0.01 an hour is 0.24, so
# 3.00 - 0.50 - 0.24 = 2.26 and 1.00 - 0.24; a day of 0.10 is 2.40, so
# 6.00 - 2.00 - 2.40 = 1.60, 4.40 - 2.00 - 2.40 = 0 and 4.4001 leaves 0.0001
flows '1356000 456000 0 0' "$(loss 1440 0.50,0.01 3.00,1.00)"
flows '960000 0 0 0' "$(loss 1440 2,0.10 6.00,1.00)"
flows '0 0 0 0' "$(loss 1440 2,0.10 4.40,1.00)"
flows '60 0 0 0' "$(loss 1440 2,0.10 4.4001,2.40)"
flows '0 0 0 0' "$(loss 1440 2,0.10 4.00,1.00)"
# the interval in which it is filled loses the uniform loss of a whole one:
# 1.00 - 0.50 - 0.30 = 0.20, where half of it would leave 0.35; and
# 1.00 - 0.70 - 0.30 = 0, where three tenths of it would leave 0.21
flows '120000 0 0 0' "$(loss 60 0.50,0.30 1.00)"
flows '0 0 0 0' "$(loss 60 0.90,0.30 0.20,1.00)"
# the initial loss comes first: 0.30 + 0.20 fill it, the 0.10 left is lost, then
# 0.20.  Taken behind the uniform loss it would be filled by 0.20 + 0.20 + 0.10,
# and leave 0.10 in the third interval.
flows '0 0 120000 0' "$(hourly 0.30,0.30,0.30)"
# The other way round three times 0.10 would be lost and fill nothing; as it is
# they fill 0.30, and the fourth interval leaves 0.20 - 0.10.
flows '0 0 0 60000' "$(loss 60 0.30,0.10 0.10,0.10,0.10,0.20)"
# M times the LU value: 7 times 3 units off 60, without and with 60 to fill
flows '39 0 0 0' "$(loss 7 0,0.0003 0.0001)"
flows '39 39 0 0' "$(loss 7 0.0001,0.0003 0.0002,0.0001)"
# the limits: 20 is 12,000,000 units to fill; 20 an hour are 200,000 units in a
# minute and 288,000,000 in a day
flows '0 12000000 0 0' "$(loss 1440 20,0 20,20)"
flows '60 12000000 0 0' "$(loss 1440 19.9999,0 20,20)"
flows '0 11800000 0 0' "$(loss 1 20,20 20,20)"
flows '0 27 0 0' "$(loss 1 20,0.3333 20,0.0056,0.0055)"         # 3,360 - 3,333, and 3,300
flows '0 0 0 0' "$(loss 1440 20,20 20,20,20,20)"
flows '0 0 0 0' "$(loss 1440 0,20 20,20,20,20)"
# what is unfilled in one block is nothing to the next: 0.30 - 0.20 in both
two_basins="${free}$(times 2 'KK A\nBA 1\nUI .01\nLU 0.50,0\nPI 0.30,0.30\n')KK C\nHC 2\nZZ\n"
flows '0 60000 0 0' "$two_basins" 1
flows '0 60000 0 0' "$two_basins" 2
flows '0 120000 0 0' "$two_basins"
# on a unit graph of 2 and 1: excess 0.15 and 0.20
flows '18000000 33000000 12000000 0' "${free}KK A\nBA 1\nLU 0.50,0.10\nPI 0.75,0.30\nUI 2,1\nZZ\n"
# at the flow limit only by the loss: 2.5 - 0.5 inches on 50,000 cfs
flows '6000000000000 0 0 0' "${free}KK A\nBA 1\nPI 2.5\nLU 0.5\nUI 50000\nZZ\n"
refused 13 8 "${free}KK A\nBA 1\nPI 2.5001\nLU 0.5\nUI 50000\nZZ\n"

# The same off rain that is cut from a total, again with excess for ordinates:
# cut_loss MINUTES NQ TOTAL PATTERN LU.
cut_loss() { printf '*FREE\\nIT %s,,,%s\\nKK A\\nBA 1\\nUI .01\\nPB %s\\nPI %s\\nLU %s\\nZZ\\n' "$@"; }
# where the total is the pattern's own sum: 0.60 - 0.50 - 0.10, 0.30 - 0.10
flows '0 120000 0 0' "$(cut_loss 60 4 0.90 0.60,0.30 0.50,0.10)"
# 120 units in sevenths fall as six times 17 and 18.  Three of them fill 51 of
# 60, the fourth fills 9 and leaves 8; of that 7, 8 or 9 are lost.
sevenths() { cut_loss 1 7 .0002 1,1,1,1,1,1,1 "$1"; }
flows '0 0 0 8 17 17 18' "$(sevenths .0001)"
flows '0 0 0 1 10 10 11' "$(sevenths .0001,.0007)"
flows '0 0 0 0 9 9 10' "$(sevenths .0001,.0008)"
flows '0 0 0 0 8 8 9' "$(sevenths .0001,.0009)"
flows '0 0 0 0 0 0 0' "$(sevenths .0002)"           # the last interval ends it
flows '0 0 0 0 0 0 0' "$(sevenths .0003)"           # never filled
flows '7 7 7 7 7 7 8' "$(sevenths 0,.0010)"         # none to fill
# 60 to fill and 1 a minute, off 62, 61, 60 or 59 units of 120: 62 - 61,
# 61 - 61, 60 - 60, 59 - 59; then 58 - 1, 59 - 1, 60 - 1, 61 - 1 - 1
flows '1 57' "$(cut_loss 1 2 .0002 .0062,.0058 .0001,.0001)"
flows '0 58' "$(cut_loss 1 2 .0002 .0061,.0059 .0001,.0001)"
flows '0 59' "$(cut_loss 1 2 .0002 .0060,.0060 .0001,.0001)"
flows '0 59' "$(cut_loss 1 2 .0002 .0059,.0061 .0001,.0001)"
# dry in the middle: 60, 0, 180; 120 to fill leave 120, and 20 of that is lost
flows '0 0 120 0' "$(cut_loss 1 4 .0004 1,0,3 .0002)"
flows '0 0 100 0' "$(cut_loss 1 4 .0004 1,0,3 .0002,.0020)"
# 100 in a first day: 60,000,000 units less 12,000,000 to fill and a day's
# 7,200,000, 47,999,520, 48,000,960 or 288,000,000
flows '40800000 0' "$(cut_loss 1440 2 100 1 20,0.5)"
flows '480 0' "$(cut_loss 1440 2 100 1 20,3.3333)"
flows '0 0' "$(cut_loss 1440 2 100 1 20,3.3334)"
flows '0 0' "$(cut_loss 1440 2 100 1 20,20)"
# 20 an hour: 48,000,000 in 240 minutes, 200,000 less in 239
flows '0 0' "$(cut_loss 240 2 100 1 20,20)"
flows '200000 0' "$(cut_loss 239 2 100 1 20,20)"
flows '47800000 0' "$(cut_loss 1 2 100 1 20,20)"
flows '0 0' "$(cut_loss 1440 2 0 1,1 20,20)"

# Any rain and any losses, worked in another way: from running totals, with
# nothing carried.  The rain so far less the initial loss, where that is above 0,
# has been left by it so far; an interval's part of that is a difference.
# Every other deck has ratios, which cut the running totals before that.
# 'excess' has a line with NQ and the count of ratios, then the ordinates under
# each.  The numbers stay below 2^53.
basins=300
awk -v n="$basins" -v scratch="$scratch" '
    function chance(below) {
        seed = seed * 16807 % 2147483647
        return seed % below
    }
    function inches(v) { return sprintf("%d.%04d", (v - v % 10000) / 10000, v % 10000) }
    function above(a, b) { return a > b ? a - b : 0 }
    function cut(rain, ratio) { return (rain * ratio - rain * ratio % 100) / 100 }
    function one(k,    minutes, nq, count, i, top, total, sum, all, initial, uniform, left, x, line, deck, text, ratios, r) {
        minutes = chance(3) ? 1 + chance(60) : chance(2) ? 1440 : 60
        nq = 1 + chance(12)
        count = 1 + chance(nq)
        top = 3 * 10 ^ chance(5)
        sum = 0
        for (i = 1; i <= count; i++) {
            p[i] = chance(4) ? chance(top + 1) : 0
            sum += p[i]
        }
        total = sum > 0 && chance(2) ? 1 + chance(k % 3 ? 2 * sum : 1000000) : -1
        if (total > 1000000) total = 1000000
        ratios = k % 2 ? 1 + chance(9) : 1
        for (r = 1; r <= ratios; r++) ratio[r] = k % 2 ? chance(3) ? 1 + chance(200) : 1 + chance(999) : 100
        r = ratio[1 + chance(ratios)]               # the one that the losses are aimed at
        x = 0                                       # rain[i]: up to and with interval i, in depth units
        rain[0] = fallen[0] = 0
        for (i = 1; i <= nq; i++) {
            if (i <= count) x += p[i]
            rain[i] = total < 0 ? 60 * x : (60 * total * x - 60 * total * x % sum) / sum
            fallen[i] = cut(rain[i], r)
        }
        all = (fallen[nq] - fallen[nq] % 60) / 60
        i = 1 + chance(count)                       # around the end of an interval, or anywhere
        initial = chance(2) ? (fallen[i] - fallen[i] % 60) / 60 + chance(3) - 1 : chance(all + 2)
        if (initial < 0) initial = 0
        if (initial > 200000) initial = 200000
        x = above(fallen[i], 60 * initial)
        uniform = chance(3) ? (x - x % minutes) / minutes + chance(3) - 1 : chance(2) ? chance(top + 1) : 0
        if (uniform < 0) uniform = 0
        if (uniform > 200000) uniform = 200000
        deck = scratch "/basin." k
        printf "*FREE\nIT %d,,,%d\n", minutes, nq >deck
        if (k % 2) {
            text = "JR PREC"
            for (r = 1; r <= ratios; r++) text = text sprintf(",%d.%02d", (ratio[r] - ratio[r] % 100) / 100, ratio[r] % 100)
            print text >deck
        }
        printf "KK A\nBA 1\nUI .01\nLU %s,%s\n", inches(initial), inches(uniform) >deck
        if (total >= 0) print "PB " inches(total) >deck
        for (i = 1; i <= count; i++) print "PI " inches(p[i]) >deck
        print "ZZ" >deck
        close(deck)
        print nq, ratios
        for (r = 1; r <= ratios; r++) {
            text = ""
            for (i = 1; i <= nq; i++) {
                left = above(cut(rain[i], ratio[r]), 60 * initial) - above(cut(rain[i - 1], ratio[r]), 60 * initial)
                text = text (i > 1 ? " " : "") sprintf("%.0f", above(left, minutes * uniform))
            }
            print text
        }
    }
    BEGIN {
        seed = 20240302
        for (k = 1; k <= n; k++) one(k)
    }' >"$scratch/excess"
for ((k = 1; k <= basins; k++)); do
    read -r nq count || break
    for ((r = 1; r <= count; r++)); do
        read -r text
        got=$("$prog" --full --ordinates "$nq" --ratio "$r" <"$scratch/basin.$k" | sed -n 2p)
        check "losses, basin $k, ratio $r" "$text" "$got"
    done
done <"$scratch/excess"
check 'as many basins as were asked for' $((basins + 1)) "$k"

# ---- Ratios (document 02, CR 3) -------------------------------------------

# jr FIELDS: a deck whose JR stands on line 3.  QI knows no ratio.
jr() { printf '%sJR %s\\nKK A\\nQI 1\\nZZ\\n' "$free" "$1"; }
one_a=${one%'END 1\n'}
# under RATIO...: the listing of that deck
under() {
    local r
    for r in "$@"; do printf '%s' "RATIO $r\n$one_a"; done
    printf '%s' 'END 1\n'
}
# takes FIELDS RATIO...: such a deck is accepted
takes() {
    local fields=$1
    shift
    lists "$(under "$@")" "$(jr "$fields")"
}

# the deck of document 01
jr_pond=${pond/'KK UP'/'JR PREC,1.00\nKK UP'}
lists "RATIO 1.00\n$pond_list" "$jr_pond"
lists "RATIO 1.00\n${pond_list%'END 4\n'}RATIO 1.00\n$pond_list" "${jr_pond/1.00/'1,1.'}"
# 1.50: 0.75, 0.45, 0.15 inch leave 0.15, 0.35, 0.05; 0.50: 0.25, 0.15, 0.05 fill
pond_up='UP 1 1.50 4.10 2 462000000\nRIV 4 1.50 3.13 3 511349112\nSIDE 2 0.00 2.00 2 360000000\nOUT 3 1.50 5.13 3 871349112\n'
pond_down='UP 1 1.50 0.00 1 0\nRIV 4 1.50 0.00 1 0\nSIDE 2 0.00 2.00 2 360000000\nOUT 3 1.50 2.00 2 360000000\n'
lists "RATIO 1.50\n${pond_up}RATIO 0.50\n${pond_down}END 4\n" "${jr_pond/1.00/'1.5,.5'}"
lists "RATIO 0.50\n${pond_down}RATIO 1.00\n${pond_list%'END 4\n'}RATIO 1.50\n${pond_up}END 4\n" "${jr_pond/1.00/'.5,1,1.5'}"
flows '90000000 246000000 114000000 12000000' "${jr_pond/1.00/'1.5,.5'}" 1 1
flows '90000000 126000000 187846153 107502959' "${jr_pond/1.00/'1.5,.5'}" 2 1
flows '0 0 0 0' "${jr_pond/1.00/'1.5,.5'}" 2 2
flows '60000000 120000000 120000000 60000000' "${jr_pond/1.00/'1.5,.5'}" 4 2
flows '60000000 120000000 120000000 60000000' "${jr_pond/1.00/'1.5,.5'}" 0 0
flows '60000000 147692307 202082840 104788348' "${jr_pond/1.00/'.5,1,1.5'}" 0 2
flows '90000000 246000000 114000000 12000000' "${jr_pond/1.00/'.5,1,1.5'}" 1 0
flows '150000000 246000000 307846153 167502959' "${jr_pond/1.00/'.5,1,1.5'}" 0 3

# spelling
takes PREC,0.01 0.01
takes PREC,9.99 9.99
takes PREC,0.05 0.05
takes PREC,.5 0.50
takes PREC,1. 1.00
takes 'PREC +1.5' 1.50
takes PREC,000000001 1.00
takes PREC,0000009.99 9.99
takes 'PREC , 1 , 2' 1.00 2.00
takes 'PREC 1 2,3' 1.00 2.00 3.00
takes PREC,1,2,,, 1.00 2.00
takes PREC,1,,,,,,,,,,,,, 1.00
takes PREC,1,1,1 1.00 1.00 1.00
takes PREC,9,8,7,6,5,4,3,2,1 9.00 8.00 7.00 6.00 5.00 4.00 3.00 2.00 1.00
takes PREC,.01,.02,.03,.04,.05,.06,.07,.08,.09,,, 0.01 0.02 0.03 0.04 0.05 0.06 0.07 0.08 0.09
lists "$(under 1.50)" "${free}JRPREC,1.50\n${inflow}ZZ\n"
fix_jr="$(fixed IT 60 '' '' 4)\n"                   # 1 line
fix_a="KK A\n$(fixed QI 1)\nZZ\n"
lists "$(under 1.50)" "$fix_jr$(fixed JR PREC 1.50)\n$fix_a"
lists "$(under 1.50)" "${fix_jr}JR PREC 1.50\n$fix_a"
lists "$(under 1.50)" "${fix_jr}JRPREC  +01.5\n$fix_a"
lists "$(under 1.00 2.00 3.00 4.00 5.00 6.00 7.00 8.00 9.00)" "$fix_jr$(fixed JR PREC 1 2 3 4 5 6 7 8 9)\n$fix_a"

# where it stands
lists "$(under 1.50)" "${free}KM\n\n   \n*FIX\n*FREE\nJR PREC,1.5\nKM\n\n${inflow}ZZ\n"
lists "$(under 1.50)" "${free}*FIX\n$(fixed JR PREC 1.5)\n*FREE\n${inflow}ZZ\n"
refused 5 1 'JR PREC,1\n'
refused 5 1 'JR\n'
refused 5 2 "*FREE\nJR PREC,1\nIT 60,,,4\n${inflow}ZZ\n"
refused 5 2 "*FREE\nJR FLOW,x\nIT 60,,,4\n${inflow}ZZ\n"
refused 5 4 "${free}KK A\nJR PREC,1\nQI 1\nZZ\n"
refused 5 5 "$free${inflow}JR PREC,1\nZZ\n"
refused 5 5 "$free${inflow}JR FLOW,0\nZZ\n"
refused 5 8 "${free}JR PREC,1\n$inflow${inflow}JR PREC,1\nZZ\n"
refused 5 4 "${free}JR PREC,1\nJR PREC,1\n${inflow}ZZ\n"
refused 5 4 "${free}JR PREC,1\nJR PREC,2\n${inflow}ZZ\n"
refused 5 6 "${free}JR PREC,1\nKM\n\nJR PREC,2\n${inflow}ZZ\n"
for line in JR 'JR FLOW,1' 'JR PREC' 'JR PREC,x' 'JR PREC,0' 'JR PREC,1,2,3,4,5,6,7,8,9,10'; do
    refused 5 4 "${free}JR PREC,1\n$line\n${inflow}ZZ\n"
done
refused 6 3 "${free}JR FLOW,1\nJR PREC,1\n${inflow}ZZ\n"    # the first is the first
refused 5 4 "${free}JR PREC,1\nIT 60,,,4\n"
refused 5 4 "${free}JR PREC,1\nID\n"
refused 5 4 "${free}JR PREC,1\nQI 1\n"
refused 15 4 "${free}JR PREC,1\nZZ\n"
refused 16 0 "${free}JR PREC,1\n"
refused 16 0 "${free}JR PREC,1\n$inflow"
refused 4 3 "${free}jr PREC,1\n"
refused 4 3 "${free}J\n"
refused 4 3 "${free} JR PREC,1\n"
refused 3 3 "${free}JR PREC,1\t\n"                  # 3 before 5, 6, 7
refused 3 1 'JR FLOW\x80\n'
refused 3 3 "${free}JR PREC,1$(times 74 ' ')\n"

# the word (6)
for fields in '' , ,1 ,PREC,1 1 1.00 0 prec,1 Prec,1 FLOW,1 PRECX,1 PREC1,1 PRE,1 P,1 1,PREC \
    '"PREC",1' PREC.,1 -PREC,1 PREC-1 'P REC 1' FLOW FLOW,0 FLOW,10 FLOW,x ,0 ,10.00 0,0 PRECPREC; do
    refused 6 3 "$(jr "$fields")"
done
refused 6 3 "${free}JR\n${inflow}ZZ\n"
refused 6 2 "$fix_jr$(fixed JR '' PREC 1)\n$fix_a"
refused 6 2 "$fix_jr$(fixed JR PREC1 1)\n$fix_a"
refused 6 2 "${fix_jr}JR PREC,1.00\n$fix_a"
refused 6 2 "${fix_jr}JR PR EC1.00\n$fix_a"
refused 6 2 "${fix_jr}JR     PREC 1.00\n$fix_a"     # PR, EC 1.00
# ratios that are none (6)
for fields in 1.001 0.005 9.995 9.999 .001 x 1x 1.2.3 . - + 1- 1,x x,1 0000000001 1234567890 000000000.1 \
    1,PREC PREC,1 1,2,3,4,5,6,7,8,9,10 1,2,3,4,5,6,7,8,9,0 ,,,,,,,,,1 0,x 10,1.001 x,0 -1,x ,x 1,,x; do
    refused 6 3 "$(jr "PREC,$fields")"
done
refused 6 2 "$fix_jr$(fixed JR PREC '1 5')\n$fix_a"
refused 6 2 "$fix_jr$(fixed JR PREC 1,5)\n$fix_a"
# none, or over the limits (7)
for fields in '' , ,,, ,,,,,,,,,,,, 0 0.00 -0 .0 10 10.00 10. -1 -.01 -9.99 99.99 999999999 9999999.99 \
    ,1 1,,2 1,0 0,1 1,2,10 1,2,3,4,5,6,7,8,10 1,2,3,4,5,6,7,,9 ,,,,,,,,1; do
    refused 7 3 "$(jr "PREC,$fields")"
done
refused 7 3 "$(jr PREC)"
refused 7 2 "$fix_jr$(fixed JR PREC)\n$fix_a"
refused 7 2 "$fix_jr$(fixed JR PREC '' 1)\n$fix_a"
refused 7 2 "$fix_jr$(fixed JR PREC 1 '' 1)\n$fix_a"
refused 7 2 "$fix_jr$(fixed JR PREC '' '' '' '' '' '' '' '' 1)\n$fix_a"

# The cut: of the running sums, in depth units.  0.0001 inch is 60 units; the
# unit graph makes a flow unit of each.
# drops RATIO PI [MORE]: the deck
drops() { printf '%sJR PREC,%s\\nKK A\\nBA 1\\nUI .01\\nLU\\nPI %s\\n%sZZ\\n' "$free" "$1" "$2" "${3:-}"; }
each=.0001,.0001,.0001,.0001
flows '60 60 60 60' "$(drops 1 $each)"
flows '19 20 20 20' "$(drops .33 $each)"            # 19.8 39.6 59.4 79.2
flows '0 1 0 1' "$(drops .01 $each)"                # 0.6 1.2 1.8 2.4
flows '599 599 600 599' "$(drops 9.99 $each)"       # 599.4 1198.8 1798.2 2397.6
flows '60 61 60 61' "$(drops 1.01 $each)"           # 60.6 121.2 181.8 242.4
flows '59 59 60 59' "$(drops .99 $each)"            # 59.4 118.8 178.2 237.6
flows '0 0 0 1' "$(drops .01 .0001,,,.0001)"        # dry intervals carry it on
flows '0 1 0 0' "$(drops .01 .0001,.0001)"          # nothing behind the last one
flows '0 0 0 0' "$(drops .01 .0001)"
# behind PB: 60 units in sevenths are 8 17 25 34 42 51 60
seventh() { printf '*FREE\\nIT 60,,,7\\nJR PREC,%s\\nKK A\\nBA 1\\nUI .01\\nLU\\nPB %s\\nPI 1,1,1,1,1,1,1\\nZZ\\n' "$1" "${2:-.0001}"; }
flows '8 9 8 9 8 9 9' "$(seventh 1)"
flows '2 3 3 3 2 3 3' "$(seventh .33)"              # a total of 19 would give 2 3 3 2 3 3 3
flows '4 4 4 5 4 4 5' "$(seventh .5)"
flows '16 18 16 18 16 18 18' "$(seventh 2)"         # 120 units would give 17 17 17 17 17 17 18
flows '0 0 0 0 0 0 0' "$(seventh .01)"              # 0.60, and 18 knows no ratio
flows '0 0 0 0 0 0 0' "$(seventh 9.99 0)"
# each ratio has its own cut, whatever stood before it
flows '0 1 0 1' "$(drops 9.99,.33,.01 $each)"
flows '19 20 20 20' "$(drops 9.99,.33,.01 $each)" 1 2
flows '599 599 600 599' "$(drops 9.99,.33,.01 $each)" 1 1
# losses take from what the ratio makes of the rain: 0.60 inch, LU 0.50, 0.10
day() { printf '%sJR PREC,%s\\nKK A\\nBA 1\\nUI .01\\nLU .5,.1\\nPI .6\\nZZ\\n' "$free" "$1"; }
flows '0 0 0 0' "$(day 1)"
flows '180000 0 0 0' "$(day 1.5)"                   # 0.90 - 0.50 - 0.10
flows '6000 0 0 0' "$(day 1.02 | sed 's/LU .5,.1/LU .5,.102/')"
flows '0 0 0 0' "$(day .5)"
# the greatest rain: 20 inches 9.99 times, and a hundred
flows '119880000 119880000 119880000 119880000' "$(drops 9.99 20,20,20,20)"
flows '599400000 0 0 0' "$(drops 9.99 20 'PB 100\n')"
lists 'RATIO 9.99\nA 1 1.00 9.99 1 599400000\nEND 1\n' "$(drops 9.99 20 'PB 100\n')"
# one ratio's storm does not reach into the next block, nor into inflow
lists 'RATIO 2.00\nA 2 0.00 1.00 1 60000000\nB 1 1.00 2.00 1 120000000\nC 3 1.00 3.00 1 180000000\nRATIO 0.50\nA 2 0.00 1.00 1 60000000\nB 1 1.00 0.50 1 30000000\nC 3 1.00 1.50 1 90000000\nEND 3\n' \
    "${free}JR PREC,2,.5\n${inflow}KK B\nBA 1\nPI 1\nLU\nUI 1\nKK C\nHC 2\nZZ\n"
# block names that look like other lines
lists 'RATIO 0.07\nRATIO 2 0.00 1.00 1 60000000\nEND 1\n' "${free}JR PREC,.07\nKK RATIO\nQI 1\nZZ\n"

# rooms: records ratio by ratio, 40 bytes a block and ratio, the named ratio
inch="${free}JR PREC,1,2\nKK A\nBA 1\nPI 1\nLU\nUI 1\nZZ\n"
part_one=412020202020010064000000008793030000000001000000 part_one+=0087930300000000
part_two=412020202020010064000000000e27070000000001000000 part_two+=000e270700000000
rec_one=$part_one$whole                     # 1.00, the first
rec_two=${part_two}c800020000000000         # 2.00, the second
full "4 1 2\n120000000 0 0 0\n$rec_one$rec_two\n0\n" "$inch" --ordinates 4 --records 80
full "4 1 2\n60000000 0 0 0\n$rec_one$rec_two\n0\n" "$inch" --ordinates 4 --records 80 --ratio 1
full "4 1 2\n120000000 0 0 0 0\n$rec_one${rec_two}00\n0\n" "$inch" --ordinates 5 --records 81 --ratio 2 --named 1
full "4 1 2\n60000000 0 0 0\n${part_two}c800010000000000${part_one}6400020000000000\n0\n" "${inch/1,2/2,1}" --ordinates 4 --records 80
full "4 1 2\n120000000 0 0 0$(times 296 ' 0')\n$rec_one$rec_two$(zeros 71920)\n0\n" "$inch"
full "REFUSED 17 0\n0 0 0 0\n$(zeros 79)\n0\n" "$inch" --ordinates 4 --records 79
full "REFUSED 17 0\n0 0 0 0\n$(zeros 64)\n0\n" "$inch" --ordinates 4 --records 64      # the old 32 a block and ratio
full "REFUSED 17 0\n0 0 0 0\n$(zeros 40)\n0\n" "$inch" --ordinates 4 --records 40 --ratio 1
full "REFUSED 17 0\n0 0 0 0\n$(zeros 80)\n0\n" "$inch" --ordinates 4 --records 80 --ratio 3
full "REFUSED 17 0\n0 0 0 0\n$(zeros 120)\n0\n" "$inch" --ordinates 4 --records 120 --ratio 3
full "REFUSED 17 0\n0 0 0 0\n$(zeros 80)\n0\n" "$inch" --ordinates 4 --records 80 --named 2 --ratio 1
full "REFUSED 17 0\n0 0 0\n$(zeros 80)\n0\n" "$inch" --ordinates 3 --records 80 --ratio 1
full "REFUSED 17 0\n0 0 0 0\n\n0\n" "$inch" --ordinates 4 --records 0 --ratio 4294967295
full "REFUSED 1 0\n0\n00\n0\n" "$inch" --ordinates 1 --records 1 --work 5999 --ratio 9
full "4 1 1\n60000000 0 0 0\n$rec_a\n0\n" "$small" --ordinates 4 --records 40 --ratio 1    # no JR: one ratio
full "REFUSED 17 0\n0 0 0 0\n$(zeros 40)\n0\n" "$small" --ordinates 4 --records 40 --ratio 2
full "4 1 1\n60000000 0 0 0\n${part_a}2c01010000000000\n0\n" "$(jr PREC,3)" --ordinates 4 --records 40
full "4 1 3\n60000000 0 0 0\n${part_a}2c01010000000000${part_a}c800020000000000${part_a}6400030000000000\n0\n" "$(jr PREC,3,2,1)" --ordinates 4 --records 120 --named 1 --ratio 2
full "REFUSED 17 0\n0 0 0 0\n$(zeros 119)\n0\n" "$(jr PREC,3,2,1)" --ordinates 4 --records 119
full "REFUSED 15 4\n\n\n0\n" "${free}JR PREC,1\nZZ\n" --ordinates 0 --records 0 --ratio 9
got=$(printf '%b' "${free}JR PREC,1,1,1,1,1,1,1,1,1\n$inflow${routed}ZZ\n" | run | grep -c '^R 4 ')
check 'nine times 200 blocks' 1791 "$got"
got=$(printf '%b' "${free}JR PREC,1,1,1,1,1,1,1,1,1\n$inflow${routed}ZZ\n" | run --full --ordinates 4 --records 71999 | head -n 1)
check 'a byte less than nine times 200 records' 'REFUSED 17 0' "$got"
got=$(printf '%b' "${free}JR PREC,1,1,1,1,1,1,1,1,1\n$inflow${routed}ZZ\n" | run --full --ordinates 4 | head -n 1)
check 'nine times 200 records' '4 200 9' "$got"

# 13 under a ratio: the earliest line of any, not that of the first.  Under 2.00
# A has 120,000 cfs (KK B, line 10), B has 100,020 under 1.00 (ZZ, line 15).
later() { printf '%sJR PREC,%s\\nKK A\\nBA 1\\nPB 100\\nPI 1\\nLU\\nUI 600\\nKK B\\nBA 1\\nPI 20\\nLU\\nUI 5001\\nZZ\\n' "$free" "$1"; }
refused 13 15 "$(later 1)"
refused 13 10 "$(later 2)"
refused 13 10 "$(later 1,2)"
refused 13 10 "$(later 2,1)"
refused 13 10 "$(later .5,1,2,1,.5)"
refused 15 15 "$(later .99)"                        # 99,019.80: two are held
refused 13 15 "$(later .99,1)"                      # 13 before 15 of that line
refused 13 15 "$(later 1,.99)"
refused 13 10 "$(later .99,2)"
full "REFUSED 13 10\n0 0 0 0\n$(zeros 80)\n0\n" "$(later 1,2)" --ordinates 4 --records 80 --named 1 --ratio 1
full "REFUSED 13 10\n\n\n0\n" "$(later 1,2)" --ordinates 0 --records 0 --named 9 --ratio 9
# what stands behind that line is hidden, by whatever ratio
gate='KK A\nBA 1\nPB 100\nPI 1\nLU\nUI 600\nKK B\n'  # 6 lines and the next KK
for rest in XX 'ID' 'QI -1' 'QI 1,1,1,1,1' 'BA x' '\x80' 'HC 9' 'ZZ' ''; do
    refused 13 10 "${free}JR PREC,1,2\n$gate$rest\n"
done
refused 4 11 "${free}JR PREC,1,1.66\n${gate}XX\n"   # 99,600 cfs
refused 13 10 "${free}JR PREC,1,1.67\n${gate}XX\n"
refused 9 11 "${free}JR PREC,1,1.66\n${gate}ZZ\n"
refused 16 0 "${free}JR PREC,1,1.66\n$gate"
refused 13 10 "${free}JR PREC,1,1.67\n$gate"
# and what stands before it comes first
refused 4 9 "${free}JR PREC,1,2\n${gate/UI/XX}ZZ\n"
refused 10 6 "${free}JR PREC,1,2\nKK H\nHC 2\n${gate}QI 1\nZZ\n"
refused 6 10 "${free}JR PREC,1,2\n${gate/KK B/KK ,}ZZ\n"    # 6 of the closing line
refused 18 10 "${free}JR PREC,1,2\n${gate/PI 1/PI 0}ZZ\n"
refused 18 10 "${free}JR PREC,.01\n${gate/PI 1/PI 0}ZZ\n"
# 13 and 14: the 200th block under 2.00, the 201st KK under both
refused 14 408 "${free}JR PREC,1\n$inflow$(times 198 'KK R\nRM 1,1,.2\n')${gate}QI 1\nZZ\n"
refused 13 408 "${free}JR PREC,1,2\n$inflow$(times 198 'KK R\nRM 1,1,.2\n')${gate}QI 1\nZZ\n"
refused 13 408 "${free}JR PREC,2,1\n$inflow$(times 198 'KK R\nRM 1,1,.2\n')${gate}QI 1\nZZ\n"
# 11: twenty held, the gate is the 21st, under whatever ratio
refused 11 50 "${free}JR PREC,1,2\n$(times 20 "$inflow")${gate}QI 1\nZZ\n"
# at the limit, and over it, under one ratio alone
flood() { printf '%sJR PREC,%s\\nKK A\\nBA 1\\nPB 100\\nPI 1\\nLU\\nUI %s\\nZZ\\n' "$free" "$1" "$2"; }
lists 'RATIO 2.00\nA 1 1.00 100000.00 1 6000000000000\nEND 1\n' "$(flood 2 500)"
refused 13 10 "$(flood 2 500.01)"
refused 13 10 "$(flood 1.99,2 500.01)"
lists 'RATIO 1.99\nA 1 1.00 99501.99 1 5970119400000\nEND 1\n' "$(flood 1.99 500.01)"
# one flow unit: 0.0001 inch in one minute, 119 units lost
unit() { printf '*FREE\\nIT 1,,,2\\nJR PREC,%s\\nKK A\\nBA 1\\nPI .0001\\nLU ,.0119\\nUI .01\\nKK B\\nQI 100000\\nKK C\\nHC 2\\nZZ\\n' "$1"; }
lists 'RATIO 1.99\nA 1 1.00 0.00 1 0\nB 2 0.00 100000.00 1 6000000000000\nC 3 1.00 100000.00 1 6000000000000\nEND 3\n' "$(unit 1.99)"
refused 13 13 "$(unit 2)"
refused 13 13 "$(unit 1.99,2)"
refused 13 13 "$(unit 2,1.99)"
# A smaller ratio may pass where a greater one does not: of six shares of 10
# units 0.03 gives the fourth a unit (0.9, 1.2), 0.04 the third and the fifth.
drip() { printf '*FREE\\nIT 60,,,6\\nJR PREC,%s\\nKK A\\nBA 1\\nPB .0001\\nPI 1,1,1,1,1,1\\nLU\\nUI .01\\nKK B\\nQI ,,,100000\\nKK C\\nHC 2\\nZZ\\n' "$1"; }
flows '0 0 1 6000000000000 1 0' "$(drip .04)"
flows '0 0 0 1 0 0' "$(drip .03 | sed 's/100000/1/')" 1
refused 13 14 "$(drip .03)"
refused 13 14 "$(drip .04,.03)"
refused 13 14 "$(drip .03,.04)"
# sums beyond 64 bits before 13 is met
huge="KK A\nBA 1\nLU\n$(times 30 "PI $(times 9 20,)20\n")$(times 30 "UI $(times 4 99999.99,)99999.99\n")ZZ\n"
refused 13 67 "*FREE\nIT 1440,,,300\nJR PREC,.01,9.99\n$huge"
refused 13 67 "*FREE\nIT 1440,,,300\nJR PREC,9.99,9.99,9.99,9.99,9.99,9.99,9.99,9.99,9.99\n$huge"

# ---- Bundles and cases ---------------------------------------------------

le4() { # a number as 4 bytes
    local n=$1
    printf '\\x%02x\\x%02x\\x%02x\\x%02x' $((n & 255)) $((n >> 8 & 255)) $((n >> 16 & 255)) $((n >> 24 & 255))
}
sized() { # a deck behind its length
    local n
    n=$(printf '%b' "$1" | wc -c)
    printf '%s%s' "$(le4 "$n")" "$1"
}
# bundle MODE EXPECTED STATUS INPUT
bundle() {
    local expected got
    printf -v expected '%bstatus %s' "$2" "$3"
    got=$(printf '%b' "$4" | run "$1")
    check "$1 $4" "$expected" "$got"
}
long=$(times 70000 x)
ok='0, silent'
bundle --bundle '' "$ok" ''
bundle --bundle "$pond_list--\n" "$ok" "$(sized "$pond")"
bundle --bundle "$pond_list--\nREFUSED 16 0\n--\nREFUSED 2 0\n--\n$one--\n" "$ok" \
    "$(sized "$pond")$(sized '')$(sized "$long")$(sized "$small")"
bundle --bundle "$one--\nREFUSED 2 0\n--\n$one--\n" "$ok" \
    "$(sized "$small$(pad 60000)")$(sized "$small$(pad 60001)")$(sized "$small")"
bundle --bundle "$one--\n" '2, said' "$(sized "$small")\x01"
bundle --bundle "$one--\n" '2, said' "$(sized "$small")\x01\x00\x00"
bundle --bundle "$one--\n" '2, said' "$(sized "$small")\x01\x00\x00\x00"
bundle --bundle "" '2, said' "$(le4 100000)$long"
bundle --bundle "" '2, said' "$(le4 4000000000)ZZ"
case_of() { # block, ratio, work words, ordinates, record bytes, deck
    printf '%s%s%s%s%s%s' "$(le4 "$1")" "$(le4 "$2")" "$(le4 "$3")" "$(le4 "$4")" "$(le4 "$5")" "$(sized "$6")"
}
bundle --cases '' "$ok" ''
bundle --cases "4 1 1\n60000000 0 0 0 0\n${rec_a}00\n0\n--\n" "$ok" "$(case_of 0 0 6000 5 41 "$small")"
bundle --cases "4 1 2\n60000000 0 0 0\n$rec_one$rec_two\n0\n--\nREFUSED 17 0\n0 0 0 0\n$(zeros 80)\n0\n--\nREFUSED 17 0\n0 0 0 0\n$(zeros 79)\n0\n--\n" "$ok" \
    "$(case_of 1 1 6000 4 80 "$inch")$(case_of 1 3 6000 4 80 "$inch")$(case_of 1 0 6000 4 79 "$inch")"
bundle --cases "4 1 2\n120000000 0 0 0\n$rec_one$rec_two$(zeros 71920)\n0\n--\n" "$ok" "$(case_of 0 0 6000 4 72000 "$inch")"
bundle --cases "4 4 1\n0 27692307 82082840 44788348\n$rec_up$rec_riv$rec_side$rec_out\n0\n--\nREFUSED 1 0\n0\n00\n0\n--\nREFUSED 17 0\n\n\n0\n--\nREFUSED 2 0\n0 0\n0000\n0\n--\n4 1 1\n60000000 0 0 0\n$rec_a\n0\n--\n" "$ok" \
    "$(case_of 2 1 6000 4 160 "$pond")$(case_of 0 0 5999 1 1 "$pond")$(case_of 0 0 9000 0 0 "$pond")$(case_of 0 0 6000 2 2 "$long")$(case_of 1 0 6000 4 40 "$small")"
bundle --cases '' '2, said' "$(le4 1)"
bundle --cases '' '2, said' "$(le4 1)$(le4 0)$(le4 6000)$(le4 1)$(le4 1)"
bundle --cases '' '2, said' "$(le4 1)$(le4 0)$(le4 6000)$(le4 1)$(le4 1)$(le4 3)ZZ"
check 'an unknown option' 'status 2, said' "$(run --nonsense </dev/null)"
check 'an option without its number' 'status 2, said' "$(run --full --named </dev/null)"
check 'an option with a bad number' 'status 2, said' "$(run --full --named 1x </dev/null)"
check 'a ratio that is no number' 'status 2, said' "$(run --full --ratio 1.5 </dev/null)"
check 'two modes' 'status 2, said' "$(run --full --cases </dev/null)"

# ---- The mover ------------------------------------------------------------
# Files are written in hex.  old and new are one record in either form, with no
# zero among the bytes but for the padding and what the new form adds.

bytes() { sed 's/../\\x&/g' <<<"$1"; }
move_of() { # direction, room, file
    printf '%s%s%s%s' "$(le4 "$1")" "$(le4 "$2")" "$(le4 $((${#3} / 2)))" "$(bytes "$3")"
}
# moves DIRECTION ROOM FILE MOVED: what is moved into the room, with zeros behind
moves() { ask "$1" "$2" "$3" "MOVED $((${#4} / 2)) $4$(zeros $(($2 - ${#4} / 2))) --"; }
# stays NUMBER DIRECTION ROOM FILE: a refusal, with a room of zeros
stays() { ask "$2" "$3" "$4" "REFUSED $1 $(zeros "$3") --"; }
# Both only ask; all that was asked is answered by one run, and checked then.
asked=() wanted=()
ask() {
    printf '%b' "$(move_of "$1" "$2" "$3")" >>"$scratch/asked"
    asked+=("--mover $1 $2 $3")
    wanted+=("$4")
}
answer() {
    local k got
    mapfile -t got < <(run --mover <"$scratch/asked")
    for ((k = 0; k < ${#asked[@]}; k++)); do
        check "${asked[k]}" "${wanted[k]}" "${got[3 * k]-} ${got[3 * k + 1]-} ${got[3 * k + 2]-}"
    done
    check 'the end of all that was asked' 'status 0, silent' "${got[*]:3 * k}"
}
# set_byte RECORD PLACE VALUE: the record with another byte, from 0
set_byte() { printf '%s%s%s' "${1:0:2 * $2}" "$3" "${1:2 * $2 + 2}"; }

old=4142434445460100111213142122232425262728313200005152535455565758
new=${old}6400010000000000
other=6162202020200400ff000000ffeeddccbbaa99882c01000099887766554433a2
other_new=${other}6400010000000000
all_ff=$(set_byte "$(set_byte "$(set_byte "$(times 32 ff)" 7 00)" 22 00)" 23 00)

# there, and back, and the rooms
moves 0 40 "$old" "$new"
moves 0 41 "$old" "$new"
moves 0 79 "$old" "$new"
moves 0 80 "$old" "$new"
moves 0 2000 "$old" "$new"
moves 1 32 "$new" "$old"
moves 1 33 "$new" "$old"
moves 1 40 "$new" "$old"                            # as long as the file
moves 1 63 "$new" "$old"
moves 1 64 "$new" "$old"
moves 1 2000 "$new" "$old"
moves 0 80 "$old$other" "$new$other_new"
moves 0 120 "$other$old$other" "$other_new$new$other_new"
moves 0 121 "$old$old$old" "$new$new$new"
moves 1 64 "$other_new$new" "$other$old"
moves 1 120 "$new$other_new$new" "$old$other$old"   # as long as the file
moves 0 0 '' ''
moves 0 1 '' ''
moves 0 40 '' ''
moves 1 0 '' ''
moves 1 1 '' ''
moves 1 100 '' ''
# any bytes are moved but for the padding: names, kinds and sums of no engine
moves 0 40 "$all_ff" "${all_ff}6400010000000000"
moves 1 32 "${all_ff}6400010000000000" "$all_ff"
moves 0 40 "$(zeros 32)" "$(zeros 32)6400010000000000"
moves 1 32 "$(zeros 32)6400010000000000" "$(zeros 32)"
for place in 0 5 6 8 11 12 19 20 21 24 31; do
    text=$(set_byte "$(zeros 32)" "$place" 80)
    moves 0 41 "$text" "${text}6400010000000000"
    moves 1 33 "${text}6400010000000000" "$text"
done

# 1: length
for length in 1 7 8 24 31 33 40 63 65 72; do
    stays 1 0 200 "$(times "$length" 00)"
    stays 1 0 0 "$(times "$length" 00)"
done
for length in 1 8 31 32 39 41 48 64 79 81; do
    stays 1 1 200 "$(times "$length" 00)"
    stays 1 1 0 "$(times "$length" 00)"
done
stays 1 0 40 "$new"                                 # the other form's size
stays 1 0 80 "$new$new"
stays 1 0 120 "$new$new$new"
stays 1 1 32 "$old"
stays 1 1 160 "$old$old$old$old"
stays 1 1 80 "$old$other"
stays 1 0 80 "$old${old:0:62}"
stays 1 1 80 "$new${new:0:78}"
# 160 bytes are five old records and four new ones: the length is no fault then
stays 2 0 200 "$new$new$new$new"
stays 2 1 200 "$old$old$old$old$old"
moves 0 200 "$(zeros 160)" "$(times 5 "$(zeros 32)6400010000000000")"

# 2: padding, in each byte, in each record, by each bit
for value in 01 80 ff; do
    for place in 7 22 23; do
        text=$(set_byte "$old" "$place" "$value")
        stays 2 0 40 "$text"
        stays 2 0 120 "$text$old$old"
        stays 2 0 120 "$old$text$old"
        stays 2 0 121 "$old$old$text"
    done
    for place in 7 22 23 36 37 38 39; do
        text=$(set_byte "$new" "$place" "$value")
        stays 2 1 32 "$text"
        stays 2 1 96 "$text$new$new"
        stays 2 1 96 "$new$text$new"
        stays 2 1 97 "$new$new$text"
    done
done
stays 2 1 64 "${old}6400010001000000${old}6400010000000001"

# 3: ratio and place
for pair in 64000200 63000100 65000100 64000000 64010100 64000101 00000000 96000300 \
    00000100 64000001 00640100 01006400 e7030100 e7030900 01000100 64000900 ffffffff; do
    text=$old${pair}00000000
    stays 3 1 32 "$text"
    stays 3 1 96 "$text$new$new"
    stays 3 1 96 "$new$text$new"
    stays 3 1 97 "$new$new$text"
    stays 3 1 200 "$text$text$text"
done
# 4: room
stays 4 0 39 "$old"
stays 4 0 32 "$old"                                 # as long as the file
stays 4 0 1 "$old"
stays 4 0 0 "$old"
stays 4 0 79 "$old$old"
stays 4 0 64 "$old$old"
stays 4 0 40 "$old$other"                           # for all but the last
stays 4 1 31 "$new"
stays 4 1 1 "$new"
stays 4 1 0 "$new"
stays 4 1 63 "$new$new"
stays 4 1 40 "$new$new"
stays 4 1 32 "$new$other_new"

# the order, over the whole file
second_place=${old}6400020000000000
padded=$(set_byte "$new" 39 01)
padded_old=$(set_byte "$old" 7 01)
stays 2 1 96 "$second_place$new$padded"             # 2 behind 3
stays 2 1 96 "$padded$new$second_place"
stays 2 1 32 "${old}6400020000000001"               # in one record
stays 2 1 0 "$new$padded"                           # 2 before 4
stays 2 0 0 "$old$padded_old"
stays 2 0 79 "$old$padded_old"
stays 3 1 0 "$new$second_place"                     # 3 before 4
stays 3 1 63 "$second_place$new"
stays 1 1 96 "$padded${new}00"                      # 1 before 2, 3 and 4
stays 1 1 96 "$second_place${new}00"
stays 1 1 0 "$new${new}00"
stays 1 1 0 "$second_place${padded}00"
stays 1 1 31 "${second_place:0:78}"
stays 1 0 80 "$padded_old${old}00"
stays 1 0 0 "$old${old}00"
stays 1 0 0 "$padded_old${old:0:62}"
stays 2 1 0 "$second_place$padded"

# thousands: 80,000 bytes are the most for a file and for a room
much_old=$(times 1999 "$old")$other much_new=$(times 1999 "$new")$other_new
moves 0 80000 "$much_old" "$much_new"
stays 4 0 79999 "$much_old"
stays 2 0 80000 "$(times 1999 "$old")$padded_old"
moves 1 80000 "$much_new" "$much_old"
moves 1 64000 "$much_new" "$much_old"
stays 4 1 63999 "$much_new"
stays 3 1 64000 "$(times 1999 "$new")$second_place"
stays 2 1 64000 "$second_place$(times 1998 "$new")$padded"
stays 4 0 80000 "$(times 2500 "$old")"
stays 2 0 0 "$padded_old$(times 2499 "$old")"
stays 1 0 80000 "$(times 2499 "$old")${old:0:62}"
answer

# several cases, and where they end
bundle --mover '' "$ok" ''
bundle --mover "MOVED 40\n$new\n--\nREFUSED 4\n$(zeros 31)\n--\nMOVED 0\n\n--\nREFUSED 1\n00\n--\nMOVED 32\n$old\n--\n" "$ok" \
    "$(move_of 0 40 "$old")$(move_of 1 31 "$new")$(move_of 0 0 '')$(move_of 1 1 00)$(move_of 1 32 "$new")"
first="MOVED 40\n$new\n--\n"
for rest in 00 00000000 0000000028000000 0000000028000000200000 "000000002800000020000000" \
    "000000002800000020000000${old:0:62}" 0100000020000000280000005a; do
    bundle --mover "$first" '2, said' "$(move_of 0 40 "$old")$(bytes "$rest")"
done
bundle --mover "$first" '2, said' "$(move_of 0 40 "$old")$(move_of 2 40 "$old")$(move_of 0 40 "$old")"
bundle --mover "$first" '2, said' "$(move_of 0 40 "$old")$(move_of 256 40 "$old")"
bundle --mover "$first" '2, said' "$(move_of 0 40 "$old")$(move_of 0 80001 "$old")$(move_of 0 40 "$old")"
bundle --mover '' '2, said' "$(move_of 1 0 "$(times 80001 00)")"
bundle --mover '' '2, said' "$(le4 0)$(le4 40)$(le4 4294967295)$(bytes "$old")"
bundle --mover '' '2, said' "$(le4 4294967295)$(le4 40)$(le4 32)$(bytes "$old")"
check 'two modes, one of them the mover' 'status 2, said' "$(run --mover --cases </dev/null)"
check 'the mover and the store' 'status 2, said' "$(run --store --mover </dev/null)"

# ---- The store --------------------------------------------------------------

# hexed: standard input in hex
hexed() { od -An -v -tx1 | tr -d ' \n'; }
# store SAID RECORDS INPUT: what is said on standard error, with a bar for each
# line's end, and the bytes on standard output
store() {
    local status
    printf '%b' "$3" | "$prog" --store >"$scratch/raw" 2>"$scratch/err"
    status=$?
    check "--store $3" "status 0, $1, $2" "status $status, $(tr '\n' '|' <"$scratch/err"), $(hexed <"$scratch/raw")"
}
is_deck=$(le4 0) is_old=$(le4 1) is_new=$(le4 2)

# a deck's records: without JR, with one, and the ratio as it stands on it
store '' "$rec_a" "$is_deck$small"
store '' "$rec_up$rec_riv$rec_side$rec_out" "$is_deck$pond"
store '' "$rec_one$rec_two" "$is_deck$inch"
store '' "$rec_a" "$is_deck$(jr PREC,1)"
store '' "${part_a}6400010000000000${part_a}6400020000000000" "$is_deck$(jr PREC,1,1)"
store '' "${part_a}e703010000000000" "$is_deck$(jr PREC,9.99)"                # 999 is 3e7
store '' "${part_a}0001010000000000${part_a}ff00020000000000${part_a}0101030000000000" "$is_deck$(jr PREC,2.56,2.55,2.57)"
store '' "$(for k in 1 2 3 4 5 6 7 8 9; do printf '%s01000%s0000000000' "$part_a" "$k"; done)" \
    "$is_deck$(jr PREC,.01,.01,.01,.01,.01,.01,.01,.01,.01)"
# three blocks under two ratios: all of the first ratio, then all of the second
part_b=42${part_a#41} part_c=432020202020030000000000000e27070000000001000000000e270700000000
store '' "${part_a}9600010000000000${part_b}9600010000000000${part_c}9600010000000000${part_a}3200020000000000${part_b}3200020000000000${part_c}3200020000000000" \
    "$is_deck${free}JR PREC,1.5,.5\nKK A\nQI 1\nKK B\nQI 1\nKK C\nHC 2\nZZ\n"
for text in '' ZZ 'XX\n' "${free}ZZ\n" "${pond/HC 2/HC 3}"; do
    store "$(printf '%b' "$text" | "$prog" | tr '\n' '|')" '' "$is_deck$text"
done
store 'REFUSED 16 0|' '' "$is_deck"
store 'REFUSED 15 3|' '' "$is_deck${free}ZZ\n"
store 'REFUSED 2 0|' '' "$is_deck$small$(pad 60001)"
store '' "$rec_a" "$is_deck$small$(pad 60000)"
store 'REFUSED 13 10|' '' "$is_deck$(later 1,2)"

# files
store '' "$new$other_new" "$is_old$(bytes "$old$other")"
store '' "$old$other" "$is_new$(bytes "$new$other_new")"
store '' '' "$is_old"
store '' '' "$is_new"
store 'REFUSED 1|' '' "$is_old$(bytes "${old}00")"
store 'REFUSED 1|' '' "$is_new$(bytes "$old")"
store 'REFUSED 2|' '' "$is_old$(bytes "$old$padded_old")"
store 'REFUSED 2|' '' "$is_new$(bytes "$second_place$padded")"
store 'REFUSED 3|' '' "$is_new$(bytes "$new$second_place")"
# what is asked cut short, or nothing that is known
for text in '' '\x00' '\x00\x00\x00' '\x01\x00\x00' "$(le4 3)" "$(le4 3)$pond" "$(le4 256)" "$(le4 16777216)$pond" "$(le4 4294967295)ZZ"; do
    store 'INPUT CUT|' '' "$text"
done

# there_and_back DECK: its records through the store, to the old form and back
there_and_back() {
    printf '%b' "$is_deck$1" | "$prog" --store >"$scratch/records" 2>"$scratch/err"
    { printf '%b' "$is_new"; cat "$scratch/records"; } | "$prog" --store >"$scratch/old" 2>>"$scratch/err"
    { printf '%b' "$is_old"; cat "$scratch/old"; } | "$prog" --store >"$scratch/again" 2>>"$scratch/err"
}
for text in "$small" "$pond" "$(jr PREC,1.00)" "$free$inflow${routed}ZZ\n"; do
    there_and_back "$text"
    check "there and back: $text" 'same' "$(cmp "$scratch/records" "$scratch/again" && [ -s "$scratch/again" ] && [ ! -s "$scratch/err" ] && echo same)"
done
for text in "$inch" "$(jr PREC,1.01)" "$(jr PREC,1,1)" "$(jr PREC,.99)"; do
    there_and_back "$text"
    check "never back: $text" 'REFUSED 3|' "$(tr '\n' '|' <"$scratch/err")$(hexed <"$scratch/old")"
done

# limits: 1,600,000 bytes for a file and for a room, which 40,000 records fill in
# the new form
nulls() { head -c "$1" /dev/zero; }
{ printf '%b' "$is_old"; nulls 1280000; } | "$prog" --store >"$scratch/much" 2>"$scratch/err"
check '40,000 records to the new form' '1600000 0' "$(wc -c <"$scratch/much") $(wc -c <"$scratch/err")"
check 'all of them alike' "$(times 2 "$(zeros 32)$whole")" "$({ head -c 40; tail -c 40; } <"$scratch/much" | hexed)"
{ printf '%b' "$is_new"; cat "$scratch/much"; } | "$prog" --store >"$scratch/old" 2>"$scratch/err"
check '40,000 records to the old form' 'same' "$(nulls 1280000 | cmp - "$scratch/old" && [ ! -s "$scratch/err" ] && echo same)"
# limit ASKED BYTES SAID: a file of zeros
limit() {
    { printf '%b' "$1"; nulls "$2"; } | "$prog" --store >"$scratch/much" 2>"$scratch/err"
    check "--store, $2 zeros" "status 0, $3, 0" "status $?, $(tr '\n' '|' <"$scratch/err"), $(($(wc -c <"$scratch/much")))"
}
limit "$is_old" 1280032 'REFUSED 4|'
limit "$is_old" 1280031 'REFUSED 1|'
limit "$is_old" 1600000 'REFUSED 4|'
limit "$is_old" 1600001 'REFUSED 0|'
limit "$is_old" 3000000 'REFUSED 0|'
limit "$is_new" 1600000 'REFUSED 3|'
limit "$is_new" 1600001 'REFUSED 0|'
limit "$is_new" 1600040 'REFUSED 0|'
limit "$is_deck" 1600001 'REFUSED 2 0|'
limit "$(le4 7)" 1600001 'INPUT CUT|'

# ---- The sheet ---------------------------------------------------------------

sheet_of() { # block, ratio, deck
    printf '%s%s%s' "$(le4 "$1")" "$(le4 "$2")" "$(sized "$3")"
}
# sheet TEXT DECK [BLOCK [RATIO]]: what is printed of a case, the last block and
# ratio by default
sheet() { bundle --sheet "$1--\n" "$ok" "$(sheet_of "${3:-0}" "${4:-0}" "$2")"; }
# tables RATIO NAME NQ UNITS FIGURES: a sheet with these lines behind each head
tables() {
    local head
    head="interval,rain,loss,excess,$(seq -s, 1 "$3")\n"
    printf '%s' "units,$1,$2\n$head$4inches and cfs,$1,$2\n$head$5"
}
# runoff MINUTES NQ LU PI UI: a deck of one block
runoff() { printf '*FREE\\nIT %s,,,%s\\nKK A\\nBA 1\\nLU %s\\nPI %s\\nUI %s\\nZZ\\n' "$1" "$2" "$3" "$4" "$5"; }

# the deck of document 01: 0.50 fills the initial loss, 0.30 leaves 0.20
up_sheet=$(tables 1.00 UP 4 '2,180000,60000,120000,,120000000,48000000,\nsum,,,,0,120000000,48000000,0\n' \
    '2,0.300000,0.100000,0.200000,,2.000000,0.800000,\nsum,,,,0.000000,2.000000,0.800000,0.000000\n')
sheet "$up_sheet" "$pond" 1
sheet "$up_sheet" "$pond" 1 1
sheet "$up_sheet" "${pond%'\n'}" 1
sheet "$up_sheet" "${pond//'\n'/'\r\n'}" 1
sheet "$up_sheet" "${pond//'\n'/'\nKM PI 1\n   \n'}" 1
sheet 'NO SHEET 4\n' "$pond" 2
sheet 'NO SHEET 2\n' "$pond" 3
sheet 'NO SHEET 3\n' "$pond" 4
sheet 'NO SHEET 3\n' "$pond"
# what there is not is told last of all
for text in '5 0' '1 2' '5 2' '0 2' '2 2' '4294967295 0' '1 4294967295' '256 0' '65536 65536'; do
    sheet 'REFUSED 17 0\n' "$pond" "${text% *}" "${text#* }"
    sheet 'REFUSED 10 15\n' "${pond/HC 2/HC 3}" "${text% *}" "${text#* }"
done
sheet 'REFUSED 16 0\n' '' 9 9
sheet 'REFUSED 2 0\n' "$small$(pad 60001)" 9 9
sheet 'NO SHEET 2\n' "$small$(pad 60000)" 1 1

# one ordinate; no rain; rain and no unit ordinate; unit ordinates of 0, and more
# of them than ordinates; the last interval; excess in two that meet
sheet "$(tables 1.00 A 1 '1,600000,0,600000,180000000\nsum,,,,180000000\n' '1,1.000000,0.000000,1.000000,3.000000\nsum,,,,3.000000\n')" \
    "$(runoff 60 1 0 1 3,5)"
sheet "$(tables 1.00 A 2 'sum,,,,0,0\n' 'sum,,,,0.000000,0.000000\n')" "$(runoff 60 2 0 '' 3,5)"
sheet "$(tables 1.00 A 2 'sum,,,,0,0\n' 'sum,,,,0.000000,0.000000\n')" "$(runoff 60 2 1 0.5,0.5 3,5)"
sheet "$(tables 1.00 A 2 'sum,,,,0,0\n' 'sum,,,,0.000000,0.000000\n')" "$(runoff 60 2 0,1 1,.9999 3,5)"
sheet "$(tables 1.00 A 2 '1,600000,0,600000,,\n2,60,0,60,,\nsum,,,,0,0\n' \
    '1,1.000000,0.000000,1.000000,,\n2,0.000100,0.000000,0.000100,,\nsum,,,,0.000000,0.000000\n')" "$(runoff 60 2 0 1,.0001 '')"
sheet "$(tables 1.00 A 6 '2,600000,0,600000,,0,120000000,0,0,\nsum,,,,0,0,120000000,0,0,0\n' \
    '2,1.000000,0.000000,1.000000,,0.000000,2.000000,0.000000,0.000000,\nsum,,,,0.000000,0.000000,2.000000,0.000000,0.000000,0.000000\n')" \
    "$(runoff 60 6 0 ,1 0,2,,0)"
sheet "$(tables 1.00 A 3 '3,1200000,600000,600000,,,60000000\nsum,,,,0,0,60000000\n' \
    '3,2.000000,1.000000,1.000000,,,1.000000\nsum,,,,0.000000,0.000000,1.000000\n')" "$(runoff 60 3 ,1 1,.5,2 1,2,3,4)"
sheet "$(tables 1.00 A 4 '1,600000,0,600000,60000000,120000000,180000000,\n3,1200000,0,1200000,,,120000000,240000000\nsum,,,,60000000,120000000,300000000,240000000\n' \
    '1,1.000000,0.000000,1.000000,1.000000,2.000000,3.000000,\n3,2.000000,0.000000,2.000000,,,2.000000,4.000000\nsum,,,,1.000000,2.000000,5.000000,4.000000\n')" \
    "$(runoff 60 4 0 1,,2 1,2,3)"
sheet "$(tables 1.00 A 2 '2,1200000,0,1200000,,6000000000000\nsum,,,,0,6000000000000\n' \
    '2,2.000000,0.000000,2.000000,,100000.000000\nsum,,,,0.000000,100000.000000\n')" "$(runoff 60 2 0 0,2 50000)"
sheet 'REFUSED 13 8\n' "$(runoff 60 2 0 0,2 50000.01)"

# the sixth place.  A loss of 59 units leaves one of 60: 60 units are 100
# millionths of an inch, 59 are 98 1/3 and one is 1 2/3; 29 flow units are less
# than half a millionth of a cfs, 30 are a half and 31 more.
sheet "$(tables 1.00 A 4 '1,60,59,1,29,30,31,\nsum,,,,29,30,31,0\n' \
    '1,0.000100,0.000098,0.000002,0.000000,0.000001,0.000001,\nsum,,,,0.000000,0.000001,0.000001,0.000000\n')" "$(runoff 1 4 ,.0059 .0001 .29,.3,.31)"
sheet "$(tables 1.00 A 4 '1,60,59,1,89,90,91,\nsum,,,,89,90,91,0\n' \
    '1,0.000100,0.000098,0.000002,0.000001,0.000002,0.000002,\nsum,,,,0.000001,0.000002,0.000002,0.000000\n')" "$(runoff 1 4 ,.0059 .0001 .89,.9,.91)"
# two shares of a quarter are a half, whatever each shows
sheet "$(tables 1.00 A 3 '1,60,59,1,15,15,\n2,60,59,1,,15,15\nsum,,,,15,30,15\n' \
    '1,0.000100,0.000098,0.000002,0.000000,0.000000,\n2,0.000100,0.000098,0.000002,,0.000000,0.000000\nsum,,,,0.000000,0.000001,0.000000\n')" \
    "$(runoff 1 3 ,.0059 .0001,.0001 .15,.15)"
# two of 31 units each show a millionth, their sum of 62 one as well
sheet "$(tables 1.00 A 2 '1,60,59,1,31,31\n2,60,59,1,,31\nsum,,,,31,62\n' \
    '1,0.000100,0.000098,0.000002,0.000001,0.000001\n2,0.000100,0.000098,0.000002,,0.000001\nsum,,,,0.000001,0.000001\n')" \
    "$(runoff 1 2 ,.0059 .0001,.0001 .31,.31)"

# ratios: rain, losses and excess are those of the named one, and so is the title
jr_runoff="${free}JR PREC,1.5,1,.33\nKK A\nBA 1\nPI .5,.3,.1\nLU .5,.1\nUI 10,4\nZZ\n"
half_more=$(tables 1.50 A 4 '1,450000,360000,90000,90000000,36000000,,\n2,270000,60000,210000,,210000000,84000000,\n3,90000,60000,30000,,,30000000,12000000\nsum,,,,90000000,246000000,114000000,12000000\n' \
    '1,0.750000,0.600000,0.150000,1.500000,0.600000,,\n2,0.450000,0.100000,0.350000,,3.500000,1.400000,\n3,0.150000,0.100000,0.050000,,,0.500000,0.200000\nsum,,,,1.500000,4.100000,1.900000,0.200000\n')
third=$(tables 0.33 A 4 'sum,,,,0,0,0,0\n' 'sum,,,,0.000000,0.000000,0.000000,0.000000\n')
sheet "$half_more" "$jr_runoff" 1 1
sheet "${up_sheet//,UP/,A}" "$jr_runoff" 1 2
sheet "${up_sheet//,UP/,A}" "$jr_runoff" 0 2
sheet "$third" "$jr_runoff" 1 3
sheet "$third" "$jr_runoff" 0 0
sheet 'REFUSED 17 0\n' "$jr_runoff" 1 4
# 60 units an interval: floor(.33 times 60, 120 and 180) is 19, 39 and 59
sheet "$(tables 0.33 A 3 '1,19,0,19,1900,0,\n2,20,0,20,,2000,0\n3,20,0,20,,,2000\nsum,,,,1900,2000,2000\n' \
    '1,0.000032,0.000000,0.000032,0.000032,0.000000,\n2,0.000033,0.000000,0.000033,,0.000033,0.000000\n3,0.000033,0.000000,0.000033,,,0.000033\nsum,,,,0.000032,0.000033,0.000033\n')" \
    '*FREE\nIT 60,,,3\nJR PREC,.33\nKK A\nBA 1\nPI .0001,.0001,.0001\nLU\nUI 1,0\nZZ\n'
# a total of 60 units in sevenths: 8, 9, 8, 9, 8, 9, 9; of these ratio 0.50 makes
# 4, 4, 4, 5, 4, 4, 5
sheet "$(tables 1.00 A 7 '1,8,0,8,8,,,,,,\n2,9,0,9,,9,,,,,\n3,8,0,8,,,8,,,,\n4,9,0,9,,,,9,,,\n5,8,0,8,,,,,8,,\n6,9,0,9,,,,,,9,\n7,9,0,9,,,,,,,9\nsum,,,,8,9,8,9,8,9,9\n' \
    '1,0.000013,0.000000,0.000013,0.000000,,,,,,\n2,0.000015,0.000000,0.000015,,0.000000,,,,,\n3,0.000013,0.000000,0.000013,,,0.000000,,,,\n4,0.000015,0.000000,0.000015,,,,0.000000,,,\n5,0.000013,0.000000,0.000013,,,,,0.000000,,\n6,0.000015,0.000000,0.000015,,,,,,0.000000,\n7,0.000015,0.000000,0.000015,,,,,,,0.000000\nsum,,,,0.000000,0.000000,0.000000,0.000000,0.000000,0.000000,0.000000\n')" \
    '*FREE\nIT 60,,,7\nKK A\nBA 1\nPB .0001\nPI 1,1,1,1,1,1,1\nLU\nUI .01\nZZ\n'
sheet "$(tables 0.50 A 7 '4,5,4,1,,,,1,,,\n7,5,4,1,,,,,,,1\nsum,,,,0,0,0,1,0,0,1\n' \
    '4,0.000008,0.000007,0.000002,,,,0.000000,,,\n7,0.000008,0.000007,0.000002,,,,,,,0.000000\nsum,,,,0.000000,0.000000,0.000000,0.000000,0.000000,0.000000,0.000000\n')" \
    '*FREE\nIT 1,,,7\nJR PREC,.5\nKK A\nBA 1\nPB .0001\nPI 1,1,1,1,1,1,1\nLU ,.0004\nUI .01\nZZ\n'
# no total, and no pattern
sheet "$(tables 1.00 A 2 'sum,,,,0,0\n' 'sum,,,,0.000000,0.000000\n')" '*FREE\nIT 60,,,2\nKK A\nBA 1\nPB\nPI 0\nLU\nUI 1\nZZ\n'

# how the cards are read: both forms, lists on several lines and among each other,
# blanks in them, and nothing from the blocks before
both_forms='IT    15  600000   X 1 2       4\nKK,,A,  TEXT\nBA     1\nPI    .5      .3\n*FREE\nUI 10\nPI .1\nKM *FIX\nUI\nUI ,\nUI 4\nLU .5,.4\n'
sheet "${up_sheet//,UP/,,,A,}" "${both_forms}ZZ\nPI 3\nUI 3\nLU 0,0\nPB 1\nKK B\n\x01"
sheet "${up_sheet//,UP/,,,A,}" "${both_forms}KK B\nPI 9,9,9,9\nPB 1\nUI 7,7,7\nLU 1,1\nBA 1\nKK C\nHC 2\nZZ\n" 1
sheet "$(tables 1.00 B 4 '2,600000,0,600000,,60000000,0,60000000\nsum,,,,0,60000000,0,60000000\n' \
    '2,1.000000,0.000000,1.000000,,1.000000,0.000000,1.000000\nsum,,,,0.000000,1.000000,0.000000,1.000000\n')" \
    "${both_forms}KK B\nPI ,1\n*FIX\nLU\nBA   1.5\nUI     1               1\nKK C\n*FREE\nHC 2\nZZ\n" 2

# several cases, and where they end
bundle --sheet '' "$ok" ''
bundle --sheet "$up_sheet--\nREFUSED 2 0\n--\nNO SHEET 3\n--\nREFUSED 16 0\n--\n$third--\n" "$ok" \
    "$(sheet_of 1 0 "$pond")$(sheet_of 1 1 "$long")$(sheet_of 4 1 "$pond")$(sheet_of 0 0 '')$(sheet_of 0 3 "$jr_runoff")"
for rest in '\x01' "$(le4 1)" "$(le4 1)$(le4 0)" "$(le4 1)$(le4 0)\x01\x00\x00" "$(le4 1)$(le4 0)$(le4 3)ZZ" "$(le4 1)$(le4 0)$(le4 100000)$long"; do
    bundle --sheet "$up_sheet--\n" '2, said' "$(sheet_of 1 0 "$pond")$rest"
done
check 'two modes, one of them the sheet' 'status 2, said' "$(run --sheet --mover </dev/null)"

# An engine that writes a share where it is to add it: the sheet does not add up,
# and the program says so.  Where no two shares meet there is nothing to say.
sed 's/flow\[i + j\] +=/flow[i + j] =/' engine.c >"$scratch/engine.c"
cmp -s engine.c "$scratch/engine.c"
check 'an engine is spoilt' 1 $?
spoilt=$scratch/spoilt
# shellcheck disable=SC2086
"${CC:-gcc}" -std=c11 -I. -o "$spoilt" ${sources/engine.c/$scratch/engine.c} || exit 1
got=$(printf '%b' "$(sheet_of 1 0 "$pond")$(sheet_of 1 1 "$jr_runoff")$(sheet_of 1 0 "$pond")" | "$spoilt" --sheet 2>&1; echo "status $?")
check 'a sheet that does not add up' "$(printf '%b' "$up_sheet--\nhec1: the sums of a sheet are not the ordinates of its block\nstatus 2")" "$got"

# ---- Ponds (document 02, CR 6) -----------------------------------------------

# pool MINUTES SV SQ QI [NQ]: an inflow and a pond; RS, SV and SQ on lines 6 to 8,
# ZZ on the ninth
pool() { printf '*FREE\\nIT %s,,,%s\\nKK A\\nQI %s\\nKK P\\nRS 1,STOR,0\\nSV %s\\nSQ %s\\nZZ\\n' "$1" "${5:-4}" "$4" "$2" "$3"; }

# A worked example.  Of 121 minutes 1,452 are 12 times as many.  So in hundredths,
# M times 600,000 units each, a row's W is 12 SV + SQ, and an interval adds old and
# new inflow and takes off the old outflow twice.
#
#   SV 0, 1, 4 acre-feet; SQ 0, 2, 24 cfs; W 0, 12 x 100 + 200 = 1,400 and
#   12 x 400 + 2,400 = 7,200, or 0; 840,000,000; 4,320,000,000 in M units.
#   From the first row to the second a seventh of W flows out, 120 of 840; from
#   there to the third 1,320 of 3,480, that is 11 of 29.
#
#   in   W                                                    out
#    0   0                                                    0
#    7   0 + 0 + 420,000,000 - 0 = 420,000,000                a seventh: 60,000,000
#   21   420,000,000 + 420,000,000 + 1,260,000,000
#          - 120,000,000 = 1,980,000,000                      120,000,000 + 11/29 of 1,140,000,000,
#                                                             432,413,793.1: 552,413,793
#   15   1,980,000,000 + 1,260,000,000 + 900,000,000
#          - 1,104,827,586 = 3,035,172,414                    + 11/29 of 2,195,172,414,
#                                                             832,651,605.3: 952,651,605
#    4   3,035,172,414 + 900,000,000 + 240,000,000
#          - 1,905,303,210 = 2,269,869,204                    + 11/29 of 1,429,869,204,
#                                                             542,364,180.8: 662,364,180
#    0   2,269,869,204 + 240,000,000 + 0
#          - 1,324,728,360 = 1,185,140,844                    + 11/29 of 345,140,844,
#                                                             130,915,492.6: 250,915,492
#    0   1,185,140,844 + 0 + 0 - 501,830,984 = 683,309,860    a seventh, 97,615,694.3:
#                                                             97,615,694
worked=$(pool 121 0,1,4 0,2,24 0,7,21,15,4 7)
flows '0 60000000 552413793 952651605 662364180 250915492 97615694' "$worked"
lists 'A 2 0.00 21.00 3 2820000000\nP 5 0.00 15.88 4 2575960764\nEND 2\n' "$worked"
lists 'A 2 2.50 21.00 3 2820000000\nP 5 2.50 15.88 4 2575960764\nEND 2\n' "${worked/QI/BA 2.5\\nQI}"    # the area stays
full "7 2 1\n0 60000000 552413793 952651605 662364180 250915492 97615694\n4120202020200200fa00000000131a4b000000000300000000c915a800000000${whole}5020202020200500fa000000554fc8380000000004000000bc0a8a9900000000$whole\n0\n" \
    "${worked/QI/BA 2.5\\nQI}" --ordinates 7 --records 80
sheet 'NO SHEET 5\n' "$worked"
sheet 'NO SHEET 2\n' "$worked" 1
# in any order, on several lines, with blanks for the zeros, in both forms
pond_lines() { printf '*FREE\\nIT 121,,,7\\nKK A\\nQI ,7,21,15,4\\nKK P\\n%sZZ\\n' "$1"; }
for body in 'SQ 0,2,24\nSV 0,1,4\nRS 1,STOR\n' 'SV ,1,4\nRS 1 STOR\nSQ ,2,24\n' 'SQ\nSV 0\nSQ 0\nSV 1\nRS +1.,STOR,-0\nSQ 2\nKM\nSV 4,,\nSQ 24\nSV\n' \
    "*FIX\n$(fixed SV '' 1 4)\n$(fixed RS 1 STOR 0)\n$(fixed SQ 0 2 24)\n" "*FIX\nRS1        STOR\nSV       1.      4.00\n*FREE\nSQ0,2\n*FIX\n$(fixed SQ 24)\n" \
    'RS 1,STOR,0,,,,,,,,,\nSV 0,1\nSV 4\nSQ 0.00,2.00\nSQ +24\n' 'RS1,STOR,0.\nSV0 1 4\nSQ,2,24\n'; do
    flows '0 60000000 552413793 952651605 662364180 250915492 97615694' "$(pond_lines "$body")"
done

# where 1,452 V is M Q, half of the old and the new inflow flows out: 22 cfs to an
# acre-foot in 66 minutes
flows '0 660000000 1320000000 1320000000 660000000 0' "$(pool 66 0,1 0,22 0,22,22,22,0,0 6)"
flows '0 660000000 1320000000 1320000000 660000000 0' "$(pool 66 0,.25,.5,1 0,5.5,11,22 0,22,22,22,0,0 6)"
# rounded down: of 87,156,000,000 W to .01 cfs there are 108,000,000, and so on
flows '0 743 1982 2971' "$(pool 60 0,1 0,.01 .01,.02,.03,.01)"
flows '0 2887 7691 11517' "$(pool 7 0,.03,.08 0,.01,.05 .01,.02,.03,.01)"
# outflow that stays the same from a row on, and none below a row
flows '0 52631578 60000000 60000000' "$(pool 60 0,.1,1 0,1,1 1,2,3,4)"
flows '0 10950283 98457971 168654339' "$(pool 60 0,.1,1 0,0,10 1,2,3,4)"
flows '0 0 0 0' "$(pool 60 0,1 0,0 1,2,3,4)"
# more than comes in, where a small rise lets out much
flows '0 0 9470450628 2536541065 9456481328 2550482221 9442568259 2564367261' "$(pool 60 0,10,10.01 0,0,240 100,100,100,100,100,100,100,100 8)"
# no inflow, and one ordinate: the first outflow is 0 whatever comes in
flows '0 0 0 0' "$(pool 60 0,1 0,1 0)"
flows '0 0 0 0' "$(pool 60 0,1 0,1 '')"
flows '0' "$(pool 60 0,.01 0,0 100000 1)"
flows '0' "$(pool 1440 0,.01 0,0 100000 1)"
# the largest table and flows: products beyond 64 bits
flows '0 5975104034434 3012344681266 12499204909' "$(pool 1440 0,99999.99 0,100000 100000,100000)"
flows '0 2987552017217 5987500366459 5999948134925' "$(pool 1440 0,99999.99 0,100000 0,100000,100000,100000)"
# W that lands on the last row, on an inner row and between: 60 minutes, rows of
# 1,452 x 5 + 60 x 121 = 60 x 242 hundredths
flows '0 72600000 72600000 0' "$(pool 60 0,.05 0,1.21 0,2.42)"
flows '0 72600000 72600000 0' "$(pool 60 0,.05,1 0,1.21,9 0,2.42)"
flows '0 0 0 72600000' "$(pool 60 0,.05 0,1.21 ,,,2.42)"
flows '0 72600000 72600000 72600000' "$(pool 60 0,.05 0,1.21 2.42,0,2.42,0)"
refused 20 9 "$(pool 60 0,.05 0,1.21 0,2.43)"
refused 20 9 "$(pool 60 0,.05 0,1.21 ,,,2.43)"          # in the last interval alone
refused 20 9 "$(pool 60 0,.05 0,1.21 2.43)"
refused 20 9 "$(pool 60 0,.05 0,1.20 0,2.42)"
refused 20 9 "$(pool 60 0,.01 0,0 100000)"
flows '0 72600000 72600000 0' "$(pool 60 0,.05,.06 0,1.21,1.21 0,2.42)"
# by a single unit of W: 14.52 cfs for a minute fill .01 acre-foot, and a depth of
# one unit runs off besides
drop_in() { printf '*FREE\\nIT 1,,,2\\nKK A\\nQI 0,14.52\\nKK U\\nBA 1\\nPI ,.0001\\nLU ,%s\\nUI .01\\nKK C\\nHC 2\\nKK P\\nRS 1,STOR\\nSV 0,.01\\nSQ 0,0\\nZZ\\n' "$1"; }
flows '0 0' "$(drop_in .006)"
text=$(drop_in .0059)
flows '0 871200001' "${text/SV 0,.01/SV 0,.02}" 3
refused 20 16 "$(drop_in .0059)"

# ponds below ponds, and what a pond takes: the one held last
text=$(pool 66 0,1 0,22 0,22,22,22,0,0 6)
flows '0 330000000 990000000 1320000000 990000000 330000000' "${text%'ZZ\n'}KK Q\nRS 1,STOR\nSV 0,1\nSQ 0,22\nZZ\n"
flows '0 0 0 0' "${free}KK Z\nQI 9,9,9,9\nKK A\nQI 0\nKK B\nRS 1,STOR\nSV 0,1\nSQ 0,1\nKK C\nHC 2\nZZ\n" 3
flows '540000000 540000000 540000000 540000000' "${free}KK Z\nQI 9,9,9,9\nKK A\nQI 0\nKK B\nRS 1,STOR\nSV 0,1\nSQ 0,1\nKK C\nHC 2\nZZ\n"
lists 'A 2 1.50 1.00 1 60000000\nB 2 2.25 0.00 1 0\nR 5 2.25 0.00 1 0\nD 3 3.75 1.00 1 60000000\nEND 4\n' \
    "${free}KK A\nBA 1.5\nQI 1\nKK B\nQI 0\nBA 2.25\nKK R\nRS 1,STOR\nSV 0,1\nSQ 0,1\nKK D\nHC 2\nZZ\n"
refused 15 47 "$free${twenty}KK B\nRS 1,STOR\nSV 0,1\nSQ 0,1\nZZ\n"     # twenty held: a pond adds none
# a table does not outlive its block
lake='KK P\nRS 1,STOR\nSV 0,1\nSQ 0,1\n'               # 4 lines
refused 19 13 "$free$inflow${lake}KK Q\nRS 1,STOR\nSV\nSQ\nZZ\n"
refused 9 10 "$free$inflow${lake}KK Q\nZZ\n"
refused 9 11 "$free$inflow${lake}KK Q\nRS 1,STOR\nZZ\n"

# 4, 5, 6 and 7
for line in rs Rs sv sq S SE SS SL 'R' ' RS' 'R S'; do refused 4 5 "$free$inflow$line 1,STOR\n"; done
for line in RS SV SQ 'RS 1,STOR' 'RS x' 'SV 0,1' 'SV x' 'SQ -1'; do
    refused 5 1 "$line\n"
    refused 5 3 "$free$line\nKK A\n"
done
for fields in 1,STOR 1,STOR,0 '' x 2,STOR 1,FLOW 1,STOR,1 1,STOR,0,0; do
    refused 5 5 "${free}KK P\nRS 1,STOR,0\nRS $fields\nZZ\n"
    refused 5 8 "${free}KK P\nRS 1,STOR,0\nSV 0,1\nKM\nSQ 0,1\nRS $fields\nZZ\n"
done
refused 5 6 "${free}KK P\nRS 1,STOR\nHC 2\nRS 1,STOR\nZZ\n"     # even where RS makes no set
# rs FIELDS: an RS line, the sixth, of a pond that would be accepted
rs() { printf '%s%sKK P\\nRS %s\\nSV 0,1\\nSQ 0,1\\nZZ\\n' "$free" "$inflow" "$1"; }
lake_list="${one_a}P 5 0.00 0.04 2 6590959\nEND 2\n"
for fields in 1,STOR 1,STOR,0 1,STOR,-0 +1.,STOR,0. 000000001,STOR,000000000; do lists "$lake_list" "$(rs "$fields")"; done
for fields in 1,STOR,. 1.5,STOR 1.05,STOR,0 x,STOR 1-,STOR ,STOR,x 1,STOR,0.5 1,STOR,.5 1,STOR,x 1,STOR,- 0000000001,STOR 1,STOR,0000000000 \
    1,STOR,0,0 1,STOR,0,1 1,STOR,,0 1,STOR,,,x 1,STOR,,,,,,,,0 1,STOR,,,,,,,,,0 STOR,1 STOR 1.5,FLOW x,,1 2,FLOW,x 0,STOR,0,0 1,,0,0 \
    1,STOR,1,0 '1 ST OR' '1 STOR R' 1,S,T,O,R; do
    refused 6 6 "$(rs "$fields")"
done
for fields in '' , ,,, 0,STOR 2,STOR -1,STOR ,STOR ,STOR,0 50,STOR 999999999,STOR 1 1, 1,,0 1,stor 1,Stor 1,STOr 1,STO 1,STORE 1,STOR1 1,STORAGE 1,STORSTORSTORSTOR \
    1,FLOW 1,ELEV 1,1 1,0 1,STOR. 1,-STOR 1,PREC "1,'STOR'" 1,STOR,1 1,STOR,-1 1,STOR,+2. 1,STOR,999999999 0,FLOW,1 2 -1 0; do
    refused 7 6 "$(rs "$fields")"
done
fix_rs="$(fixed IT 60 '' '' 4)\nKK A\n$(fixed QI 1)\nKK P\n$(fixed SV 0 1)\n$(fixed SQ 0 1)\n"     # 6 lines
lists "$lake_list" "$fix_rs$(fixed RS 1 STOR 0)\nZZ\n"
lists "$lake_list" "${fix_rs}RS1       STOR\nZZ\n"
for line in "$(fixed RS 1 'ST OR')" "$(fixed RS 1 'STOR 0')" "$(fixed RS 1 STOR,0)" "$(fixed RS 1 'S T O R')" "$(fixed RS 1 stor)" "$(fixed RS 1)" \
    "$(fixed RS '' STOR)" "$(fixed RS 1 STOR 1)" RS "$(fixed RS 1 STORSTOR)"; do
    refused 7 7 "$fix_rs$line\nZZ\n"
done
for line in "$(fixed RS 1,STOR)" "$(fixed RS 1 STOR 0.5)" "$(fixed RS '1 1' STOR)" "$(fixed RS 1 STOR 0 0)" "$(fixed RS 1 STOR '' '' '' '' '' '' '' 0)" \
    "$(fixed RS 1 '' STOR)" 'RS 1 STOR' 'RS     1   STORAGE OF A LAKE'; do
    refused 6 7 "$fix_rs$line\nZZ\n"
done
# table SV SQ: lines 7 and 8 of a pond in 60 minutes; the first is 0, so W is 0 too
table() { pool 60 "$1" "$2" 0; }
for value in 99999.99 000099999. .01 +1; do flows '0 0 0 0' "$(table "0,$value" 0,-0)"; done
for value in 100000 100000.00 -.01 -1 999999999 1,-1; do refused 7 7 "$(table "0,$value" 0,1)"; done
for value in 1.001 x 1- .001 0.0010 0000000001 . 1,x 1,2,3,4,5,6,7,8,9,10,11; do refused 6 7 "$(table "0,$value" 0,1)"; done
flows '0 0 0 0' "$(table 0,99999.99 0,100000)"
flows '0 0 0 0' "$(table 0,99999.99 0,100000.00)"
for value in 100000.01 100001 -.01 -1 999999999 1,-1; do refused 7 8 "$(table 0,1 "0,$value")"; done
for value in 1.001 x 1- .005 0.0050 0000000001 . 1,x 1,2,3,4,5,6,7,8,9,10,11; do refused 6 8 "$(table 0,1 "0,$value")"; done

# 8: twenty values of each, on two lines and on twenty
ten=0,1,2,3,4,5,6,7,8,9
more=10,11,12,13,14,15,16,17,18,19
twenty_rows="${free}KK A\nQI 0\nKK P\nRS 1,STOR\nSV $ten\nSV $more\n"    # 8 lines
flows '0 0 0 0' "${twenty_rows}SQ $ten\nSQ $more\nZZ\n"
refused 8 9 "${twenty_rows}SV 20\nSQ $ten\nSQ $more\nZZ\n"
refused 8 9 "${twenty_rows}SV 0\n"
refused 8 11 "${twenty_rows}SQ $ten\nSQ $more\nSQ 20\nZZ\n"
refused 8 13 "${twenty_rows}SQ $ten\nSV\nKM\nSQ ,,,,,,,,,9\nSQ ,0\nZZ\n"
refused 8 10 "${twenty_rows}SQ $ten\nSV ,1\nZZ\n"
singles=$(for k in $(seq 0 19); do printf 'SV %s\\nSQ %s\\n' "$k" "$k"; done)
flows '0 0 0 0' "${free}KK A\nQI 0\nKK P\n${singles}RS 1,STOR\nZZ\n"
refused 8 46 "${free}KK A\nQI 0\nKK P\n${singles}SQ 20\nRS 1,STOR\nZZ\n"
refused 8 6 "${free}KK A\nSV $ten\nSV $more\nSV 0\n"         # in any block
refused 9 6 "${free}KK A\nSV $ten\nSV $more\nZZ\n"

# 9: every choice of records with one of a pond's, behind two held hydrographs
pond_cards=('RS 1,STOR\n' 'SV 0,1\n' 'SQ 0,1\n')
: >"$scratch/sets"
text=
for ((set = 256; set < 2048; set++)); do
    body= count=0
    for ((k = 0; k < 11; k++)); do
        if ((set >> k & 1)); then
            if ((k < 8)); then body+=${cards[k]}; else body+=${pond_cards[k - 8]}; fi
            count=$((count + 1))
        fi
    done
    printf -v deck '%b' "${two}KK C\n${body}ZZ\n"
    printf '%b%s' "\\x$(printf '%02x' ${#deck})\\x00\\x00\\x00" "$deck" >>"$scratch/sets"
    if ((set == 1792)); then text+="REFUSED 15 11|--|"; else text+="REFUSED 9 $((8 + count))|--|"; fi
done
check 'sets with a record of a pond' "$text" "$("$prog" --bundle <"$scratch/sets" | tr '\n' '|')"

# 10, and 19 behind it
refused 10 7 "${free}KK P\nRS 1,STOR\nSV 0,1\nSQ 0,1\nZZ\n"
refused 10 7 "${free}KK P\nRS 1,STOR\nSV 0,1\nSQ 0,1\nKK Q\n"
refused 10 7 "${free}KK P\nRS 1,STOR\nSV 1\nSQ 0,1\nZZ\n"
refused 10 7 "${free}KK P\nRS 1,STOR\nSV\nSQ\nZZ\n"

# 19: bad SV SQ [MINUTES]
bad() { refused 19 9 "$(pool "${3:-60}" "$1" "$2" 0)"; }
bad '' ''
bad 0 0
bad 0 ''
bad '' 0
bad , ,
bad 0,1 0
bad 0 0,1
bad 0,1,2 0,1
bad 0,1 0,1,2
bad 0,1 ''
bad .01,1 0,1
bad 0,1 .01,1
bad .01,1 .01,1
bad 1,2 0,1
bad 0,0 0,0
bad 0,0 0,1
bad 0,1,1 0,1,2
bad 0,1,1 0,1,1
bad 0,1,2,2 0,1,2,3
bad 0,2,1 0,1,1
bad 0,2,1.99 0,0,0
bad 0,1,2,3,2.99 0,0,0,0,0
bad 0,1,2 0,2,1
bad 0,1,2 0,.02,.01
bad 0,1,2,3 0,1,1,.99
bad 0,1,,3 0,1,2,3
bad 0,1,2 0,1,
bad 0,1 0,24.21
bad 0,.05 0,1.22
bad 0,.01 0,14.53 1
bad 0,.01 0,.02 1440
bad 0,1,2 0,24.21,24.21
bad 0,1,2 0,24.2,48.41
flows '0 0 0 0' "$(pool 60 0,1 0,24.20 0)"         # 1,452 x 100 = 60 x 2,420
flows '0 0 0 0' "$(pool 60 0,1,1.01 0,24.2,24.2 0)"
flows '0 0 0 0' "$(pool 1 0,.01 0,14.52 0)"
flows '0 0 0 0' "$(pool 1440 0,.01 0,.01 0)"        # 1,452 over 1,440
flows '0 0 0 0' "$(pool 1440 0,1.20,99999.99 0,1.21,100000 0)"  # 1,452 x 120 = 1,440 x 121
bad 0,1.20 0,1.22 1440
bad 0,99999.99 0,100000.00,0 1440
# in its place: before 14 and 15, behind the line's own
bad_lake='KK P\nRS 1,STOR\nSV 0,0\nSQ 0,1\n'            # 4 lines
refused 19 11 "$two${bad_lake}ZZ\n"
refused 15 11 "$two${lake}ZZ\n"
refused 19 405 "$free$inflow$(times 198 'KK R\nRM 1,1,.2\n')${bad_lake}KK S\n"
refused 14 405 "$free$inflow$(times 198 'KK R\nRM 1,1,.2\n')${lake}KK S\n"
refused 6 9 "$free$inflow${bad_lake}KK ,\n"
refused 3 9 "$free$inflow${bad_lake}ZZ\x80\n"
refused 4 9 "$free$inflow${bad_lake}XX\n"
refused 9 10 "$free$inflow${bad_lake}BA 1\nZZ\n"
refused 16 0 "$free$inflow$bad_lake"
refused 13 8 "${free}KK A\nBA 1\nPI 20\nLU\nUI 5000.01\n${bad_lake}ZZ\n"    # the earlier line
refused 19 9 "$free$inflow${bad_lake}KK B\nBA 1\nPI 20\nLU\nUI 5000.01\nZZ\n"
refused 19 9 "$(pool 60 0,0 0,1 100000,100000)"         # 19 before 20
full "REFUSED 19 9\n0 0 0 0 0\n$(zeros 81)\n0\n" "$(pool 60 0,0 0,1 1)" --ordinates 5 --records 81 --named 1
full "REFUSED 19 9\n\n\n0\n" "$(pool 60 0,0 0,1 1)" --ordinates 0 --records 0 --named 9
full "REFUSED 20 9\n0 0 0 0 0\n$(zeros 81)\n0\n" "$(pool 60 0,.01 0,0 1)" --ordinates 5 --records 81 --named 1
full "REFUSED 20 9\n\n\n0\n" "$(pool 60 0,.01 0,0 1)" --ordinates 0 --records 0 --named 9
full "REFUSED 1 0\n0\n00\n0\n" "$(pool 60 0,.01 0,0 1)" --ordinates 1 --records 1 --work 5999
full "REFUSED 17 0\n0 0 0\n$(zeros 80)\n0\n" "$(pool 60 0,1 0,1 1)" --ordinates 3 --records 80

# 20 beside others of its line
over_lake='KK P\nRS 1,STOR\nSV 0,.01\nSQ 0,0\n'         # 4 lines; an inflow of 1 cfs is too much
refused 20 9 "$free$inflow${over_lake}ZZ\n"
refused 20 11 "$two${over_lake}ZZ\n"                    # 20 before 15
refused 20 405 "${free}KK A\nQI 1,1,1,1\n$(times 198 'KK R\nRM 1,1,.2\n')${over_lake}KK S\n"    # and before 14
refused 6 9 "$free$inflow${over_lake}KK ,\n"
refused 9 10 "$free$inflow${over_lake}QI 1\nZZ\n"
refused 16 0 "$free$inflow$over_lake"

# 20 under a ratio.  A has 100 cfs in its first interval, times the ratio; the
# pond holds just that under 1.00: 1,452 x 250 + 60 x 3,950 = 60 x 10,000.
dam() { printf '%sJR PREC,%s\\n%sKK A\\nBA 1\\nPB 100\\nPI 1\\nLU\\nUI 1\\nKK P\\nRS 1,STOR\\nSV 0,2.5\\nSQ 0,39.5\\n%s' "$free" "$1" "${3:-}" "${2:-ZZ\\n}"; }
flows '0 2370000000 497700000 104517000' "$(dam 1)"
flows '0 1185000000 248850000 52258500' "$(dam .5)"
flows '0 2370000000 497700000 104517000' "$(dam .5,1,.01)" 2 2
lists 'RATIO 1.00\nA 1 1.00 100.00 1 6000000000\nP 5 1.00 39.50 2 2972217000\nRATIO 0.50\nA 1 1.00 50.00 1 3000000000\nP 5 1.00 19.75 2 1486108500\nEND 2\n' "$(dam 1,.5)"
for ratios_given in 1.01 1,1.01 1.01,1 .5,1.01,1 9.99,.01 .01,.01,.01,9.99; do refused 20 14 "$(dam "$ratios_given")"; done
full "REFUSED 20 14\n0 0 0 0\n$(zeros 160)\n0\n" "$(dam 1,1.01)" --ordinates 4 --records 160 --named 1 --ratio 1
# 15 under the other ratio, at the same line, and 14
refused 15 16 "$(dam 1 '' "$inflow")"
refused 20 16 "$(dam 1,1.01 '' "$inflow")"
refused 20 16 "$(dam 1.01,1 '' "$inflow")"
refused 14 410 "$(dam 1 'KK S\n' "$inflow$(times 197 'KK R\nRM 1,1,.2\n')")"
refused 20 410 "$(dam 1,1.01 'KK S\n' "$inflow$(times 197 'KK R\nRM 1,1,.2\n')")"
refused 20 410 "$(dam 1.01,1 'KK S\n' "$inflow$(times 197 'KK R\nRM 1,1,.2\n')")"
# what stands behind the line is hidden, and what stands before it comes first
for rest in XX ID 'QI -1' 'BA x' '\x80' ZZ ''; do
    refused 20 14 "$(dam 1,1.01 "KK B\n$rest\n")"
    refused 20 14 "$(dam 1.01,1 "KK B\n$rest\n")"
done
refused 4 15 "$(dam 1,.99 'KK B\nXX\n')"
refused 6 14 "$(dam 1,1.01 'KK ,\n')"
flood_b='KK B\nBA 1\nPB 100\nPI 1\nLU\nUI 1000.01\n'   # 6 lines, 100,001 cfs under 1.00
refused 13 20 "$(dam 1 "${flood_b}ZZ\n")"
refused 20 14 "$(dam 1,1.01 "${flood_b}ZZ\n")"          # 13 under 1.00, at a later line
refused 20 14 "$(dam 1.01,1 "${flood_b}ZZ\n")"
refused 13 10 "$(dam 1,1.01 'ZZ\n' "$flood_b")"         # 13 at an earlier line
refused 13 10 "$(dam .5,1.01,1 'ZZ\n' "$flood_b")"
refused 13 10 "$(dam .99,1.01 'ZZ\n' "$flood_b")"       # under 1.01 alone, which meets 20 later
refused 20 20 "$(dam .99,1.01 'ZZ\n' "${flood_b/1000.01/900}")"
# 19 knows no ratio
refused 19 14 "$(dam .01,9.99 | sed 's/SQ 0,/SQ 1,/')"

# Any pond, worked in another way: in doubles, which are exact up to 2^53, with
# the share of a row found bit by bit.  Tables and flows are kept so small that
# three times a row's W stays below that.
pools=200
awk -v n="$pools" -v scratch="$scratch" '
    function chance(below) {
        seed = seed * 16807 % 2147483647
        return seed % below
    }
    function hundredths(v) { return sprintf("%d.%02d", (v - v % 100) / 100, v % 100) }
    function share(rise, above, span,    bit, whole, rest, q) {
        whole = rest = 0
        for (bit = 2 ^ 42; bit >= 1; bit /= 2) {
            rest *= 2
            if (rise >= bit) {
                rise -= bit
                rest += above
            }
            q = (rest - rest % span) / span
            rest -= q * span
            whole = 2 * whole + q
        }
        return whole
    }
    function one(k,    nq, rows, i, m, most, sv, sq, qi, deck, out, r) {
        nq = chance(3) ? 1 + chance(24) : 1 + chance(100)
        rows = chance(4) ? 2 + chance(19) : 2
        m = chance(3) ? 1 + chance(1440) : 60
        v[0] = q[0] = 0
        sv = sq = "0"
        for (i = 1; i < rows; i++) {
            v[i] = v[i - 1] + 1 + chance(chance(2) ? 30 : 3000)
            most = (1452 * v[i] - 1452 * v[i] % m) / m
            if (most > 1000000) most = 1000000
            q[i] = chance(4) == 0 ? q[i - 1] : chance(3) == 0 ? most : q[i - 1] + chance(most - q[i - 1] + 1)
            sv = sv (i % 8 ? "," : "\nSV ") hundredths(v[i])
            sq = sq (i % 8 ? "," : "\nSQ ") hundredths(q[i])
        }
        for (i = 0; i < rows; i++) w[i] = 600000 * (1452 * v[i] + m * q[i])
        most = 1 + chance(2) * chance(100) + (w[rows - 1] / 600000 / m / (1 + chance(nq)) - 0.5) % 1000000
        most -= most % 1
        qi = ""
        for (i = 1; i <= nq; i++) {
            in_[i] = chance(3) ? 0 : chance(most + 1)
            qi = qi (i % 8 == 1 ? (i > 1 ? "\n" : "") "QI " : ",") hundredths(in_[i])
            in_[i] *= 600000
        }
        deck = scratch "/pool." k
        printf "*FREE\nIT %d,,,%d\nKK A\n%s\nKK P\nSQ %s\nRS 1,STOR\nSV %s\nZZ\n", m, nq, qi, sq, sv >deck
        close(deck)
        out = "0"
        water = flow = 0
        for (i = 2; i <= nq; i++) {
            water += m * (in_[i - 1] + in_[i]) - 2 * m * flow
            if (water > w[rows - 1]) {
                out = "REFUSED 20"
                break
            }
            for (r = rows - 2; r > 0 && w[r] > water; r--) ;
            flow = 600000 * q[r] + share(600000 * (q[r + 1] - q[r]), water - w[r], w[r + 1] - w[r])
            out = out sprintf(" %.0f", flow)
        }
        print nq
        print out
    }
    BEGIN {
        seed = 20261116
        for (k = 1; k <= n; k++) one(k)
    }' >"$scratch/pools"
over=0
for ((k = 1; k <= pools; k++)); do
    read -r nq && read -r text || break
    if [ "$text" = 'REFUSED 20' ]; then
        over=$((over + 1))
        got=$("$prog" <"$scratch/pool.$k")
        got=${got% *}
    else
        got=$("$prog" --full --ordinates "$nq" <"$scratch/pool.$k" | sed -n 2p)
    fi
    check "pond $k" "$text" "$got"
done <"$scratch/pools"
check 'as many ponds as were asked for' $((pools + 1)) "$k"
check 'some of them too small' yes "$([ "$over" -gt 10 ] && [ "$over" -lt $((pools / 2)) ] && echo yes)"

# ---- Trailing zeros (document 02, CR 7) --------------------------------------

# unit_deck VALUE: an inch of rain on one unit ordinate, UI on line 7; each
# hundredth of it makes 600,000 flow units
unit_deck() { printf '%sKK A\\nBA 1\\nPI 1\\nLU\\nUI %s\\nZZ\\n' "$free" "$1"; }
# reads UNITS VALUE...: UI is read as so many flow units
reads() {
    local units=$1 value
    shift
    for value in "$@"; do flows "$units 0 0 0" "$(unit_deck "$value")"; done
}
reads 90000000 1.5 1.50 1.500 1.5000 1.50000000 +1.500 01.500 0001.50000 +000001.500 00000001.5
reads 30000000 .5 .50 .500 0.500 00.50 00.5000000 .500000000 +.500
reads 63000000 1.05 1.050 1.0500 1.05000000         # a zero inside stays
reads 60600000 1.01 1.010 1.01000000
reads 600000 .01 .010 0.010 .010000000
reads 300000000 5 5. 5.0 5.00 5.000 5.00000000 05.0
# zeros before the point are digits like others
reads 600000000 10 10. 10.0 10.000 10.0000000 010.00
reads 6000000000 100 100. 100.0 100.000 100.000000 000100.00
reads 630000000 10.5 10.50 10.500
reads 603000000 10.05 10.0500000
reads 5999999400000 99999.99 99999.990 99999.9900
reads 0 0 0. 0.0 0.00 0.000 0.00000000 .0 .00 .000 .000000000 000.000 -0 -0. -0.0 -0.000 -.0 -.000000000 +0.000 +.0
# nine digits as written, zeros and all
for value in 1.500000000 01.50000000 0000001.500 150.0000000 5.000000000 00.00000000 .0000000000 0.000000000 -0.000000000 -.0000000000 \
    1.50000000000000000000 00000000.50 1000000000. 100000000.0; do
    refused 6 7 "$(unit_deck "$value")"
done
# places that are left, whatever stands before and behind them
for value in 1.501 1.001 1.0010 1.00100 1.0000001 .001 .0010 0.00100000 1.5001 1.50010 .00000001 100000.001 -0.001 -1.0010; do
    refused 6 7 "$(unit_deck "$value")"
done
# zeros make no number of what is none
for value in . +. -. 1.0.0 1..0 .0. 0.0x x.0 1.0- -+0.0 --0.0 1.0e0 1.0+ 1,0.0.0 '1.00 .'; do refused 6 7 "$(unit_deck "$value")"; done
for value in 100000.000 -.010 -1.000 -0.0100 999999.000; do refused 7 7 "$(unit_deck "$value")"; done

# every record: read, places left (6), outside the limits (7)
for value in 60.0 60.000 60.0000000 060.0 +60.00 1.0 1440.0 1440.00000; do lists "$one" "$(it "$value,,,4")"; done
for value in 60.5 60.50 60.05 60.0001 60.10 .5 1440.01 60.00000000 -0.5; do refused 6 2 "$(it "$value,,,4")"; done
for value in 0.0 .0 -0.0 1441.0 1441.0000 -60.0; do refused 7 2 "$(it "$value,,,4")"; done
for value in 4.0 4.000 4.00000000 300.0 300.000000 1.0 +04.0; do lists "$one" "$(it "60,,,$value")"; done
for value in 4.5 4.50 4.01 4.0010 .5 4.000000000; do refused 6 2 "$(it "60,,,$value")"; done
for value in 0.0 .000 301.0 301.000 -4.0; do refused 7 2 "$(it "60,,,$value")"; done
lists "$one" "$(it 60.0,0.0.0,1.5.,4.0)"            # fields 2 and 3 are not read
takes PREC,1.500 1.50
takes PREC,1.50000000,1.,9.990,0.0100,.010,+1.5000 1.50 1.00 9.99 0.01 0.01 1.50
for fields in 1.501 1.001 1.0010 9.9901 .001 1.500000000 1.500,1.501; do refused 6 3 "$(jr "PREC,$fields")"; done
for fields in 10.000 9.9900,0.000 .0 .000 -0.0 -1.500 1.500,10.0000; do refused 7 3 "$(jr "PREC,$fields")"; done
for value in 1.500 1.5000000 01.500; do lists "$(ba 1.50)" "${area}BA $value\nZZ\n"; done
for value in .010 0.01000000; do lists "$(ba 0.01)" "${area}BA $value\nZZ\n"; done
for value in 9999.990 9999.99000; do lists "$(ba 9999.99)" "${area}BA $value\nZZ\n"; done
for value in 1.501 .001 .0010 1.0010 1.500000000 9999.991; do refused 6 5 "${area}BA $value\nZZ\n"; done
for value in 0.000 .0 .000 -0.000 -.010 10000.000 -1.500; do refused 7 5 "${area}BA $value\nZZ\n"; done
for value in 100.00000 100.000000 +100.00000 0100.00000; do flows '6000000000 0 0 0' "$(storm "$value" 1)"; done
flows '5999994000 0 0 0' "$(storm 99.9999000 1)"
for value in 100.00001 .00001 .000010 4.3700010 100.0000000; do refused 6 5 "$(storm "$value" 1)"; done
for value in 100.00010 100.000100 101.00000 -.00010 -1.00000; do refused 7 5 "$(storm "$value" 1)"; done
drops_deck="${free}KK A\nBA 1\nLU\nUI 0.0100\n"     # 6 lines
for value in 20.0000000 20.00000 +20.000000 020.00000; do flows '12000000 0 0 0' "${drops_deck}PI $value\nZZ\n"; done
flows '60 600 6060 0' "${drops_deck}PI .00010,0.0010000,.010100,-0.00000\nZZ\n"
for value in 20.00001 .00001 .000010 0.00010001 20.00000000; do refused 6 7 "${drops_deck}PI $value\nZZ\n"; done
for value in 20.00010 20.000100 21.00000 -.000100 -1.00000; do refused 7 7 "${drops_deck}PI $value\nZZ\n"; done
wet_deck="${free}KK A\nBA 1\nPI 20\nUI 0.01\n"      # 6 lines
for value in 20.00000,0 0,20.00000 20.0000000,.00000,.000; do flows '0 0 0 0' "${wet_deck}LU $value\nZZ\n"; done
for value in 19.99990,0 0.0,19.999900 19.9999000,-0.0,0.000 19.9999,,-0.0000; do flows '60 0 0 0' "${wet_deck}LU $value\nZZ\n"; done
for value in 19.99991 0,19.99999 0,0,0.001 0,0,.0010 0,0,0.000000000 .00001; do refused 6 7 "${wet_deck}LU $value\nZZ\n"; done
for value in 20.00010 0,20.000100 -1.00000 0,-.00010 0,0,0.010 0,0,1.000 0,0,-.0100; do refused 7 7 "${wet_deck}LU $value\nZZ\n"; done
flows '0 6000000000000 600000 90000000' "${free}KK A\nQI -0.000,100000.000,0.0100,1.500\nZZ\n"
for value in 100000.001 1.001 .125 1.500,1.501 100000.0000; do refused 6 4 "${free}KK A\nQI $value\nZZ\n"; done
for value in 100000.010 -.010 1.500,-1.000 100001.000; do refused 7 4 "${free}KK A\nQI $value\nZZ\n"; done
refused 6 4 "${free}KK A\nQI 100000.010,1.001,1.000,1.000,1.000\nZZ\n"      # 6, then 7, then 8
refused 7 4 "${free}KK A\nQI 100000.010,1.000,1.000,1.000,1.000\nZZ\n"
refused 8 4 "${free}KK A\nQI 100000.000,1.000,1.000,1.000,1.000\nZZ\n"
pair_deck="$free$inflow${inflow}KK C\n"             # 7 lines
for value in 2.0 2.000 02.0 2.00000000; do flows '120000000 0 0 0' "${pair_deck}HC $value\nZZ\n"; done
for value in 2.5 2.50 2.05 2.000000000; do refused 6 8 "${pair_deck}HC $value\nZZ\n"; done
for value in 1.0 6.0 0.0 .0 -2.0; do refused 7 8 "${pair_deck}HC $value\nZZ\n"; done
reach_deck='*FREE\nIT 60,,,4\nKK A\nQI 1,2,3,4\nKK B\n'     # 5 lines
for value in 1.0,1.000,0.500 1.000,1.0000000,.5000 01.0,01.000,00.50; do
    flows '60000000 60000000 120000000 180000000' "${reach_deck}RM $value\nZZ\n"
done
for value in 1.5,1,.2 1.50,1,.2 1,1.001,.2 1,1.0010,.2 1,1,.201 1,1,.0010 1.000000000,1,.2; do refused 6 6 "${reach_deck}RM $value\nZZ\n"; done
for value in 51.0,1,.2 0.0,1,.2 -1.0,1,.2 1,24.010,0 1,0.000,.2 1,-1.000,0 1,1,.510 1,1,0.5100 1,1,-.010 1,1,1.000; do
    refused 7 6 "${reach_deck}RM $value\nZZ\n"
done
for fields in 1.0,STOR 1.000,STOR,0.0 1.,STOR,.0 +1.0,STOR,-0.000 1.00000000,STOR,.000000000; do lists "$lake_list" "$(rs "$fields")"; done
for fields in 1.5,STOR 1.50,STOR 1,STOR,0.5 1.0,STOR,.01 1,STOR,0.000000000 1.10,FLOW; do refused 6 6 "$(rs "$fields")"; done
for fields in 2.0,STOR 0.0,STOR 10.0,STOR -1.0,STOR 1,STOR,1.0 1.0,STOR,-1.000 1.0,FLOW 1.0; do refused 7 6 "$(rs "$fields")"; done
flows '0 0 0 0' "$(table 0.000,99999.990 .0,100000.000)"
flows '0 0 0 0' "$(table -0.0,.010 -.000,0.000)"
for value in 1.001 .0010 1.500000000; do refused 6 7 "$(table "0,$value" 0,1)"; refused 6 8 "$(table 0,1 "0,$value")"; done
for value in 100000.000 -.010 -1.0000; do refused 7 7 "$(table "0,$value" 0,1)"; done
for value in 100000.010 -.010 -1.0000; do refused 7 8 "$(table 0,1 "0,$value")"; done

# the deck of document 01 with zeros behind every number, in both forms
pond_zeros='ID POND\n*FREE\nIT 60.0,,,4.000\nKK UP\nBA 1.5000\nPI 0.50000,0.300000,0.1000000\nLU 0.50000,.10000,0.000\nUI 10.000,4.0\nKK RIV\nRM 1.0,1.000,0.20000\nKK SIDE\nQI 1.000,2.0,2.0000000,1.00000000\nKK OUT\nHC 2.0\nZZ\n'
lists "$pond_list" "$pond_zeros"
lists "$pond_list" "$(fixed IT 60.000 '' '' 4.000000)\nKK    UP\n$(fixed BA 1.5000)\n$(fixed PI .50000 0.300000 .1000000)\n$(fixed LU .50000 0.100000 0.000000)\n$(fixed UI 10.000 4.000000)\nKKRIV\n$(fixed RM 1.0000 1.000000 0.200000)\nKK SIDE\n$(fixed QI 1.0000 2.000000 2.000000 1.000000)\nKK OUT\n$(fixed HC 2.0000)\nZZ\n"
lists "RATIO 1.50\n${pond_up}RATIO 0.50\n${pond_down}END 4\n" "${pond_zeros/'KK UP'/'JR PREC,1.500,.50000\nKK UP'}"
sheet "$up_sheet" "$pond_zeros" 1
# in fixed form a field ends with its columns: the zeros go on in the next one
flows '90000000 0 0 0' "${fix}QI1.5000\nZZ\n"
flows '90000000 0 0 0' "${fix}QI1.500000\nZZ\n"     # 1.5000, and 00
flows '90000000 90000000 0 0' "$fix$(fixed QI 1.5000 1.500000)\nZZ\n"
refused 6 3 "$fix$(fixed QI 1.5001 1.500000)\nZZ\n"
refused 6 3 "$fix$(fixed QI 1.5000 1.500001)\nZZ\n"
refused 6 3 "${fix}QI1.5 00\nZZ\n"                  # a blank inside

# ---- The hydrograph in print -------------------------------------------------

# hydrograph LINES DECK [BLOCK [RATIO]]: the text of a case behind its head, the last
# block and ratio by default
text_head='interval,minutes,cfs,units\n'
hydrograph() { bundle --hydrograph "$text_head$1--\n" "$ok" "$(sheet_of "${3:-0}" "${4:-0}" "$2")"; }
# no_hydrograph NUMBER LINE DECK [BLOCK [RATIO]]
no_hydrograph() { bundle --hydrograph "REFUSED $1 $2\n--\n" "$ok" "$(sheet_of "${4:-0}" "${5:-0}" "$3")"; }

# the deck of document 01: P2, P3, the inflow and P4.  27,692,307 units are
# 461,538.45 millionths, 82,082,840 are 1,368,047.33, 44,788,348 are 746,472.47
up_text='1,60,0.000000,0\n2,120,2.000000,120000000\n3,180,0.800000,48000000\n4,240,0.000000,0\n'
riv_text='1,60,0.000000,0\n2,120,0.461538,27692307\n3,180,1.368047,82082840\n4,240,0.746472,44788348\n'
side_text='1,60,1.000000,60000000\n2,120,2.000000,120000000\n3,180,2.000000,120000000\n4,240,1.000000,60000000\n'
out_text='1,60,1.000000,60000000\n2,120,2.461538,147692307\n3,180,3.368047,202082840\n4,240,1.746472,104788348\n'
for text in 0 1; do     # the one ratio, as the last and as the first
    hydrograph "$up_text" "$pond" 1 "$text"
    hydrograph "$riv_text" "$pond" 2 "$text"
    hydrograph "$side_text" "$pond" 3 "$text"
    hydrograph "$out_text" "$pond" 4 "$text"
    hydrograph "$out_text" "$pond" 0 "$text"
done
hydrograph "$up_text" "${pond%'\n'}" 1
hydrograph "$riv_text" "${pond//'\n'/'\r\n'}" 2
hydrograph "$out_text" "${pond//'\n'/'\nKM IT 15\n   \n'}"
hydrograph "$out_text" "${pond}IT 15,,,2\nKK X\nQI 9\nZZ\n"         # behind ZZ
hydrograph "$riv_text" "$pond_zeros" 2

# what there is not is told last of all, and a deck that is refused has its own
# refusal whatever is named
for text in '5 0' '1 2' '5 2' '0 2' '4294967295 0' '1 4294967295' '256 0' '0 256' '65536 65536' '2147483648 1'; do
    no_hydrograph 17 0 "$pond" "${text% *}" "${text#* }"
    no_hydrograph 10 15 "${pond/HC 2/HC 3}" "${text% *}" "${text#* }"
done
no_hydrograph 10 15 "${pond/HC 2/HC 3}" 1 1
no_hydrograph 16 0 ''
no_hydrograph 16 0 "$free${inflow}" 1 1
no_hydrograph 3 5 "$free${inflow}ZZ\x80\n" 9 9
no_hydrograph 2 0 "$small$(pad 60001)"
no_hydrograph 2 0 "$small$(pad 60001)" 9 9
one_text='1,60,1.000000,60000000\n2,120,0.000000,0\n3,180,0.000000,0\n4,240,0.000000,0\n'
hydrograph "$one_text" "$small$(pad 60000)" 1 1

# the sixth place.  The loss leaves one depth unit, so a unit ordinate's hundredths
# are flow units: 29 are less than half a millionth, 30 are a half and 31 more.
hydrograph '1,1,0.000000,29\n2,2,0.000001,30\n3,3,0.000001,31\n4,4,0.000000,0\n' "$(runoff 1 4 ,.0059 .0001 .29,.3,.31)"
hydrograph '1,1,0.000001,89\n2,2,0.000002,90\n3,3,0.000002,91\n4,4,0.000000,0\n' "$(runoff 1 4 ,.0059 .0001 .89,.9,.91)"
hydrograph '1,1,0.000000,1\n2,2,0.000001,59\n3,3,0.000001,60\n4,4,0.000001,61\n' "$(runoff 1 4 ,.0059 .0001 .01,.59,.6,.61)"
hydrograph '1,1,0.099999,5999969\n2,2,0.100000,5999970\n3,3,0.100000,6000029\n4,4,0.100001,6000030\n' \
    "$(runoff 1 4 ,.0059 .0001 59999.69,59999.7,60000.29,60000.3)"
# up to a whole cfs and not quite: 30 times 1,999,999 depth units, 720 - 47 times
# 89,153; and under the flow limit by half a millionth
hydrograph '1,1,1.000000,59999970\n' "$(runoff 1 1 ,.0041 3.3334 .3)"
hydrograph '1,1,0.999999,59999969\n' "$(runoff 1 1 ,.0047 .0012 891.53)"
near_limit=$(runoff 1 1 ,.0041 3.3334 .3)
near_limit=${near_limit%'ZZ\n'}'KK B\nQI 99999\nKK C\nHC 2\nZZ\n'
hydrograph '1,1,100000.000000,5999999999970\n' "$near_limit"
no_hydrograph 13 12 "${near_limit/'QI 99999'/'QI 100000'}" 1
hydrograph '1,60,100000.000000,6000000000000\n2,120,99999.990000,5999999400000\n' '*FREE\nIT 60,,,2\nKK A\nQI 100000,99999.99\nZZ\n'
hydrograph '1,60,0.010000,600000\n2,120,10.100000,606000000\n' '*FREE\nIT 60,,,2\nKK A\nQI .01,10.1\nZZ\n'

# the listing's peak is rounded from the units, not from the six places
hydrograph '1,1,0.005000,299970\n' "$(runoff 1 1 ,.0059 .0001 2999.7)"
lists 'A 1 1.00 0.00 1 299970\nEND 1\n' "$(runoff 1 1 ,.0059 .0001 2999.7)"

# minutes, in both forms and as IT spells them; no flow at all; 1 and 300 lines
of_minutes() { printf '%sKK A\\nQI\\nZZ\\n' "$1"; }
hydrograph '1,1,0.000000,0\n2,2,0.000000,0\n' "$(of_minutes '*FREE\nIT 1,,,2\n')"
hydrograph '1,1440,0.000000,0\n2,2880,0.000000,0\n3,4320,0.000000,0\n' "$(of_minutes '*FREE\nIT 1440,,,3\n')"
hydrograph '1,7,0.000000,0\n2,14,0.000000,0\n' "$(of_minutes '*FREE\nIT +07.000,x,y,2.0\n')"
hydrograph '1,15,0.000000,0\n2,30,0.000000,0\n' "$(of_minutes 'ID *FREE\nKM\n\nIT    15      30      45       2\n')"
hydrograph '1,15,0.000000,0\n2,30,0.000000,0\n' "$(of_minutes '*FREE\n*FIX\nIT15      1,2     3 4     2\n')"
hydrograph '1,90,0.000000,0\n' "$(of_minutes '*FIX\n*FREE   \nKM IT 5\n\nIT90 1 1 1\n')"
text=
for ((k = 1; k <= 300; k++)); do text+="$k,$((1440 * k)),0.000000,0\n"; done
hydrograph "$text" "$(of_minutes '*FREE\nIT 1440,,,300\n')"

# a pond, as it is worked out above, and its inflow
hydrograph '1,121,0.000000,0\n2,242,1.000000,60000000\n3,363,9.206897,552413793\n4,484,15.877527,952651605\n5,605,11.039403,662364180\n6,726,4.181925,250915492\n7,847,1.626928,97615694\n' "$worked" 2
hydrograph '1,121,0.000000,0\n2,242,7.000000,420000000\n3,363,21.000000,1260000000\n4,484,15.000000,900000000\n5,605,4.000000,240000000\n6,726,0.000000,0\n7,847,0.000000,0\n' "$worked" 1

# two ratios: 1.50 makes other flows of the rain and of what is below it, 0.50
# none; the inflow is the same under both
two_storms=${jr_pond/1.00/'1.5,.5'}
none_text='1,60,0.000000,0\n2,120,0.000000,0\n3,180,0.000000,0\n4,240,0.000000,0\n'
more_text='1,60,1.500000,90000000\n2,120,4.100000,246000000\n3,180,1.900000,114000000\n4,240,0.200000,12000000\n'
hydrograph "$more_text" "$two_storms" 1 1
hydrograph "$none_text" "$two_storms" 1 2
hydrograph "$none_text" "$two_storms" 1 0
hydrograph '1,60,1.500000,90000000\n2,120,2.100000,126000000\n3,180,3.130769,187846153\n4,240,1.791716,107502959\n' "$two_storms" 2 1
hydrograph "$none_text" "$two_storms" 2 2
hydrograph "$side_text" "$two_storms" 3 1
hydrograph "$side_text" "$two_storms" 3 2
hydrograph '1,60,2.500000,150000000\n2,120,4.100000,246000000\n3,180,5.130769,307846153\n4,240,2.791716,167502959\n' "$two_storms" 0 1
hydrograph "$side_text" "$two_storms" 0 0
no_hydrograph 17 0 "$two_storms" 1 3
no_hydrograph 17 0 "$two_storms" 5 1
# refused under one of them, whichever is named
too_much="${free}JR PREC,1,1.01\nKK A\nBA 1\nPI 20\nLU\nUI 5000\nZZ\n"
for text in 0 1 2 3; do no_hydrograph 13 9 "$too_much" 1 "$text"; done

# several cases, and where they end
bundle --hydrograph '' "$ok" ''
bundle --hydrograph "$text_head$up_text--\nREFUSED 2 0\n--\n$text_head$riv_text--\nREFUSED 16 0\n--\n$text_head$more_text--\n" "$ok" \
    "$(sheet_of 1 0 "$pond")$(sheet_of 1 1 "$long")$(sheet_of 2 1 "$pond")$(sheet_of 0 0 '')$(sheet_of 1 1 "$two_storms")"
for rest in '\x01' "$(le4 1)" "$(le4 1)$(le4 0)" "$(le4 1)$(le4 0)\x01\x00\x00" "$(le4 1)$(le4 0)$(le4 3)ZZ" "$(le4 1)$(le4 0)$(le4 100000)$long"; do
    bundle --hydrograph "$text_head$out_text--\n" '2, said' "$(sheet_of 4 0 "$pond")$rest"
done
check 'two modes, one of them the hydrograph' 'status 2, said' "$(run --hydrograph --sheet </dev/null)"

# ---- Reasons -----------------------------------------------------------------

# reason NUMBER FORM TEXT LINE: what is said of a line refused by that number in
# the form, 0 fixed or 1 free; no text where nothing is said.
reason() { bundle --reason "${3:+$3\n}--\n" "$ok" "$(sheet_of "$1" "$2" "$4")"; }
# reasons TEXT6 TEXT7 FORM LINE: for both numbers
reasons() { bundle --reason "${1:+$1\n}--\n${2:+$2\n}--\n" "$ok" "$(sheet_of 6 "$3" "$4")$(sheet_of 7 "$3" "$4")"; }
# of_field TEXT6 TEXT7 LINE: the same in free form, behind FIELD
of_field() { reasons "${1:+FIELD $1}" "${2:+FIELD $2}" 1 "$3"; }

# the examples of the words
reason 7 1 'FIELD 4 LIMITS 0 1 300 400' 'IT 60,,,400'
reason 6 1 'FIELD 1 PLACES 2 1 999999 4 1.56780' 'BA 1.56780'
reason 6 1 'FIELD 2 NUMBER 2 0 10000000 2x' 'QI 1,2x'
reason 7 1 'FIELD 3 LIMITS 2 1 999 ' 'JR PREC,1,,2'
reason 6 1 'NAME RESERVOIR' 'KK RESERVOIR TWO'

# nothing: no line, 3, blank, unknown, text, control, nothing refused
for line in '' '\n' '   ' '     \r\n' '\nBA X' 'BA X\x00' 'BA X\t' 'BA X\x7f' 'BA X\x80\n' '\xffBA X' 'BA X\r' 'BA X\r\r\n' 'BA\rX\n' \
    "BA -1X$(times 75 ' ')" "BA X,-1$(times 74 ' ')" "$(times 81 B)" "$(times 90 ' ')" 'XX 1' 'ba X' 'B' 'B A' ' BA X' 'LS X,-1' '*FREE' '*FIX' '*FIX   ' \
    '*FREE X' '*FREEX' '*F' '*fix' '**' 'ID BA X' 'ID' 'KM -1,X' 'KMX' 'ZZ X' 'ZZ' 'IT 60,,,4' 'IT 60 X - 4' 'IT 1,,,1' 'IT 1440,x,y,300' \
    'JR PREC,.01,9.99' 'BA .01' 'BA 9999.99' 'PB' 'PB 100' 'PI' 'PI ,,,' 'PI 20,0' 'LU' 'LU 20,20,0' 'LU ,,0.00' 'UI 99999.99' 'QI 100000' \
    'HC 2' 'HC 5' 'RM 1,.01' 'RM 50,24,.5' 'RS 1,STOR' 'RS 1,STOR,0' 'RS +01.0 STOR -0' 'SV 99999.99' 'SQ 100000' 'SQ ,1' \
    'SV 1,2,3,4,5,6,7,8,9,10' 'SV 1,2,3,4,5,6,7,8,9,10,,,,,' 'JR PREC,1,1,1,1,1,1,1,1,1' 'JR PREC,1,' 'JR PREC,1,,,,,,,,,,,,'; do
    reasons '' '' 1 "$line"
done
# in the fixed form
for line in 'IT    60     X  Y Z       4' 'IT    60       ,      ,,       4' 'JRPREC        1    9.99' 'BA     1' 'PI            20' 'LU' 'RS     1    STOR'; do
    reasons '' '' 0 "$line"
    reasons '' '' 0 "$line$(times $((80 - ${#line})) ' ')\n"
done
# names, sound or not, whatever the number is
for line in 'KK A/A' 'KKA/A' 'KK   ABCDEF TEXT/ABCDEF' 'KK ABCDEFG/ABCDEFG' 'KK A,B/A' 'KK/' 'KK   /' 'KK,A/' 'KK , A/' 'KK A\r\n/A' "KK$(times 78 X)/$(times 78 X)"; do
    reasons "NAME ${line#*/}" "NAME ${line#*/}" 1 "${line%%/*}"
done
for line in 'KK A/A' 'KKABCDEF/ABCDEF' 'KKABCDEFG/ABCDEF' 'KK RESERVOIR TWO/RESER' 'KKA B/A B' 'KK A  B X/A  B' 'KK      A/' 'KK/' 'KK,A/,A' 'KKA,B,\r\n/A,B,' 'KK  A   B/A'; do
    reasons "NAME ${line#*/}" "NAME ${line#*/}" 0 "${line%%/*}"
done
reason 6 1 '' "BA X$(times 77 ' ')"                       # 81 bytes
reason 6 1 'FIELD 1 NUMBER 2 1 999999 X' "BA X$(times 76 ' ')"
reason 6 1 'FIELD 1 NUMBER 2 1 999999 X' "BA X$(times 76 ' ')\r\n"
reason 6 1 "FIELD 1 NUMBER 2 1 999999 $(times 78 1)" "BA$(times 78 1)\n"

# each field, one unit of its last place outside its limits and with one place more
# than it allows: RECORD BEFORE AFTER PLACES LOW HIGH, then what is too low, too high
# and too fine; - for nothing before or after it
while read -r record before after limits; do
    before="$record ${before#-}"
    after=${after#-}
    commas=${before//[!,]/}
    read -r places low high under over fine <<<"$limits"
    limits="$places $low $high"
    text=$((${#commas} + 1))
    of_field '' "$text LIMITS $limits $under" "$before$under$after"
    of_field '' "$text LIMITS $limits $over" "$before$over$after"
    of_field '' "$text LIMITS $limits -999999999" "$before-999999999$after"
    of_field "$text PLACES $limits $((places + 1)) $fine" '' "$before$fine$after"
    of_field "$text PLACES $limits $((places + 1)) ${fine}00" '' "$before${fine}00$after"
    of_field "$text NUMBER $limits X" '' "${before}X$after"
    of_field "$text NUMBER $limits 1234567890" '' "${before}1234567890$after"
done <<'END'
IT - ,,,4 0 1 1440 0 1441 1.5
IT 60,x,y, - 0 1 300 0 301 1.5
JR PREC, - 2 1 999 0 10 1.001
JR PREC,1,1, ,2 2 1 999 0.00 10.00 .999
JR PREC,1,1,1,1,1,1,1,1, - 2 1 999 0 10 .001
BA - - 2 1 999999 0 10000 .001
PB - - 4 0 1000000 -.0001 100.0001 .00001
PI - - 4 0 200000 -.0001 20.0001 .00001
PI 1,,,,,,,,, - 4 0 200000 -.0001 20.0001 .00001
LU - - 4 0 200000 -.0001 20.0001 .00001
LU 1, - 4 0 200000 -.0001 20.0001 .00001
LU 1,1, - 2 0 0 -.01 .01 .001
UI - - 2 0 9999999 -.01 100000 .001
QI 1,2, - 2 0 10000000 -.01 100000.01 .001
HC - - 0 2 5 1 6 2.5
RM - ,1 0 1 50 0 51 1.5
RM 1, - 2 1 2400 0 24.01 1.001
RM 1,1, - 2 0 50 -.01 .51 .001
RS - ,STOR 0 1 1 0 2 .5
RS 1,STOR, - 0 0 0 -1 1 .5
SV 1, - 2 0 9999999 -.01 100000 .001
SQ 1,2,3,4, - 2 0 10000000 -.01 100000.01 .001
END

# IT: its fields 2 and 3 are never refused, its fifth has to be blank
of_field '' '1 LIMITS 0 1 1440 ' 'IT'
of_field '' '1 LIMITS 0 1 1440 ' 'IT ,X,Y,4'
of_field '' '4 LIMITS 0 1 300 ' 'IT 60'
of_field '' '4 LIMITS 0 1 300 ' 'IT 60,X,Y,'
of_field '4 NUMBER 0 1 300 1-' '1 LIMITS 0 1 1440 0' 'IT 0,1.5,--,1-'
of_field '5 BLANK 0' '' 'IT 60,,,4,0'
of_field '7 BLANK X' '' 'IT 60,,,4,,,X,Y'
of_field '1 PLACES 0 1 1440 1 60.5' '4 LIMITS 0 1 300 -1' 'IT 60.5,,,-1'
# a word is malformed on JR and outside its limits on RS
of_field '1 WORD 4 1347568963 1347568963 ' '2 LIMITS 2 1 999 ' 'JR'
of_field '' '2 LIMITS 2 1 999 ' 'JR PREC'
of_field '' '2 LIMITS 2 1 999 ' 'JR PREC,,,'
of_field '' '2 LIMITS 2 1 999 ' 'JR PREC,,1'
for line in prec PRE PRECX PREC. P STOR 1 0 .5 'PREC;' ; do of_field "1 WORD 4 1347568963 1347568963 $line" '' "JR $line,1"; done
of_field '1 WORD 4 1347568963 1347568963 ' '' 'JR ,1'
of_field '1 WORD 4 1347568963 1347568963 FLOW' '3 LIMITS 2 1 999 10' 'JR FLOW,1,10,X'
of_field '2 NUMBER 2 1 999 PREC' '' 'JR PREC,PREC'
of_field '' '1 LIMITS 0 1 1 ' 'RS'
of_field '' '1 LIMITS 0 1 1 ' 'RS ,STOR'
of_field '' '2 WORD 4 1398034258 1398034258 ' 'RS 1'
of_field '' '2 WORD 4 1398034258 1398034258 ' 'RS 1,,0'
for line in stor STO STORE STOR. S PREC 1 0 .5; do of_field '' "2 WORD 4 1398034258 1398034258 $line" "RS 1,$line,0"; done
of_field '3 NUMBER 0 0 0 OR' '2 WORD 4 1398034258 1398034258 ST' 'RS 1 ST OR'
of_field '4 BLANK 0' '' 'RS 1,STOR,0,0'
of_field '1 NUMBER 0 1 1 X' '2 WORD 4 1398034258 1398034258 Y' 'RS X,Y,0'
# fields that are missing, and blank ones, are the number 0
of_field '' '1 LIMITS 2 1 999999 ' 'BA'
of_field '2 BLANK 1' '1 LIMITS 2 1 999999 ' 'BA ,1'
of_field '' '1 LIMITS 0 2 5 ' 'HC ,'
of_field '' '1 LIMITS 0 1 50 ' 'RM'
of_field '' '2 LIMITS 2 1 2400 ' 'RM 1'
of_field '' '2 LIMITS 2 1 2400 ' 'RM 1,,.5'
of_field '2 BLANK 0' '' 'PB 1,0'
of_field '4 BLANK -' '' 'LU 1,1,0,-'
of_field '4 BLANK 0' '' 'RM 1,1,.2,0'
of_field '2 BLANK 3' '' 'HC 2 3'
# past the tenth field, on a list too; a blank one there is none
of_field '11 BLANK 11' '' 'SV 1,2,3,4,5,6,7,8,9,10,11'
of_field '11 BLANK 11' '' 'SV 1 2 3 4 5 6 7 8 9 10 11 12'
of_field '13 BLANK 5' '' 'QI ,,,,,,,,,,,,5'
of_field '76 BLANK X' '' "PI $(times 75 ,)X"
of_field '11 BLANK 1' '3 LIMITS 2 1 999 ' 'JR PREC,1,,,,,,,,,1'
of_field '11 BLANK 2' '' 'JR PREC,1,1,1,1,1,1,1,1,1,2'
of_field '11 BLANK 1' '1 LIMITS 0 1 1440 ' 'IT ,,,,,,,,,,1'
of_field '2 NUMBER 2 0 9999999 X' '3 LIMITS 2 0 9999999 -1' 'UI 1,X,-1,4,5,6,7,8,9,10,X'
# the first field that the number refuses, and places that are left
of_field '2 NUMBER 4 0 200000 1-' '1 LIMITS 4 0 200000 21' 'PI 21,1-,.00001,-1'
of_field '1 PLACES 4 0 200000 5 1.00001' '3 LIMITS 4 0 200000 21' 'PI 1.00001,X,21,22'
of_field '1 PLACES 0 2 5 9 .123456789' '' 'HC .123456789'
of_field '1 NUMBER 0 2 5 0.123456789' '' 'HC 0.123456789'
of_field '1 NUMBER 0 2 5 2.000000000' '' 'HC 2.000000000'
of_field '1 PLACES 2 1 999999 3 -0.00100' '' 'BA -0.00100'
of_field '' '1 LIMITS 2 1 999999 0.00000' 'BA 0.00000'
of_field '' '1 LIMITS 0 2 5 6.00' 'HC 6.00'
for line in . - + -. 1.2.3 1E3 --1 1- '$1' 0x1; do of_field "1 NUMBER 0 2 5 $line" '' "HC $line"; done
# blanks and commas
of_field '' '2 LIMITS 4 0 200000 21' 'LU   1  , 21  ,0 '
of_field '3 NUMBER 2 0 0 X' '' 'LU 1 1 X'
of_field '2 NUMBER 2 0 10000000 X' '' 'QI,X'
of_field '1 NUMBER 2 0 10000000 X' '' 'QIX'
# the fixed form: columns, with blanks inside and commas
reason 6 0 'FIELD 1 NUMBER 2 1 999999 1 2' 'BA   1 2'
reason 6 0 'FIELD 1 NUMBER 2 0 10000000 1,2x' 'QI 1,2x'
reason 6 0 'FIELD 2 NUMBER 2 0 10000000 2x' 'QI     1      2x'
reason 6 0 'FIELD 2 BLANK 5' 'BA 12.345'
reason 7 0 '' 'BA 12.345'
reason 7 0 'FIELD 4 LIMITS 0 1 300 400' 'IT    60     1,2     3     400'
reason 7 0 'FIELD 4 LIMITS 0 1 300 ' 'IT    60     1,2     3'
reason 7 0 'FIELD 3 LIMITS 2 1 999 ' 'JRPREC  1               2'
reason 7 0 'FIELD 2 WORD 4 1398034258 1398034258 ST OR' 'RS     1ST OR'
reason 6 0 'FIELD 1 WORD 4 1347568963 1347568963 PREC,1' 'JRPREC,1'
reason 6 0 'FIELD 10 NUMBER 4 0 200000 X' "PI$(times 77 ' ')X"
reason 6 0 'FIELD 10 BLANK X' "BA     1$(times 71 ' ')X\r\n"
reason 6 0 'FIELD 10 NUMBER 2 1 999 1.000.00' "JRPREC  1       1       1       1       1       1       1       1       1.000.00"

# other numbers stand for 7, other forms for the free one
for text in 0 1 3 5 7 8 20 262 1542 4294967295; do reason "$text" 1 'FIELD 1 LIMITS 2 1 999999 0' 'BA 0,X'; done
for text in 1 2 6 256 65536 2147483648 4294967295; do reason 6 "$text" 'FIELD 2 BLANK X' 'BA 0,X'; done
reason 6 0 'FIELD 1 NUMBER 2 1 999999 0,X' 'BA 0,X'

# bytes behind the line are not looked at, however many there are
for line in '\n' '\r\n' '\nBA 1' '\nKK A\n' '\n\x00\xff' '\r\n\x80' '\n*FIX\n' "\n$long" "\n$(times 60000 ' ')"; do
    reason 6 1 'FIELD 1 NUMBER 2 1 999999 X' "BA X$line"
done
reason 6 1 '' "$long"
reason 6 1 'FIELD 1 NUMBER 2 1 999999 X' "BA X\n$(times 59996 Y)"
reason 6 1 'FIELD 1 NUMBER 2 1 999999 X' "BA X\n$(times 121000 Y)"

# several cases, and where they end
bundle --reason '' "$ok" ''
bundle --reason "FIELD 1 NUMBER 2 1 999999 X\n--\n--\nNAME A\n--\n--\nFIELD 2 BLANK 1\n--\n" "$ok" \
    "$(sheet_of 6 1 'BA X')$(sheet_of 7 1 'BA X')$(sheet_of 7 0 'KK A')$(sheet_of 6 1 '')$(sheet_of 6 9 'BA 1,1')"
for rest in '\x01' "$(le4 6)" "$(le4 6)$(le4 0)" "$(le4 6)$(le4 0)\x01\x00\x00" "$(le4 6)$(le4 0)$(le4 3)ZZ" "$(le4 6)$(le4 0)$(le4 100000)$long"; do
    bundle --reason "NAME A\n--\n" '2, said' "$(sheet_of 6 1 'KK A')$rest"
done
check 'two modes, one of them the reason' 'status 2, said' "$(run --reason --sheet </dev/null)"

# ---- Tables and networks -----------------------------------------------------

mkdir "$scratch/decks"

# put FILE DECK: a deck as a file
put() { printf '%b' "$2" >"$scratch/decks/$1"; }

# prints WHAT WORD...: what the program prints with these words where the decks
# are; the text that is expected comes in on standard input
prints() {
    local what=$1 expected got
    shift
    expected=$(cat; echo 'status 0, silent')
    got=$(cd "$scratch/decks" && run "$@" </dev/null)
    check "$what" "$expected" "$got"
}

# The deck of document 01.  Thousandths of an acre-foot: UP 168,000,000 * 60 /
# 43,560,000 = 231.4, RIV 154,563,495 makes 212.9, SIDE 495.9, OUT 708.8.  Of an
# inch over 1.50: 10,080,000,000 / (23,232,000 * 150) = 2.9, RIV 2.7, OUT 8.9.
put pond.hc1 "$pond"
prints 'a plain table' --table pond.hc1 <<'E'
RUNOFF SUMMARY: pond.hc1
POND

OPERATION      STATION  PEAK CFS  TIME H:MM  ACRE-FEET  INCHES  SQ MILES
HYDROGRAPH AT  UP           2.00       2:00      0.231   0.003      1.50
ROUTED TO      RIV          1.37       3:00      0.213   0.003      1.50
HYDROGRAPH AT  SIDE         2.00       2:00      0.496       -         -
2 COMBINED AT  OUT          3.37       3:00      0.709   0.009      1.50
E
check 'a table of standard input' "$(sed 's/pond.hc1/-/' <<<"$(cd "$scratch/decks" && run --table pond.hc1)")" \
    "$(printf '%b' "${pond//'\n'/'\r\n'}" | run --table -)"

# Texts of ID.  A cfs for an hour is 60 * 60 / 43,560 acre-feet, 0.0826.
put texts.hc1 'ID\nID   \nIDTWO WORDS   \nKM NOT THIS\nID    BOTH  ENDS  \r\n*FREE\nID,COMMA\nIT 60,,,1\nKK A\nQI 1\nZZ\nID LATE\n'
prints 'texts of ID' --table texts.hc1 <<'E'
RUNOFF SUMMARY: texts.hc1
TWO WORDS
BOTH  ENDS
,COMMA

OPERATION      STATION  PEAK CFS  TIME H:MM  ACRE-FEET  INCHES  SQ MILES
HYDROGRAPH AT  A            1.00       1:00      0.083       -         -
E

# One ratio, no ID: 2 inches on 100 cfs an inch.  200 * 60 * 60 / 43,560 = 16.529
# acre-feet, over 640 acres 16.529 * 12 / 640 = 0.3099 inches.
put one.hc1 '*FREE\nIT 60,,,1\nJR PREC,2.0\nKK A\nBA 1\nPI 1\nLU\nUI 100\nZZ\n'
prints 'one ratio' --table one.hc1 <<'E'
RUNOFF SUMMARY: one.hc1, ratio 2.00

OPERATION      STATION  PEAK CFS  TIME H:MM  ACRE-FEET  INCHES  SQ MILES
HYDROGRAPH AT  A          200.00       1:00     16.529   0.310      1.00
E

# No flow, with an area and without.
put zero.hc1 '*FREE\nIT 60,,,2\nKK DRY\nBA 1\nQI 0,0\nKK NONE\nQI\nKK SUM\nHC 2\nZZ\n'
prints 'no flow' --table zero.hc1 <<'E'
RUNOFF SUMMARY: zero.hc1

OPERATION      STATION  PEAK CFS  TIME H:MM  ACRE-FEET  INCHES  SQ MILES
HYDROGRAPH AT  DRY          0.00          -      0.000   0.000      1.00
HYDROGRAPH AT  NONE         0.00          -      0.000       -         -
2 COMBINED AT  SUM          0.00          -      0.000   0.000      1.00
E

# Halves.  HALF: 0.0605 inch are 36,300 depth units, times 10 hundredths 363,000
# flow units; times 60 they are half of 43,560,000, and so 0.001.  UNDER has
# 362,400, times 60 they are 21,744,000.  Both peaks are 0.6 hundredths.  PEAK has
# 300,000 units, half a hundredth, and BELOW 299,940.  ALL has 1,325,340: 2.2
# hundredths, times 60 1.8 thousandths.
put halves.hc1 '*FREE\nIT 60,,,1\nKK HALF\nBA 1\nPI .0605\nLU\nUI .1\nKK UNDER\nBA 1\nPI .0604\nLU\nUI .1\nKK PEAK\nBA 1\nPI .5\nLU\nUI .01\nKK BELOW\nBA 1\nPI .4999\nLU\nUI .01\nKK ALL\nHC 4.00\nZZ\n'
prints 'halves of acre-feet and of peaks' --table halves.hc1 <<'E'
RUNOFF SUMMARY: halves.hc1

OPERATION      STATION  PEAK CFS  TIME H:MM  ACRE-FEET  INCHES  SQ MILES
HYDROGRAPH AT  HALF         0.01       1:00      0.001   0.000      1.00
HYDROGRAPH AT  UNDER        0.01       1:00      0.000   0.000      1.00
HYDROGRAPH AT  PEAK         0.01       1:00      0.000   0.000      1.00
HYDROGRAPH AT  BELOW        0.00       1:00      0.000   0.000      1.00
4 COMBINED AT  ALL          0.02       1:00      0.002   0.000      4.00
E

# 484 hundredths for a minute are 290,400,000: half of 23,232,000 * 25, which is
# 0.001 inch over 0.25.  One hundredth less is 289,800,000; both are 6.7
# thousandths of an acre-foot.  C: 580,200,000 of 1,161,600,000, which is 0.4995.
put inches.hc1 '*FREE\nIT 1.0,,,1\nKK A\nBA .25\nQI 4.84\nKK B\nBA .25\nQI 4.83\nKK C\nHC 2\nZZ\n'
prints 'halves of inches' --table inches.hc1 <<'E'
RUNOFF SUMMARY: inches.hc1

OPERATION      STATION  PEAK CFS  TIME H:MM  ACRE-FEET  INCHES  SQ MILES
HYDROGRAPH AT  A            4.84       0:01      0.007   0.001      0.25
HYDROGRAPH AT  B            4.83       0:01      0.007   0.000      0.25
2 COMBINED AT  C            9.67       0:01      0.013   0.000      0.50
E

# Times: 9 * 7 minutes, a peak that is met twice, and the longest there is.  The
# acre-feet are 33 * 7 * 60 / 43,560 = 0.3182, 6 * 30 * 60 / 43,560 = 0.2479 and
# 1,440 * 60 / 43,560 = 1.9835.
head='OPERATION      STATION  PEAK CFS  TIME H:MM  ACRE-FEET  INCHES  SQ MILES'
put seven.hc1 '*FREE\nIT 7,,,9\nKK A\nQI 1,2,3,4,5,4,3,2,9\nZZ\n'
prints 'minutes under ten' --table seven.hc1 <<E
RUNOFF SUMMARY: seven.hc1

$head
HYDROGRAPH AT  A            9.00       1:03      0.318       -         -
E
put twice.hc1 '*FREE\nIT 30,,,4\nKK A\nQI 1,2,2,1\nZZ\n'
prints 'the first of two peaks' --table twice.hc1 <<E
RUNOFF SUMMARY: twice.hc1

$head
HYDROGRAPH AT  A            2.00       1:00      0.248       -         -
E
put late.hc1 "*FREE\nIT 1440,,,300\nKK A\n$(times 29 'QI ,,,,,,,,,0\n')QI ,,,,,,,,,1\nZZ\n"
prints 'the longest time' --table late.hc1 <<E
RUNOFF SUMMARY: late.hc1

$head
HYDROGRAPH AT  A            1.00    7200:00      1.983       -         -
E

# Columns that their cells make wider.  300 * 1,440 * 100,000 * 60 cubic feet are
# 2,592e9, which are 59,504,132.2314 acre-feet; by 6.4 acres and in inches they
# are 111,570,247.9339.
put wide.hc1 "*FREE\nIT 1440,,,300\nKK LONGER\nBA .01\n$(times 30 'QI 100000,100000,100000,100000,100000,100000,100000,100000,100000,100000\n')ZZ\n"
prints 'wide cells' --table wide.hc1 <<'E'
RUNOFF SUMMARY: wide.hc1

OPERATION      STATION   PEAK CFS  TIME H:MM     ACRE-FEET         INCHES  SQ MILES
HYDROGRAPH AT  LONGER   100000.00      24:00  59504132.231  111570247.934      0.01
E

# Across: two ratios, a deck that is refused, another deck.  100 cfs for an hour
# are 8.2645 acre-feet and over 640 acres 0.1550 inches.
put two.hc1 'ID\nID TWICE\nID MORE\n*FREE\nIT 60,,,1\nJR PREC,1,2\nKK UP\nBA 1\nPI 1\nLU\nUI 100\nZZ\n'
put bad.hc1 'ID BAD\n*FREE\nIT 60,,,4\nKK A\nQI -1\nZZ\n'
prints 'across' --table two.hc1 bad.hc1 pond.hc1 <<'E'
RUNOFF SUMMARY
1  two.hc1, ratio 1.00: TWICE
2  two.hc1, ratio 2.00: TWICE
-  bad.hc1: REFUSED 7 5
3  pond.hc1: POND

OPERATION      STATION                  1       2      3
HYDROGRAPH AT  UP       PEAK CFS   100.00  200.00   2.00
                        TIME H:MM    1:00    1:00   2:00
                        ACRE-FEET   8.264  16.529  0.231
                        INCHES      0.155   0.310  0.003
                        SQ MILES     1.00    1.00   1.50
ROUTED TO      RIV      PEAK CFS        -       -   1.37
                        TIME H:MM       -       -   3:00
                        ACRE-FEET       -       -  0.213
                        INCHES          -       -  0.003
                        SQ MILES        -       -   1.50
HYDROGRAPH AT  SIDE     PEAK CFS        -       -   2.00
                        TIME H:MM       -       -   2:00
                        ACRE-FEET       -       -  0.496
2 COMBINED AT  OUT      PEAK CFS        -       -   3.37
                        TIME H:MM       -       -   3:00
                        ACRE-FEET       -       -  0.709
                        INCHES          -       -  0.009
                        SQ MILES        -       -   1.50
E
prints 'several ratios of one deck' --table two.hc1 <<'E'
RUNOFF SUMMARY
1  two.hc1, ratio 1.00: TWICE
2  two.hc1, ratio 2.00: TWICE

OPERATION      STATION                  1       2
HYDROGRAPH AT  UP       PEAK CFS   100.00  200.00
                        TIME H:MM    1:00    1:00
                        ACRE-FEET   8.264  16.529
                        INCHES      0.155   0.310
                        SQ MILES     1.00    1.00
E
prints 'the same deck twice' --table texts.hc1 ./texts.hc1 <<'E'
RUNOFF SUMMARY
1  texts.hc1: TWO WORDS
2  ./texts.hc1: TWO WORDS

OPERATION      STATION                 1      2
HYDROGRAPH AT  A        PEAK CFS    1.00   1.00
                        TIME H:MM   1:00   1:00
                        ACRE-FEET  0.083  0.083
E
prints 'one deck, refused' --table bad.hc1 <<<'REFUSED 7 5'
prints 'two decks, refused' --table bad.hc1 bad.hc1 <<<$'RUNOFF SUMMARY\n-  bad.hc1: REFUSED 7 5\n-  bad.hc1: REFUSED 7 5'
prints 'one of two refused' --table bad.hc1 texts.hc1 <<'E'
RUNOFF SUMMARY
-  bad.hc1: REFUSED 7 5
1  texts.hc1: TWO WORDS

OPERATION      STATION                 1
HYDROGRAPH AT  A        PEAK CFS    1.00
                        TIME H:MM   1:00
                        ACRE-FEET  0.083
E

# Repeated stations: an inflow A twice, a confluence, a reach and a pond A.  With
# one interval a reach lets out what comes in, and a pond nothing yet.  2 cfs are
# 0.1653 acre-feet and 0.0031 inches, 3 cfs 0.2479 and 0.0046, 4 cfs 0.3306.
put again.hc1 '*FREE\nIT 60,,,1\nKK A\nQI 1\nKK A\nBA 1\nQI 2\nKK A\nHC 2\nKK A\nRM 1,1,0\nKK A\nRS 1,STOR,0\nSV 0,100\nSQ 0,0\nZZ\n'
put once.hc1 '*FREE\nIT 60,,,1\nKK A\nQI 4\nZZ\n'
prints 'repeated stations' --table once.hc1 again.hc1 <<'E'
RUNOFF SUMMARY
1  once.hc1
2  again.hc1

OPERATION      STATION                 1      2
HYDROGRAPH AT  A        PEAK CFS    4.00   1.00
                        TIME H:MM   1:00   1:00
                        ACRE-FEET  0.331  0.083
HYDROGRAPH AT  A        PEAK CFS       -   2.00
                        TIME H:MM      -   1:00
                        ACRE-FEET      -  0.165
                        INCHES         -  0.003
                        SQ MILES       -   1.00
2 COMBINED AT  A        PEAK CFS       -   3.00
                        TIME H:MM      -   1:00
                        ACRE-FEET      -  0.248
                        INCHES         -  0.005
                        SQ MILES       -   1.00
ROUTED TO      A        PEAK CFS       -   3.00
                        TIME H:MM      -   1:00
                        ACRE-FEET      -  0.248
                        INCHES         -  0.005
                        SQ MILES       -   1.00
ROUTED TO      A        PEAK CFS       -   0.00
                        TIME H:MM      -      -
                        ACRE-FEET      -  0.000
                        INCHES         -  0.000
                        SQ MILES       -   1.00
E

# Two decks that combine two at K, and three or two at J; only the second has an
# area, at A.  1 cfs is 0.0015 inches over it, 2 are 0.0031 and 3 are 0.0046.
put three.hc1 '*FREE\nIT 60,,,1\nKK A\nQI 1\nKK B\nQI 1\nKK K\nHC 2\nKK C\nQI 1\nKK D\nQI 1\nKK J\nHC 3\nZZ\n'
put less.hc1 '*FREE\nIT 60,,,1\nKK A\nBA 1\nQI 1\nKK B\nQI 1\nKK K\nHC 2\nKK C\nQI 1\nKK J\nHC 2\nZZ\n'
prints 'other numbers combined' --table three.hc1 less.hc1 <<'E'
RUNOFF SUMMARY
1  three.hc1
2  less.hc1

OPERATION      STATION                 1      2
HYDROGRAPH AT  A        PEAK CFS    1.00   1.00
                        TIME H:MM   1:00   1:00
                        ACRE-FEET  0.083  0.083
                        INCHES         -  0.002
                        SQ MILES       -   1.00
HYDROGRAPH AT  B        PEAK CFS    1.00   1.00
                        TIME H:MM   1:00   1:00
                        ACRE-FEET  0.083  0.083
2 COMBINED AT  K        PEAK CFS    2.00   2.00
                        TIME H:MM   1:00   1:00
                        ACRE-FEET  0.165  0.165
                        INCHES         -  0.003
                        SQ MILES       -   1.00
HYDROGRAPH AT  C        PEAK CFS    1.00   1.00
                        TIME H:MM   1:00   1:00
                        ACRE-FEET  0.083  0.083
HYDROGRAPH AT  D        PEAK CFS    1.00      -
                        TIME H:MM   1:00      -
                        ACRE-FEET  0.083      -
COMBINED AT    J        PEAK CFS    4.00   3.00
                        TIME H:MM   1:00   1:00
                        ACRE-FEET  0.331  0.248
                        INCHES         -  0.005
                        SQ MILES       -   1.00
E

# Ten columns, so that the numbers have two digits.
put nine.hc1 'ID NINE\n*FREE\nIT 60,,,1\nJR PREC,.01,1,1,1,1,1,1,1,9.99\nKK A\nQI 1\nZZ\n'
prints 'ten columns' --table nine.hc1 bad.hc1 once.hc1 <<'E'
RUNOFF SUMMARY
 1  nine.hc1, ratio 0.01: NINE
 2  nine.hc1, ratio 1.00: NINE
 3  nine.hc1, ratio 1.00: NINE
 4  nine.hc1, ratio 1.00: NINE
 5  nine.hc1, ratio 1.00: NINE
 6  nine.hc1, ratio 1.00: NINE
 7  nine.hc1, ratio 1.00: NINE
 8  nine.hc1, ratio 1.00: NINE
 9  nine.hc1, ratio 9.99: NINE
 -  bad.hc1: REFUSED 7 5
10  once.hc1

OPERATION      STATION                 1      2      3      4      5      6      7      8      9     10
HYDROGRAPH AT  A        PEAK CFS    1.00   1.00   1.00   1.00   1.00   1.00   1.00   1.00   1.00   4.00
                        TIME H:MM   1:00   1:00   1:00   1:00   1:00   1:00   1:00   1:00   1:00   1:00
                        ACRE-FEET  0.083  0.083  0.083  0.083  0.083  0.083  0.083  0.083  0.083  0.331
E

# Paths as they are shown.
odd=$'a\tb\x01\x7f%s \xc3\xa9.hc1'
put "$odd" '*FREE\nIT 60,,,1\nKK %d"\\\nQI 1\nZZ\n'
prints 'an odd path' --table "$odd" <<E
RUNOFF SUMMARY: a?b??%s $(printf '\xc3\xa9').hc1

$head
HYDROGRAPH AT  %d"\\         1.00       1:00      0.083       -         -
E
# Blanks at the end of a path go with the end of the line, if they stand there.
put 'blank  ' '*FREE\nIT 60,,,1\nKK A\nQI 1\nZZ\n'
check 'blanks behind a path' "$(printf 'RUNOFF SUMMARY: blank\nSTREAM NETWORK: blank\n1  blank\n1  two.hc1, ratio 1.00: TWICE\n3  blank')" \
    "$(cd "$scratch/decks" && { run --table 'blank  ' | head -n 1; run --network 'blank  ' | head -n 1
        run --table 'blank  ' once.hc1 | sed -n 2p; run --table two.hc1 'blank  ' | sed -n '2p;4p'; })"
put --table "$pond"
prints 'standard input without a deck' --table - <<<'REFUSED 16 0'
check 'a path like an option' "$(sed 's/pond.hc1/--table/' <<<"$(cd "$scratch/decks" && run --table pond.hc1)")" \
    "$(cd "$scratch/decks" && run --table --table)"
check 'standard input twice' $'RUNOFF SUMMARY\n1  -: POND\n-  -: REFUSED 16 0' \
    "$(printf '%b' "$pond" | run --table - - | head -n 3)"

# What cannot be read, and calls that are wrong: nothing is printed.
for words in '--table' '--network' '--table none.hc1' '--table pond.hc1 none.hc1' '--table none.hc1 pond.hc1' '--table .' '--network none.hc1' \
    '--network .' '--network pond.hc1 pond.hc1' '--bundle --table pond.hc1' '--full --network pond.hc1'; do
    # shellcheck disable=SC2086
    check "$words" 'status 2, said' "$(cd "$scratch/decks" && run $words </dev/null)"
done

# A deck of 60,000 bytes and one that is a byte longer.
{ printf '%b' "$pond"; head -c $((60000 - $(printf '%b' "$pond" | wc -c))) /dev/zero; } >"$scratch/decks/full.hc1"
{ cat "$scratch/decks/full.hc1"; printf '\0'; } >"$scratch/decks/over.hc1"
check 'the table of a full deck' "$(sed 's/pond.hc1/full.hc1/' <<<"$(cd "$scratch/decks" && run --table pond.hc1)")" \
    "$(cd "$scratch/decks" && run --table full.hc1)"
prints 'the table of a longer one' --table over.hc1 <<<'REFUSED 2 0'
prints 'the network of a longer one' --network over.hc1 <<<'REFUSED 2 0'

# Networks.  The stems stand in columns 13, 23 and so on.
prints 'a network' --network pond.hc1 <<'E'
STREAM NETWORK: pond.hc1

  LINE  (V) ROUTED  (.) HELD OR JOINED

     4      UP
            V
            V
     9     RIV
            .
            .
    11      .        SIDE
            .         .
            .         .
    13     OUT.........
E
check 'a network of standard input' "$(sed 's/pond.hc1/-/' <<<"$(cd "$scratch/decks" && run --network pond.hc1)")" \
    "$(printf '%b' "$pond" | run --network -)"
prints 'the network of a refused deck' --network bad.hc1 <<<'REFUSED 7 5'

# Names of each length: those of 3 and 4 begin a column before their stem, those
# of 5 and 6 two.  HC 5 from column 17 to the stem in column 53.
put names.hc1 '*FREE\nIT 60,,,1\nKK A\nQI 1\nKK BB\nQI 1\nKK CCC\nQI 1\nKK DDDD\nQI 1\nKK EEEEE\nQI 1\nKK FFFFFF\nHC 5\nZZ\n'
prints 'names of each length' --network names.hc1 <<'E'
STREAM NETWORK: names.hc1

  LINE  (V) ROUTED  (.) HELD OR JOINED

     3      A
            .
            .
     5      .         BB
            .         .
            .         .
     7      .         .        CCC
            .         .         .
            .         .         .
     9      .         .         .        DDDD
            .         .         .         .
            .         .         .         .
    11      .         .         .         .       EEEEE
            .         .         .         .         .
            .         .         .         .         .
    13    FFFFFF.....................................
E

# A reach and a pond beside what is held; blank lines and notes count as lines; a
# JR changes nothing.
put beside.hc1 'KM NOTE\n\n*FREE\nIT 60,,,1\nJR PREC,1,2\n\nKK WIDE01\nQI 1\nKK B\nQI 1\nKM MORE\nKK REACH\nRM 1,1\nKK POND\nRS 1,STOR\nSV 0,100\nSQ 0,0\nKK CC\nQI 1\nKK TWO\nHC 2\nKK LAST\nHC 2\nKK R\nRM 1,1\nZZ\n'
prints 'routed beside others' --network beside.hc1 <<'E'
STREAM NETWORK: beside.hc1

  LINE  (V) ROUTED  (.) HELD OR JOINED

     7    WIDE01
            .
            .
     9      .         B
            .         V
            .         V
    12      .       REACH
            .         V
            .         V
    14      .        POND
            .         .
            .         .
    18      .         .         CC
            .         .         .
            .         .         .
    20      .        TWO.........
            .         .
            .         .
    22     LAST........
            V
            V
    24      R
E

# Twenty held, then five, five, five, five and four of them.  Line 3 and every
# second one has a KK.  The stems of places 0 to n - 1 take 13 + 10 (n - 1)
# columns; a name of 3 begins 8 blanks behind the stem before, one of 2 begins 9.
# HC 5 goes from behind its two letters to the stem 40 columns on: 39 dots.  HC 4
# to the one 30 columns on.
stems() { if [ "$1" -gt 0 ]; then printf '      .'; times $(($1 - 1)) '         .'; fi; }
deep='*FREE\nIT 60,,,1\n'
expected=$'STREAM NETWORK: deep.hc1\n\n  LINE  (V) ROUTED  (.) HELD OR JOINED\n\n'
for ((k = 0; k < 20; k++)); do
    deep+="KK H$((k + 10))\nQI 1\n"
    [ $k -eq 0 ] || expected+="      $(stems $k)"$'\n'"      $(stems $k)"$'\n'
    printf -v number '%6d' $((3 + 2 * k))
    if [ $k -eq 0 ]; then expected+="$number     H10"$'\n'
    else expected+="$number$(stems $k)        H$((k + 10))"$'\n'; fi
done
line=43
for place in 15 11 7 3; do
    deep+="KK J$((place % 10))\nHC 5\n"
    expected+="      $(stems $((place + 5)))"$'\n'"      $(stems $((place + 5)))"$'\n'
    expected+="    $line$(stems $place)         J$((place % 10))$(times 39 .)"$'\n'
    line=$((line + 2))
done
deep+='KK J0\nHC 4\nZZ\n'
expected+="      $(stems 4)"$'\n'"      $(stems 4)"$'\n'"    51      J0$(times 29 .)"
put deep.hc1 "$deep"
prints 'twenty held' --network deep.hc1 <<<"$expected"

# ---- The counters ----------------------------------------------------------

# The counter of losses, on blocks whose way and whose wrong rules are known:
# the deck of document 01 is filled at the end of its first interval (another
# excess by b: 0.30 - 0.10 - 0.10, and by e: 0); 0.60 alone leaves the uniform
# loss (a: 0.50; c: 0.10 less a sixth of 0.10); with PB, the fourth of the
# sevenths leaves 1 (a: 10; b: nothing; c: 8 - 3; d: 10 in the second; e:
# nothing); a total of 0 fills nothing; no loss to fill; 0.4999 with a dry
# interval on the way (d: 0.1999 in the third).  A refused deck is not counted.
known=$(sized "$pond")$(sized "$(hourly 0.60)")$(sized "$(sevenths .0001,.0007)")
known+=$(sized "$(cut_loss 60 2 0 1 .5)")$(sized "$(loss 60 0,0.10 0.60,0.30)")
known+=$(sized "$(hourly 0.20,0,0.2999)")$(sized "${pond/HC 2/HC 3}")
# without PB and with PB: all; inside with excess, inside without, at an end,
# never, none to fill; rest like the uniform loss; first, middle, last interval;
# dry; just before, just behind, just not; then the wrong rules a to e
expected='4 2,0 1,1 0,1 0,1 1,1 0,1 0,2 0,0 1,0 0,1 0,0 1,0 1,1 0,1 1,1 1,1 1,1 1,1 1,'
got=$(printf '%b' "$known" | "$losses" | awk '$1 ~ /^[0-9]/ { printf "%s %s,", $1, $2 }')
check 'losses counted' "$expected" "$got"
got=$(printf '%b' "$known" | "$losses" | grep -c ': MISSING$')
check 'losses: what is missing' 12 "$got"
printf '%b' "$known" | "$losses" >"$scratch/said"
check 'losses: a count of 0 fails' 1 $?
printf '%b' "$(sized "$pond")\x01" | "$losses" >"$scratch/said" 2>&1
check 'losses: input cut short' 2 $?

# The counter of ratios.  Of the runoff blocks of the first three decks, UP under
# 1.50 and 0.50, four drops under 0.33 and sevenths under 0.33, all have another
# hydrograph by (b); the last two by (a) and by (c); the last by (d), which asks
# for a total; UP has one by (e) twice, the others have no loss.  The fourth deck
# has no JR.  Refused with 13: one whose first ratio alone is refused later, one
# beside 15, one by a unit under its first ratio, one by a unit under its second,
# the smaller.
known=$(sized "${jr_pond/1.00/'1.5,.5'}")$(sized "$(drops .33 $each)")$(sized "$(seventh .33)")
known+=$(sized "$small")$(sized "$(later 1,2)")$(sized "$(later .99,1)")$(sized "$(unit 2,1.99)")$(sized "$(drip .04,.03)")
# no JR, one, two to eight, nine; 0.01, 9.99, 1.00; equal, rising, falling; no
# runoff; once at the limit; blocks; the wrong rules a to e; refused with 13: all,
# the first ratio elsewhere or not at all, the last likewise, beside 14, beside
# 15, smaller, by a unit; refusals that are wrong
expected='1,2,1,0,0,0,0,0,0,1,0,0,3 1,1 1,3 1,1 1,0 1,2 0,4,1,1,0,1,0,1,1,2,0,'
got=$(printf '%b' "$known" | "$ratios" | awk '$1 ~ /^[0-9]/ { printf "%s,", $1 (substr($0, 10, 8) ~ /[0-9]/ ? " " $2 : "") }')
check 'ratios counted' "$expected" "$got"
got=$(printf '%b' "$known" | "$ratios" | grep -c ': MISSING$')
check 'ratios: what is missing' 11 "$got"
printf '%b' "$known" | "$ratios" >"$scratch/said"
check 'ratios: a count of 0 fails' 1 $?
printf '%b' "$(sized "$pond")\x01" | "$ratios" >"$scratch/said" 2>&1
check 'ratios: input cut short' 2 $?

# The counter of ponds.  Accepted are the worked example, whose inflow has an
# area, and a pond that is filled to its last row, where 1,452 V is M Q; both let
# their water fall again.  Refused: equal SV in the last row; a hundredth too much
# in the last interval; too much under the second of two ratios, where the first
# meets 15; small letters; a second RS; no SQ.  A deck without a pond is the last.
known=$(sized "${worked/QI/BA 2.5\\nQI}")$(sized "$(pool 60 0,.05 0,1.21 0,2.42)")$(sized "$(pool 60 0,1,1 0,1,2 0)")
known+=$(sized "$(pool 60 0,.05 0,1.21 ,,,2.43)")$(sized "$(dam 1,1.01 '' "$inflow")")$(sized "${free}KK P\nRS 1,stor\n")
known+=$(sized "${free}KK P\nRS 1,STOR\nRS x\n")$(sized "$free${inflow}KK P\nRS 1,STOR\nSV 0,1\nZZ\n")$(sized "$small")
# all decks, accepted, with a pond
expected='9,3,2,'
# ponds: all; rows; same outflow, none; exact, near; largest; at the last, inner
# row; back, several rows, higher, wide; no inflow, NQ 1; below a pond, runoff,
# inflow, confluence, routing; ratios, twenty, area; lines and forms
expected+='2,1,1,0,0,0,1,0,0,1,0,2,0,0,1,0,0,0,0,2,0,0,0,0,1,0,0,0,0,0,2,0,0,'
# (a) to (v)
expected+='1,1,1,1,2,1,3,3,1,1,1,2,1,0,0,0,0,2,1,1,0,1,'
# a second RS, 6 on RS, 7 on RS, SV and SQ; parts of the set, all with another
expected+='1,0,0,0,0,0,0,0,0,1,0,0,0,0,0,0,0,0,0,0,1,0,0,0,0,0,0,0,0,0,0,0,0,'
# 10, 13, 19, 20
expected+='0,0,0,1,0,0,0,0,0,0,1,0,0,0,0,1,0,0,2,0,0,1,1,0,0,1,0,0,0,1,0,1,'
got=$(printf '%b' "$known" | "$ponds" | awk '$1 ~ /^[0-9]/ { printf "%s,", $1 }')
check 'ponds counted' "$expected" "$got"
printf '%b' "$known" | "$ponds" >"$scratch/said"
check 'ponds: a count of 0 fails' 1 $?
check 'ponds: what is missing' "$(grep -o '\b0,' <<<"$expected" | grep -c .)" "$(grep -c ': MISSING$' "$scratch/said")"
printf '%b' "$(sized "$worked")\x01" | "$ponds" >"$scratch/said" 2>&1
check 'ponds: input cut short' 2 $?
# the deck writer's own decks, with memory watched: lawful ones are accepted, and
# its long chains of ponds too
"$decks" sound 2 400 | "$prog" --bundle >"$scratch/said"
check 'sound decks: none is refused' 0 "$(grep -c '^REFUSED' "$scratch/said")"
check 'sound decks: some have ponds' yes "$([ "$(grep -c '^[^ ]* 5 ' "$scratch/said")" -gt 100 ] && echo yes)"
for number in 19 20; do
    "$decks" damaged 2 100 "$number" | "$prog" --bundle >"$scratch/said"
    check "damaged decks: $number is met" yes "$([ "$(grep -c "^REFUSED $number " "$scratch/said")" -gt 40 ] && echo yes)"
done
for rows in 2 5 20; do
    check "a chain of ponds of $rows rows" 'END 200' "$("$decks" big 2 ponds 200 300 "$rows" | "$prog" | tail -n 1)"
done
check 'the longest chain fits' yes "$([ "$("$decks" big 2 ponds | wc -c)" -le 60000 ] && echo yes)"
check 'no table of one row' 2 "$("$decks" big 2 ponds 200 300 1 >"$scratch/said" 2>&1; echo $?)"

# The counter of zeros.  Accepted are a deck in free form with 60.0, 1.500, .0,
# -0.0 and 10.0, one in fixed form with 1.050000, and one without a point.
# Refused with 6: 60.5, 1.0010 on BA, ten digits; with 7: 20.00010 on PI, 0.000 on
# BA.
known=$(sized '*FREE\nIT 60.0,,,4\nKK A\nQI 1.500,.0,-0.0,10.0\nZZ\n')$(sized "$fix$(fixed QI 1 1.050000)\nZZ\n")$(sized "$small")
known+=$(sized "$(it 60.5,,,4)")$(sized "${area}BA 1.0010\nZZ\n")$(sized "$(unit_deck 1.500000000)")
known+=$(sized "${free}KK A\nPI 20.00010\nZZ\n")$(sized "${area}BA 0.000\nZZ\n")
# all decks, accepted
expected='8,3,'
# in fixed form, in free form, a place left, outside the limits: IT 1 and 4, JR,
# BA, PB, PI, LU, UI, QI, HC, RM, RS, SV, SQ
expected+='0 1 1 0,0 0 0 0,0 0 0 0,0 0 1 1,0 0 0 0,0 0 0 1,0 0 0 0,0 0 0 0,0 0 0 0,0 0 0 0,1 1 0 0,0 0 0 0,'
expected+='0 0 0 0,0 0 0 0,0 0 0 0,0 0 0 0,0 0 0 0,0 0 0 0,0 0 0 0,'
# within, nine digits, .0, -0.0, 0.000, 5., 00.50, 10.0, 1.0500, many, highest,
# lowest, a full field; ten digits, 60.5, 1.001, 1.0010, above, zero, negative
expected+='1,0,1,1,0,0,0,1,1,1,0,0,1,1,1,1,1,1,1,0,'
# (a) 60 is 6 and 10 is 1 in the first; (b) 1.5, and 1.1 for BA; (c) ten digits;
# (d) 60, and 1.00 for BA; (e) 150 and 10,500 cfs; (f) and (g) 6 for four decks;
# (h) 6 for 1.050000; (i) 6, (j) 7 and (k) 6 for the first; none misread
expected+='1,2,1,2,2,4,4,1,1,1,1,0,'
got=$(printf '%b' "$known" | "$zeros_counter" | awk '$1 ~ /^[0-9]/ { t = $1; for (i = 2; i <= 4; i++) if (substr($0, 9 * i - 8, 9) ~ /^ *[0-9]+ $/) t = t " " $i; printf "%s,", t }')
check 'zeros counted' "$expected" "$got"
printf '%b' "$known" | "$zeros_counter" >"$scratch/said"
check 'zeros: a count of 0 fails' 1 $?
check 'zeros: what is missing' 38 "$(grep -c ': MISSING$' "$scratch/said")"
printf '%b' "$known\x01" | "$zeros_counter" >"$scratch/said" 2>&1
check 'zeros: input cut short' 2 $?
check 'zeros: an unknown word' 2 "$("$zeros_counter" --nonsense </dev/null >"$scratch/said" 2>&1; echo $?)"
# pairs: zeros in one deck, in neither, in both; and one that is refused
one_and_half="${free}KK A\nQI 1.5\nZZ\n"
one_pair=$(sized "$one_and_half")$(sized "${one_and_half/1.5/1.500}")
known=$one_pair$(sized "$small")$(sized "$small")$(sized "${one_and_half/1.5/1.5000}")$(sized "${one_and_half/1.5/1.500}")
known+=$(sized "$small")$(sized "$(it 60.5,,,4)")
got=$(printf '%b' "$known" | "$zeros_counter" --pairs | awk '$1 ~ /^[0-9]/ { printf "%s,", $1 }'; echo "status ${PIPESTATUS[1]}")
check 'zeros: pairs' '4,3,1,1,1,status 0' "$got"
got=$(printf '%b' "$one_pair" | "$zeros_counter" --pairs | grep -c ': MISSING$')
check 'zeros: pairs that are missing' 2 "$got"
# the deck writer's own decks, with memory watched
{ "$decks" bundle 2 1500; "$decks" damaged 2 500 6; } | "$zeros_counter" >"$scratch/said"
check 'zeros: no wrong rule is left' '' "$(grep '(.*: MISSING' "$scratch/said")"
check 'zeros: numbers that are not read by the rule' 0 "$(awk 'END { print $1 }' "$scratch/said")"
check 'zeros: all written decks are looked at' 2000 "$(awk '$2 == "all" { print $1 }' "$scratch/said")"
"$decks" pairs 2 200 | "$zeros_counter" --pairs >"$scratch/said"
check 'zeros: pairs of the deck writer' 0 $?
check 'a long deck with zeros' END "$("$decks" big 2 zeros | "$prog" | awk 'END { print $1 }')"
check 'it fits' yes "$([ "$("$decks" big 2 zeros | wc -c)" -le 60000 ] && echo yes)"

# The counter of moves.  To the new form: a record moved; the same with a room as
# long as the file, which is enough by (k) alone.  To the old form: refused by 3
# for place 2 in a room that is too short, which (f), (i) and (j) answer by 4;
# refused by 2 for byte 39 in the second record, where (a), (c), the rule that
# passes over that byte and (e) answer by 3 for the first; a byte too few.
known=$(move_of 0 40 "$old")$(move_of 0 32 "$old")$(move_of 1 41 "$new$second_place")
known+=$(move_of 1 64 "${old}6401010000000000$padded")$(move_of 1 0 "${new:0:78}")
# moved, refused by 1 to 4; all, empty without and with room, one record and one
# moved, thousands likewise, room as the file, exact, a byte less, a byte more,
# all but the last, none; 1 beside 2, 3 and 4, 2 behind 3, 2 before 3, 2 and 4, 3
# and 4, all; (a) to (c), bytes 7, 22, 23, 36 to 39, (e) to (k), left by 2, 3 and
# 4, left behind, the sum; answers that are wrong
expected='1 0,0 1,0 1,0 1,1 0,'
expected+='2 3,0 0,0 0,2 0,1 0,0 0,0 0,1 0,1 1,0 0,0 0,0 0,0 0,'
expected+='0 0,0 0,0 0,0 1,0 0,0 0,0 1,0 0,'
expected+='0 1,0 0,0 1,0 0,0 0,0 0,0 0,0 0,0 0,0 1,0 1,0 1,0 0,0 0,0 1,0 1,1 0,'
expected+='0 1,0 1,1 0,0 0,1 0,0,'
got=$(printf '%b' "$known" | "$moves" | awk '$1 ~ /^[0-9]/ { printf "%s,", $1 (substr($0, 10, 8) ~ /[0-9]/ ? " " $2 : "") }')
check 'moves counted' "$expected" "$got"
printf '%b' "$known" | "$moves" >"$scratch/said"
check 'moves: a count of 0 fails' 1 $?
got=$(printf '%b' "$known" | "$moves" | grep -c ': MISSING$')
check 'moves: what is missing' 37 "$got"
for rest in '\x01' "$(le4 0)$(le4 1)" "$(le4 0)$(le4 1)$(le4 1)" "$(move_of 2 1 00)" "$(move_of 0 80001 00)"; do
    printf '%b' "$known$rest" | "$moves" >"$scratch/said" 2>&1
    check "moves: input cut short $rest" 2 $?
done
# the deck writer's own cases, with memory watched: the counter states the rules
# of the mover once more, and counts where the mover does not follow them
"$decks" moves 2 1000 >"$scratch/cases"
"$moves" <"$scratch/cases" >"$scratch/said" 2>&1
check 'moves: all written cases are looked at' 1000 "$(awk 'NF == 3 && $3 == "all" { print $1 + $2 }' "$scratch/said")"
check 'moves: answers that are not right' 0 "$(awk 'END { print $1 }' "$scratch/said")"
"$decks" moves 2 200 >"$scratch/fewer"
cmp -s "$scratch/fewer" <(head -c $(($(wc -c <"$scratch/fewer"))) "$scratch/cases")
check 'moves: the same seed begins alike' 0 $?
"$decks" moves 3 200 | cmp -s - "$scratch/fewer"
check 'moves: another seed does not' 1 $?

# The counter of sheets.  UP of document 01, in row 2 alone; no sheet; a block
# one above the count; rows 1 to 3 under the first of three ratios; the flows at
# and about a half; and far above every count in a deck that is refused with 10.
known=$(sheet_of 1 0 "$pond")$(sheet_of 0 0 "$pond")$(sheet_of 5 0 "$pond")$(sheet_of 1 1 "$jr_runoff")
known+=$(sheet_of 0 0 "$(runoff 1 4 ,.0059 .0001 .29,.3,.31)")$(sheet_of 1000 0 "${pond/HC 2/HC 3}")
# all, sheets, kinds 2 to 5, refused by 2 to 20
expected='6,3,0,1,0,0,0,0,0,0,0,0,0,0,1,0,0,0,0,0,0,1,0,0,0,'
# block 0, with a sheet, the last by its number; ratio 0 of several, without JR,
# ratio 1 without JR; block, ratio or both one above, ratio 2 without JR, far
# above, in a refused deck; ratios 1 to 9
expected+='2,1,1,0,2,0,1,0,0,0,0,1,1,0,0,0,0,0,0,0,0,'
# plain, PB, JR, both; no excess, but rain; first, last, last alone; dry and lost
# between; three in a column; more units, cut, none, 0 first, between and last;
# NQ 1, longest, comma; no loss, one unit; a third, two thirds; a share at, below
# and above a half; a sum likewise; hidden; the limit; most rain; a small ratio; a
# late block; the longest deck
expected+='2,0,1,0,0,0,2,0,0,0,0,0,0,0,0,0,0,0,0,0,0,0,1,1,1,1,1,1,0,0,0,1,0,0,0,0,0,'
# (a) to (y)
expected+='3,3,1,3,3,0,2,3,1,1,1,0,0,1,0,1,1,1,1,1,3,1,0,1,1,'
got=$(printf '%b' "$known" | "$sheets" | awk '$1 ~ /^[0-9]/ { printf "%s,", $1 }')
check 'sheets counted' "$expected" "$got"
printf '%b' "$known" | "$sheets" >"$scratch/said"
check 'sheets: a count of 0 fails' 1 $?
check 'sheets: what is missing' "$(grep -o '\b0,' <<<"$expected" | grep -c .)" "$(grep -c ': MISSING$' "$scratch/said")"
got=$(printf '%b' "$known" | "$sheets" --text; echo "status $?")
check 'sheets: the texts' "$(printf '%b' "$known" | "$prog" --sheet; echo 'status 0')" "$got"
for rest in '\x01' "$(le4 1)" "$(le4 1)$(le4 0)" "$(le4 1)$(le4 0)$(le4 3)ZZ"; do
    printf '%b' "$known$rest" | "$sheets" >"$scratch/said" 2>&1
    check "sheets: input cut short $rest" 2 $?
done
check 'sheets: an unknown option' 2 "$("$sheets" --nonsense </dev/null >"$scratch/said" 2>&1; echo $?)"
# the deck writer's own cases, with memory watched: the counter works out every
# sheet from the engine's rain and excess, the program from the cards
"$decks" sheets 2 600 >"$scratch/cases"
"$prog" --sheet <"$scratch/cases" >"$scratch/said"
check 'sheets: the status on written cases' 0 $?
"$sheets" --text <"$scratch/cases" | cmp -s - "$scratch/said"
check 'sheets: the program and the counter agree' 0 $?
"$sheets" <"$scratch/cases" >"$scratch/said"
check 'sheets: all written cases are looked at' 600 "$(awk '$2 == "all" { print $1 }' "$scratch/said")"
check 'sheets: no wrong rule is left' '' "$(grep '(.*: MISSING' "$scratch/said")"
"$decks" sheets 2 200 >"$scratch/fewer"
cmp -s "$scratch/fewer" <(head -c $(($(wc -c <"$scratch/fewer"))) "$scratch/cases")
check 'sheets: the same seed begins alike' 0 $?
"$decks" sheets 3 200 | cmp -s - "$scratch/fewer"
check 'sheets: another seed does not' 1 $?

# The counter of hydrographs.  RIV of document 01, in free form, and its last
# block, with an IT behind ZZ; a block one above the count; a runoff under the
# second of three ratios, 1.00; flows of 29, 30 and 31 units in an interval of a
# minute; and far above every count in a deck that is refused with 10.
known=$(sheet_of 2 0 "$pond")$(sheet_of 0 1 "${pond}IT 15,,,2\n")$(sheet_of 5 0 "$pond")$(sheet_of 1 2 "$jr_runoff")
known+=$(sheet_of 0 0 "$(runoff 1 4 ,.0059 .0001 .29,.3,.31)")$(sheet_of 1000 0 "${pond/HC 2/HC 3}")
# all, texts of kinds 1 to 5, refused by 2 to 20
expected='6,2,0,1,1,0,0,0,0,0,0,0,0,0,1,0,0,0,0,0,0,1,0,0,0,'
# block 0, the last by its number; ratio 0 of several, without JR, ratio 1 without
# JR; block, ratio or both one above, ratio 2 without JR, far above, in a refused
# deck; ratios 1 to 9
expected+='1,0,0,2,1,1,0,0,0,0,1,0,1,0,0,0,0,0,0,0,'
# NQ 1 and 300; not 60 minutes, most of them; IT fixed, free, behind ZZ; no flow,
# zeros behind; a half of runoff, confluence, routing, pond; below, above it;
# hidden; up to whole cfs, not up to them; the limit; a late block; the longest
# deck
expected+='0,0,1,0,0,4,1,0,2,1,0,0,0,1,1,1,0,0,0,0,0,'
# (a) to (q).  The block before: RIV, OUT; behind: RIV; the last: RIV.  The first
# ratio and the last: the runoff.  Cut off: the flow of 30 and that of 31; RIV and
# OUT are rounded down anyway
expected+='2,1,1,1,1,1,1,1,3,0,3,4,1,4,2,1,1,'
got=$(printf '%b' "$known" | "$hydrographs" | awk '$1 ~ /^[0-9]/ { printf "%s,", $1 }')
check 'hydrographs counted' "$expected" "$got"
printf '%b' "$known" | "$hydrographs" >"$scratch/said"
check 'hydrographs: a count of 0 fails' 1 $?
check 'hydrographs: what is missing' "$(grep -o '\b0,' <<<"$expected" | grep -c .)" "$(grep -c ': MISSING$' "$scratch/said")"
got=$(printf '%b' "$known" | "$hydrographs" --text; echo "status $?")
check 'hydrographs: the texts' "$(printf '%b' "$known" | "$prog" --hydrograph; echo 'status 0')" "$got"
for rest in '\x01' "$(le4 1)" "$(le4 1)$(le4 0)" "$(le4 1)$(le4 0)$(le4 3)ZZ"; do
    printf '%b' "$known$rest" | "$hydrographs" >"$scratch/said" 2>&1
    check "hydrographs: input cut short $rest" 2 $?
done
check 'hydrographs: an unknown option' 2 "$("$hydrographs" --nonsense </dev/null >"$scratch/said" 2>&1; echo $?)"
# the deck writer's own cases, with memory watched
"$decks" hydrographs 2 600 >"$scratch/cases"
"$prog" --hydrograph <"$scratch/cases" >"$scratch/said"
check 'hydrographs: the status on written cases' 0 $?
"$hydrographs" --text <"$scratch/cases" | cmp -s - "$scratch/said"
check 'hydrographs: the program and the counter agree' 0 $?
"$hydrographs" <"$scratch/cases" >"$scratch/said"
check 'hydrographs: all written cases are looked at' 600 "$(awk '$2 == "all" { print $1 }' "$scratch/said")"
check 'hydrographs: no wrong rule is left' '' "$(grep '(.*: MISSING' "$scratch/said")"
"$decks" hydrographs 2 200 >"$scratch/fewer"
cmp -s "$scratch/fewer" <(head -c $(($(wc -c <"$scratch/fewer"))) "$scratch/cases")
check 'hydrographs: the same seed begins alike' 0 $?
"$decks" hydrographs 3 200 | cmp -s - "$scratch/fewer"
check 'hydrographs: another seed does not' 1 $?

# The counter of reasons.  The examples of the words, one of them with two fields
# that are no number; no bytes; in form 2, by number 8, RS with a malformed field, a
# wrong word and a foreign byte behind; an eleventh value; a blank inside a number of
# the fixed form; and blank fields at the end of JR.
known=$(sheet_of 7 1 'IT 60,,,400')$(sheet_of 6 1 'BA 1.56780\n')$(sheet_of 6 1 'QI 1,2x,y\r\nKK')$(sheet_of 7 1 'JR PREC,1,,2')
known+=$(sheet_of 6 1 'KK RESERVOIR TWO')$(sheet_of 6 1 '')$(sheet_of 8 2 'RS X ST OR\n\x01')$(sheet_of 6 1 'SV 1,2,3,4,5,6,7,8,9,10,11')
known+=$(sheet_of 6 0 'BA   1 2')$(sheet_of 7 1 'JR PREC,1,,')
# all, nothing, NAME, BLANK, NUMBER, PLACES, LIMITS, WORD
expected='10,2,1,1,2,1,2,1,'
# IT; JR; BA, PB; LU; HC; RM; RS; the lists: each by 6 fixed and free, 7 fixed and free
expected+='0 0 0 0,0 0 0 1,0 0 - -,0 0 - -,0 0 0 0,0 0 0 1,- 0 - -,1 1 0 0,0 0 - -,0 0 0 0,0 0 - -,'
expected+='0 0 0 0,0 0 0 0,0 0 0 0,0 0 - -,0 0 0 0,0 0 - -,0 0 0 0,0 0 0 0,0 0 0 0,0 0 - -,'
expected+='0 0 0 0,- - 0 1,0 0 0 0,0 0 - -,0 0 0 0,0 0 0 0,0 1 0 0,0 0 0 0,0 0 0 0,'
# nothing: no bytes .. by the other number; names; BLANK; NUMBER; PLACES; LIMITS;
# WORD; blanks at the end, malformed before; 80 bytes, no LF, CR LF, bytes and a
# foreign one behind, a long case; another number, another form
expected+='1,0,0,0,0,0,0,1,0,0,1,0,0,1,0,1,0,2,0,0,1,0,0,0,0,1,0,0,0,1,0,0,1,0,5,1,2,1,0,1,1,'
# (a) to (x).  From 0: all seven fields.  As though fixed: IT, BA in free form, QI,
# the first JR, the name, RS and SV
expected+='1,7,1,1,1,1,0,0,1,1,0,1,0,0,1,0,0,1,0,1,1,1,7,1,'
got=$(printf '%b' "$known" | "$reasons_counter" | awk '/^ *[0-9-]/ && !/6 fixed/ {
    line = $1
    for (k = 2; k <= 4 && $1 $2 ~ /^[0-9-]+$/; k++) line = line " " $k
    printf "%s,", line
}')
check 'reasons counted' "$expected" "$got"
printf '%b' "$known" | "$reasons_counter" >"$scratch/said"
check 'reasons: a count of 0 fails' 1 $?
check 'reasons: what is missing' "$(tr , '\n' <<<"$expected" | grep -cw 0)" "$(grep -c ': MISSING$' "$scratch/said")"
got=$(printf '%b' "$known" | "$reasons_counter" --text; echo "status $?")
check 'reasons: the texts' "$(printf '%b' "$known" | "$prog" --reason; echo 'status 0')" "$got"
for rest in '\x01' "$(le4 6)" "$(le4 6)$(le4 0)" "$(le4 6)$(le4 0)$(le4 3)ZZ"; do
    printf '%b' "$known$rest" | "$reasons_counter" >"$scratch/said" 2>&1
    check "reasons: input cut short $rest" 2 $?
done
check 'reasons: an unknown option' 2 "$("$reasons_counter" --nonsense </dev/null >"$scratch/said" 2>&1; echo $?)"
# the deck writer's own cases, with memory watched
"$decks" reasons 2 2000 >"$scratch/cases"
"$prog" --reason <"$scratch/cases" >"$scratch/said"
check 'reasons: the status on written cases' 0 $?
"$reasons_counter" --text <"$scratch/cases" | cmp -s - "$scratch/said"
check 'reasons: the program and the counter agree' 0 $?
"$reasons_counter" <"$scratch/cases" >"$scratch/said"
check 'reasons: nothing is missing' 0 $?
check 'reasons: all written cases are looked at' 2000 "$(awk '$2 == "all" { print $1 }' "$scratch/said")"
"$decks" reasons 2 200 >"$scratch/fewer"
cmp -s "$scratch/fewer" <(head -c $(($(wc -c <"$scratch/fewer"))) "$scratch/cases")
check 'reasons: the same seed begins alike' 0 $?
"$decks" reasons 3 200 | cmp -s - "$scratch/fewer"
check 'reasons: another seed does not' 1 $?

# The counter of tables.  A deck that is refused, or one edge alone, is not enough.
"$tables" "$scratch/decks/pond.hc1" >"$scratch/said"
check 'tables: a count of 0 fails' 1 $?
check 'tables counted' '1 deck without a JR,4 name of length in all,1 confluence of 2,' \
    "$(awk '$1 == 1 && /without a JR|confluence of 2/ { a[++n] = $0 } /name of length/ { s += $1 }
        END { sub(/^ */, "", a[1]); sub(/^ */, "", a[2]); gsub(/  /, " ", a[1]); gsub(/  /, " ", a[2])
            printf "%s,%d name of length in all,%s,", a[1], s, a[2] }' "$scratch/said")"
check 'tables: nothing differs' 0 "$(grep -c 'not those of the right rule' "$scratch/said")"
"$tables" "$scratch/decks/pond.hc1" "$scratch/decks/bad.hc1" >"$scratch/said"
check 'tables: a refused deck is told' "$scratch/decks/bad.hc1 is refused" "$(head -n 1 "$scratch/said")"
check 'tables: what cannot be read' 2 "$("$tables" "$scratch/decks/none.hc1" >"$scratch/said" 2>&1; echo $?)"
# the deck writer's own files, with memory watched
mkdir "$scratch/written" "$scratch/fewer.d" "$scratch/other.d"
"$decks" tables 2 200 "$scratch/written"
"$tables" "$scratch/written"/*.hc1 >"$scratch/said"
check 'tables: nothing is missing' 0 $?
"$prog" --table "$scratch/written"/*.hc1 >"$scratch/said"
check 'tables: the status on written decks' 0 $?
check 'tables: all written decks are accepted' 0 "$(grep -ac '^ *-  .*: REFUSED [0-9]* [0-9]*$' "$scratch/said")"
check 'tables: no line ends with blanks' 0 "$(grep -ac ' $' "$scratch/said")"
# a row for each block, and two of stems before each but the first
got=
for number in 0001 0026 0051 0100 0200; do
    "$prog" --network "$scratch/written/$number.hc1" >"$scratch/said" || got+="$number "
    blocks=$("$prog" <"$scratch/written/$number.hc1" | sed -n '$s/^END //p')
    [ "$(wc -l <"$scratch/said")" -eq $((3 * blocks + 2)) ] || got+="$number "
done
check 'tables: the rows of networks' '' "$got"
"$decks" tables 2 20 "$scratch/fewer.d"
"$decks" tables 3 20 "$scratch/other.d"
got=$(for number in 0001 0020; do
    cmp -s "$scratch/fewer.d/$number.hc1" "$scratch/written/$number.hc1"; echo $?
    cmp -s "$scratch/fewer.d/$number.hc1" "$scratch/other.d/$number.hc1"; echo $?
done)
check 'tables: the same seed writes the same' "$(printf '0\n1\n0\n1')" "$got"
check 'tables: so many files' 20 "$(find "$scratch/fewer.d" -name '*.hc1' | wc -l)"
check 'tables: no such folder' 1 "$("$decks" tables 2 1 "$scratch/nowhere" >"$scratch/said" 2>&1; echo $?)"

# ---- Fuzz ----------------------------------------------------------------

if "$fuzz" >"$scratch/fuzz" 2>&1; then
    passed=$((passed + 1))
    cat "$scratch/fuzz"
else
    failed=$((failed + 1))
    echo 'FAILED: fuzz'
    tail -n 40 "$scratch/fuzz"
fi

echo "$passed passed, $failed failed"
[ "$failed" -eq 0 ]
