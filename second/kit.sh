# kit.sh, for other scripts to source, with root set: what the second program is made of, where the Rattle kit is, whether a program that it proved
# is still that of the sources, and the numbers of the refusals.
# shellcheck shell=sh disable=SC2034,SC2154

# The sources of the second program, in this folder
sources='main.c engine.c cards.c records.c pond.c mover.c sheet.c hydrograph.c reason.c page.c table.c network.c'

# The refusals are 1 to this number. Two of them depend on the room that is lent: cases meet them, bundles do not.
refusals=20
room_refusals='1 17'

# The mover's own refusals
mover_refusals='1 2 3 4'

# numbers FIRST LAST: each number from the first to the last
numbers() { awk -v i="$1" -v last="$2" 'BEGIN { for (; i <= last; i++) print i }'; }

# deck_refusals: the refusals that depend on the deck alone, on one line; a bundle has to meet each of them
deck_refusals() {
    numbers 1 "$refusals" | awk -v rooms=" $room_refusals " '!index(rooms, " " $1 " ") { printf "%s ", $1 }'
}

# sheet_refusals: what a case of the sheet or of the hydrograph can be refused with: the same, and 17 for a block or ratio above the count
sheet_refusals() { echo "$(deck_refusals)17"; }

# find_kit: sets rt. Fails where there is no kit.
find_kit() {
    rt=$(command -v rt 2>/dev/null) || return 1
    rt=$(readlink -f "$rt")
}
no_kit='the Rattle kit is missing: there is no command rt'

# up_to_date PROGRAM: it is there, and nothing that programs are proved from is newer. What rt itself makes, in the folder out/ of each crate, does not count.
up_to_date() {
    [ -x "$1" ] && [ -z "$(find "$root/crates.txt" "$root"/crates/*/* -name out -prune -o -newer "$1" -print 2>/dev/null | head -n 1)" ]
}
