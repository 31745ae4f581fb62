# deck.sh, for ../hec1 to source: what tables, pictures and drawings want of a deck beside its figures: its title and its blocks.
# shellcheck shell=sh

# titles: the texts of the deck's ID lines, a line each, without those that are blank. ID stands before IT.
titles() {
    deck_lines | LC_ALL=C awk '
        /^IT/ { exit }
        /^ID/ {
            text = substr($0, 3)
            gsub(/^ +| +$/, "", text)
            if (text != "") print text
        }'
}

# title: the first of them
title() { titles | head -n 1; }

# heading: what stands above a picture: the title, or the deck's name where it has none
heading() {
    heading=$(title)
    printf '%s\n' "${heading:-$name}"
}

# drawn: a line for each block that is closed above line $1 of the deck in the work folder, or up to ZZ where $1 is 0: the line of its KK,
# its name, its kind and how many hydrographs it takes. Lines above one that is refused have been read soundly, so that what stands in
# them may be taken as it is.
drawn() {
    deck_lines | LC_ALL=C awk -v before="$1" '
        # the first field of a line
        function field(line) {
            line = free ? substr(line, 3) : substr(line, 3, 6)
            sub(/^ +/, "", line)
            sub(free ? "[ ,].*" : " +$", "", line)
            return line
        }
        function close_block() { if (begun) print begun, name, kind, takes }
        before && NR >= before { exit }
        /^\*FREE *$/ { free = 1 }
        /^\*FIX *$/ { free = 0 }
        /^(KK|ZZ)/ { close_block() }
        /^ZZ/ { exit }
        /^KK/ {
            begun = NR
            name = field($0)
            kind = 1
            takes = 0
        }
        /^QI/ { kind = 2 }
        /^HC/ {
            kind = 3
            takes = field($0) + 0
        }
        /^R[MS]/ {
            kind = /^RM/ ? 4 : 5
            takes = 1
        }'
}

# draw_listed: to the file drawn the blocks of an accepted deck, which is shown as $name. They have to be those of the listing, and to
# leave one hydrograph held: the number that a confluence takes is read here, and not told by the proved program.
draw_listed() {
    drawn 0 >"$work/drawn"
    LC_ALL=C awk '
        NR == FNR {
            line[NR] = $2 " " $3
            held += 1 - $4
            blocks = NR
            next
        }
        NF == 2 && $1 == "RATIO" { block = 0 }
        NF == 6 && line[++block] != $1 " " $2 { wrong = 1 }
        END { exit wrong || held != 1 || block != blocks }' "$work/drawn" "$work/listing" ||
        die "$name: the blocks that were read for the drawing are not those of the listing"
}
