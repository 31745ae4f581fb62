# table.sh, for ../hec1 to source: the summary for people, of one deck or of several side by side.
# shellcheck shell=sh
#
# Peak, area, interval of the peak and sum are those of the proved program's listing, and the minutes those of its hydrograph. Times and
# volumes are worked from them in the shell's whole numbers, and each figure is rounded once, half up. The largest number is 300 ordinates of
# 100,000 cfs in units times 1,440 minutes, some 2.6 times 10 to the 18th, which 64 bits hold.

# A thousandth of an acre-foot in units of flow times minutes: 43,560 cubic feet over 60 of a cfs in a minute, and 60,000,000 units to a cfs.
acre_foot=43560000
# A thousandth of an inch over a hundredth of a square mile, which is 6.4 acres, in the same.
inch=23232000

# divide A B: sets quotient to A / B thousandths, rounded half up and written with three places; B is even
divide() {
    quotient=$((($1 + $2 / 2) / $2))
    places=$((quotient % 1000 + 1000))
    quotient=$((quotient / 1000)).${places#1}
}

# clock MINUTES: sets time to hours and minutes
clock() {
    time=$(($1 % 60 + 100))
    time=$(($1 / 60)):${time#1}
}

# hundredths AREA: sets area to hundredths of a square mile. A zero first would make the number an octal one.
hundredths() {
    area=${1#*.}
    area=$((${1%.*} * 100 + ${area#0}))
}

# figures MINUTES: for each line of a listing on standard input the words of the columns under it: peak, time, acre-feet, inches and square
# miles, a dash for what there is not; a line 'RATIO R' stays as it is
figures() {
    while read -r station kind miles peak interval sum; do
        case $station:$sum in
        RATIO:) echo "RATIO $kind" ;;
        *:?*)
            hundredths "$miles"
            time=- inches=-
            if [ "$sum" != 0 ]; then clock $((interval * $1)); fi
            if [ "$area" = 0 ]; then
                miles=-
            else
                divide $((sum * $1)) $((inch * area))
                inches=$quotient
            fi
            divide $((sum * $1)) "$acre_foot"
            echo "$peak $time $quotient $inches $miles"
            ;;
        esac
    done
}

# look_at_minutes: has the file texts begin with a hydrograph, which tells the minutes of an interval. What warnings want begins so too.
look_at_minutes() {
    if [ -z "$quiet" ]; then
        look_into
    else
        echo 0 0 >"$work/asked"
        answer hydrograph "$hydrograph_head"
    fi
}

# add_columns: the accepted deck in the work folder, which is shown as $name, to the files rows (column, operation, number combined, station
# and figures of a block) and legend (column and words)
add_columns() {
    draw_listed
    minutes=$(sed -n '2s/^1,\([0-9]*\),.*/\1/p' "$work/texts")
    if [ -z "$minutes" ]; then die "$name: the program tells no minutes"; fi
    figures "$minutes" <"$work/listing" >"$work/figures"
    TITLE=$(title) NAME=$name LEGEND=$work/legend LC_ALL=C awk -v column="$columns" '
        function name_column(words) {
            print ++column, ENVIRON["NAME"] words (ENVIRON["TITLE"] == "" ? "" : ": " ENVIRON["TITLE"]) >>ENVIRON["LEGEND"]
            block = 0
        }
        NR == FNR {
            letter[NR] = $3 == 3 ? "C" : $3 > 3 ? "R" : "H"
            number[NR] = $4
            station[NR] = $2
            next
        }
        $1 == "RATIO" {
            name_column(", ratio " $2)
            next
        }
        FNR == 1 { name_column("") }
        {
            block++
            print column, letter[block], number[block], station[block], $0
        }' "$work/drawn" "$work/figures" >>"$work/rows"
    columns=$(sed -n '$s/ .*//p' "$work/rows")
}

# in_columns LEFT: cells, tab between them, as a table: those of the first LEFT columns begin at the left, the others end at the right
in_columns() {
    LC_ALL=C awk -F '\t' -v left="$1" '
        {
            for (k = 1; k <= NF; k++) {
                cell[NR, k] = $k
                if (length($k) > width[k]) width[k] = length($k)
            }
            if (NF > columns) columns = NF
        }
        END {
            for (row = 1; row <= NR; row++) {
                text = ""
                for (k = 1; k <= columns; k++) text = text sprintf("%" (k <= left ? "-" : "") width[k] "s  ", cell[row, k])
                sub(/ +$/, "", text)
                print text
            }
        }'
}

# The heads of a block's figures, in the order of figures.
heads='PEAK CFS,TIME H:MM,ACRE-FEET,INCHES,SQ MILES'

# An operation in words, for awk, by its letter; the number that is combined, below 0 where decks differ in it.
operation='
        function operation(letter, number) {
            if (letter != "C") return letter == "H" ? "HYDROGRAPH AT" : "ROUTED TO"
            return (number < 0 ? "" : number " ") "COMBINED AT"
        }'

# down: the rows of one column as a table, blocks down and figures across
down() {
    HEADS=$heads LC_ALL=C awk "$operation"'
        BEGIN {
            OFS = "\t"
            split(ENVIRON["HEADS"], head, ",")
            print "OPERATION", "STATION", head[1], head[2], head[3], head[4], head[5]
        }
        { print operation($2, $3), $4, $5, $6, $7, $8, $9 }' "$work/rows" | in_columns 2
}

# across: the rows of all columns as one table, stations and their figures down and columns across. A station is one by its operation,
# whatever number it combines, its name, and which one it is of its column with both.
across() {
    HEADS=$heads LC_ALL=C awk "$operation"'
        BEGIN { split(ENVIRON["HEADS"], head, ",") }
        {
            columns = $1
            key = $2 " " $4
            key = key " " ++met[columns, key]
            if (!(key in number)) {
                order[++stations] = key
                number[key] = $3
            }
            if (number[key] != $3) number[key] = -1
            for (k = 1; k <= 5; k++) figure[key, columns, k] = $(k + 4)
            if ($9 != "-") wide[key] = 1
        }
        END {
            line = "OPERATION\tSTATION\t"
            for (c = 1; c <= columns; c++) line = line "\t" c
            print line
            for (s = 1; s <= stations; s++) {
                key = order[s]
                split(key, part, " ")
                line = operation(part[1], number[key]) "\t" part[2]
                for (k = 1; k <= (key in wide ? 5 : 3); k++) {
                    line = line "\t" head[k]
                    for (c = 1; c <= columns; c++) line = line "\t" ((key, c, k) in figure ? figure[key, c, k] : "-")
                    print line
                    line = "\t"
                }
            }
        }' "$work/rows" | in_columns 3
}

# legend: what each column is
legend() {
    LC_ALL=C awk -v width="${#columns}" '{ printf "%" width "s  %s\n", $1, substr($0, length($1) + 2) }' "$work/legend"
}

# table FILE...: the summary of one deck, blocks down, or of several decks or ratios side by side
table() {
    columns=0
    : >"$work/rows"
    : >"$work/legend"
    ready hec1
    ready hydrograph
    for file; do
        take "$file" || continue
        shown "$file"
        work_out
        accepted
        case $? in
        0)
            look_at_minutes
            add_columns
            if [ -z "$quiet" ]; then warn; fi
            ;;
        1) printf -- '- %s: %s\n' "$name" "$(cat "$work/listing")" >>"$work/legend" ;;
        esac
    done
    if [ $# = 1 ] && [ "$columns" = 0 ]; then
        if [ -s "$work/legend" ]; then show "$work/listing"; fi
        return
    fi
    if [ $# = 1 ] && [ "$columns" = 1 ]; then
        printf 'RUNOFF SUMMARY: %s%s\n' "$name" "$(sed -n '1s/^RATIO /, ratio /p' "$work/listing")"
        titles
        echo
        down
    elif [ -s "$work/legend" ]; then
        echo "RUNOFF SUMMARY"
        legend
        if [ "$columns" != 0 ]; then
            echo
            across
        fi
    fi | sed 's/ *$//' >"$work/table"
    show "$work/table"
}
