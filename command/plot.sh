# plot.sh, for ../hec1 to source: a picture of hydrographs, by gnuplot.
# shellcheck shell=sh

# The most curves of a picture where no block is named.
most_curves=12

# every_curve: the block and the ratio's place of each curve where no block is named: every block, or the last where these are too many
every_curve() {
    first=1
    under=$(echo "$places" | wc -l)
    if [ $((blocks * under)) -gt "$most_curves" ]; then
        first=$blocks
        say "$name: $(count "$blocks" block) under $(count $((under)) ratio) are more than $most_curves curves: the last block alone is drawn; name others behind the file"
    fi
    for which in $(numbers "$first" "$blocks"); do echo "$places" | sed "s/^/$which /"; done
}

# named_curves PLACE BLOCK...: the same of the blocks that are named. Fails where there is no such block or ratio.
named_curves() {
    place=$1
    shift
    for word; do
        choose "$word" "$place" || return
        echo "$places" | sed "s/^/$which /"
    done
}

# name_curves: to each line of the file asked the name of its curve: the block's, with its number where others are called so, and the ratio
name_curves() {
    LC_ALL=C awk '
        NR == FNR && NF == 2 && $1 == "RATIO" { ratio[++ratios] = $2 }
        NR == FNR && NF == 6 && ratios < 2 {
            name[++blocks] = $1
            called[$1]++
        }
        NR == FNR { next }
        { print $0, name[$1] (called[name[$1]] > 1 ? " (block " $1 ")" : "") (ratios ? ", ratio " ratio[$2] : "") }' "$work/listing" "$work/asked" >"$work/curves"
}

# plot_script: what gnuplot draws: the texts of the curves that the file curves names. Under several ratios, of which there are nine at most, a
# ratio has its colour and a block its dashes; else a block has its colour. The first seven are told apart by those too who see few.
plot_script() {
    HEADING=$(heading) FORMAT=$format LC_ALL=C awk '
        # a text in quotes; what is no letter or blank is written by its number, since gnuplot runs what stands in backquotes, and takes a digit
        # behind a number for one of it
        function quoted(text,    k, byte, said) {
            for (k = 1; k <= length(text); k++) {
                byte = substr(text, k, 1)
                said = said (byte in number ? sprintf("\\%03o", number[byte]) : byte)
            }
            return "\"" said "\""
        }
        # which one a thing is among those of its sort that were met, from 0
        function place(sort, thing) {
            if (!((sort, thing) in met)) met[sort, thing] = count[sort]++
            return met[sort, thing]
        }
        BEGIN {
            for (k = 33; k < 127; k++) if (sprintf("%c", k) !~ /[A-Za-z]/) number[sprintf("%c", k)] = k
            colours = split("#0072b2 #d55e00 #009e73 #cc79a7 #e69f00 #56b4e9 #000000 #999999 #882255", colour, " ")
            dashes = split("solid,\047-\047,\047.\047,\047-.\047,\047-..\047", dash, ",")
            size = ENVIRON["FORMAT"] == "svg" ? "svg size 960,540 background \047white\047" : "pngcairo size 1280,720"
            print "set terminal " size " noenhanced font \047Helvetica,14\047"
            print "set encoding utf8"
            print "set title " quoted(ENVIRON["HEADING"])
            print "set xlabel \047hours from the start\047"
            print "set ylabel \047flow in cfs\047"
            print "set datafile separator \047,\047"
            print "set border 3"
            print "set tics nomirror out"
            print "set grid linetype 1 linewidth 0.5 linecolor \047#dddddd\047"
            print "set key outside right top Left reverse samplen 2.5 width 2"
            text = 1
        }
        NR == FNR {
            block[NR] = $1
            under[NR] = $2
            place("ratio", $2)
            curve[NR] = substr($0, length($1 $2) + 3)
            next
        }
        FNR == 1 { print "$curve1 << EOD" }
        /^--$/ {
            print "EOD"
            if (++text in curve) print "$curve" text " << EOD"
            next
        }
        /^[0-9]/ {
            split($0, cell, ",")
            print cell[2] "," cell[3]
            minutes[++points] = last = cell[2]
            flow[points] = cell[3]
            if (cell[3] + 0 > most) most = cell[3] + 0
        }
        END {
            for (k = 1; k <= points; k++) if (flow[k] * 1000 > most && minutes[k] > shown + 0) shown = minutes[k]
            if (shown) shown += shown > 20 * minutes[1] ? int(shown / 20) : minutes[1]
            print "set xrange [0:" (shown && shown < last ? shown : last) "/60.0]"
            print "set yrange [0:" (most ? "*" : 1) "]"
            for (k = 1; k in curve; k++) {
                c = count["ratio"] > 1 ? place("ratio", under[k]) : place("block", block[k])
                d = count["ratio"] > 1 ? place("block", block[k]) : int(c / colours)
                printf "%s $curve%d using ($1/60.0):2 with lines linewidth 2", (k == 1 ? "plot" : ","), k
                printf " linecolor \047%s\047 dashtype %s title %s", colour[c % colours + 1], dash[d % dashes + 1], quoted(curve[k])
            }
            print ""
        }' "$work/curves" "$work/texts"
}

# picture_of FILE: sets picture to the name of a deck's picture where none is given
picture_of() {
    picture=${1##*/}
    if [ "$picture" = - ]; then picture=deck; fi
    picture=${picture%.hc1}.svg
}

# plot PICTURE PLACE FILE [BLOCK...]: the hydrographs of these blocks, or of every one, under the ratio in that place or under each
plot() {
    picture=$1
    place=$2
    file=$3
    shift 3
    if [ -z "$picture" ]; then picture_of "$file"; fi
    want gnuplot gnuplot-nox
    study "$file" || return
    if [ $# = 0 ]; then
        find_block ''
        find_places "$place" || return
        every_curve
    else
        named_curves "$place" "$@" || return
    fi >"$work/asked"
    answer hydrograph "$hydrograph_head" || return
    name_curves
    plot_script >"$work/script"
    draw "$picture" gnuplot --default-settings "$work/script"
}
