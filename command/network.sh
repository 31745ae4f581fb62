# network.sh, for ../hec1 to source: the network of a deck, as text in the manner of HEC-1's stream diagram, or as a picture by graphviz.
# shellcheck shell=sh

# diagram: the blocks of the file drawn as text. Hydrographs that are held stand side by side, each on a stem of its own.
diagram() {
    LC_ALL=C awk '
        # a text with another put over it, from a column on
        function put(text, column, over) {
            while (length(text) < column - 1) text = text " "
            return substr(text, 1, column - 1) over substr(text, column + length(over))
        }
        function stem(place) { return 13 + 10 * place }
        function stems(count, last,    text, place) {
            for (place = 0; place < count; place++) text = put(text, stem(place), place == count - 1 ? last : ".")
            return text
        }
        {
            mark = $3 > 3 ? "V" : "."
            if (NR > 1) {
                print stems(held, mark)
                print stems(held, mark)
            }
            place = held - $4
            row = put(put(stems(place, "."), 1, sprintf("%6d", $1)), stem(place) - int((length($2) - 1) / 2), $2)
            while ($3 == 3 && length(row) < stem(held - 1)) row = row "."
            print row
            held = place + 1
        }' "$work/drawn"
}

# graph: the blocks of the file drawn as graphviz reads them: a shape for each kind, which stands below the name too, and an arrow from each
# block to the one that takes it
graph() {
    HEADING=$(heading) LC_ALL=C awk '
        function quoted(text) {
            gsub(/[\\"]/, "\\\\&", text)
            return "\"" text "\""
        }
        BEGIN {
            split("basin,inflow,confluence,reach,pond", word, ",")
            split("box,ellipse,ellipse,box,cylinder", shape, ",")
            split("#d9ead3,#cfe2f3,#eeeeee,#ffffff,#cfe2f3", fill, ",")
            print "digraph network {"
            print "    label=" quoted(ENVIRON["HEADING"]) "; labelloc=t; fontname=Helvetica;"
            print "    node [fontname=Helvetica, fontsize=12, style=filled, margin=\"0.1,0.05\"]; edge [arrowsize=0.7];"
        }
        {
            label = quoted($2 "\n" word[$3])
            sub(/\n/, "\\n", label)
            printf "    b%d [label=%s, shape=%s, fillcolor=\"%s\"%s];\n", NR, label, shape[$3], fill[$3], ($3 == 4 ? ", style=\"filled,rounded\"" : "")
            for (k = held - $4 + 1; k <= held; k++) printf "    b%d -> b%d;\n", on[k], NR
            held += 1 - $4
            on[held] = NR
        }
        END { print "}" }' "$work/drawn"
}

# network PICTURE FILE: the network of a deck, to standard output, or as a picture. Of a refused deck the blocks that are closed before the
# line at fault are drawn; 14 and 15 are met at a line that has closed its block.
network() {
    if [ -n "$1" ]; then want dot graphviz; fi
    if study "$2"; then
        draw_listed
    elif [ "$status" = 1 ]; then
        case $number:$line in
        1[45]:*) drawn $((line + 1)) ;;
        16:*) drawn 0 ;;
        *:0) : ;;
        *) drawn "$line" ;;
        esac >"$work/drawn"
        [ -s "$work/drawn" ] || return
    else
        return
    fi
    if [ -n "$1" ]; then
        graph >"$work/script"
        draw "$1" dot "-T$format" "$work/script"
        return
    fi
    {
        printf 'STREAM NETWORK: %s\n\n  LINE  (V) ROUTED  (.) HELD OR JOINED\n\n' "$name"
        diagram
    } | sed 's/ *$//' >"$work/text"
    show "$work/text"
}
