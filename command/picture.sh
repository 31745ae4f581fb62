# picture.sh, for ../hec1 to source: how a picture is drawn by another program, and put in its place.
# shellcheck shell=sh

# want TOOL PACKAGE: ends the command where a program that draws is missing, and says how to get it
want() {
    command -v "$1" >/dev/null 2>&1 || die "$1 is missing, which draws the picture (Debian's package $2: apt-get install $2, as root)"
}

# draw PICTURE TOOL [WORD...]: has a program draw, and puts what it writes to standard output into the file PICTURE, or to standard output
# where that is '-'
draw() {
    picture=$1
    shift
    if ! "$@" >"$work/picture" 2>"$work/said" || [ ! -s "$work/picture" ]; then
        head -n 3 "$work/said" >&2
        die "$name: $1 drew no picture"
    fi
    if [ "$picture" = - ]; then
        show "$work/picture"
        return
    fi
    shown "$picture"
    if [ -d "$picture" ] || ! cp -- "$work/picture" "$picture" 2>/dev/null; then die "$name: cannot be written to"; fi
    say "$name is written"
}
