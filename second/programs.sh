#!/bin/sh
# programs.sh [--of-gate FILE] [NAME...]
# Puts the proved programs, or those named, to target/bin, each in one move, with the time at which its proof began. One that is there already, with
# nothing newer that it is proved from, stays; any other is proved and built by `rt run` in its crate.
# With --of-gate nothing is proved here: each program is the one that a run of `rt ci`, which began when FILE was made, left in its crate's
# folder out/, and one that is missing or older is an error.
set -eu
root=$(CDPATH="" cd -- "$(dirname -- "$0")/.." && pwd -P)
. "$root/second/kit.sh"
bin=$root/target/bin

die() {
    echo "programs.sh: $*" >&2
    exit 2
}

gate=
if [ "${1:-}" = --of-gate ]; then
    gate=${2:?--of-gate wants a file}
    shift 2
fi
if [ $# = 0 ]; then
    for main in "$root"/crates/*/src/main.rt; do
        main=${main%/src/main.rt}
        set -- "$@" "${main##*/}"
    done
fi
mkdir -p "$bin"
for name; do
    made=$root/crates/$name/out/$name
    if [ -n "$gate" ]; then
        rm -f "$bin/$name"
        if [ ! -x "$made" ] || [ -z "$(find "$made" -newer "$gate")" ]; then die "rt ci built no program $name"; fi
        began=$gate
    else
        if up_to_date "$bin/$name"; then continue; fi
        find_kit || die "$no_kit"
        began=$bin/$name.began
        : >"$began"
        # rt starts the program too, when it is built; what that prints of an empty deck is dropped
        (cd "$root/crates/$name" && exec "$rt" run) </dev/null >/dev/null 2>"$bin/$name.log" || {
            tail -n 20 "$bin/$name.log" >&2
            die "$name was not proved and built; all of the log is in $bin/$name.log"
        }
    fi
    cp "$made" "$bin/$name.$$"
    touch -r "$began" "$bin/$name.$$"
    mv -f "$bin/$name.$$" "$bin/$name"
done
