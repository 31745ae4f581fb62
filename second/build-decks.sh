#!/bin/sh
# Builds the deck writer, the pair checker and the counters of losses, ratios, moves, sheets, hydrographs, reasons, ponds, zeros and tables into
# target/second, each unless it is newer than all that stands here, and put in its place in one move, since other parts of the test may be using it.
set -eu
root=$(CDPATH= cd -- "$(dirname -- "$0")/.." && pwd)
out=$root/target/second
mkdir -p "$out"
cd "$root/second"

# build NAME SOURCE..: one of them, from the sources of that name and the names behind it
build() {
    name=$1
    if [ -x "$out/$name" ] && [ -z "$(find . -newer "$out/$name" | head -n 1)" ]; then return; fi
    for source; do
        shift
        set -- "$@" "$source.c"
    done
    "${CC:-gcc}" -std=c11 -O2 -Wall -Wextra -Wpedantic -Werror -o "$out/$name.$$" "$@"
    mv -f "$out/$name.$$" "$out/$name"
}

build decks decks_net decks_ponds decks_write decks_damage decks_damage_ponds decks_moves decks_sheets decks_hydrographs decks_zeros decks_reasons decks_tables
build check-pairs
for counter in losses ratios sheets hydrographs; do build "$counter" cards records pond bundle; done
build ponds cards records bundle
build zeros records pond bundle
build reasons records bundle
build moves mover bundle
build tables table page engine cards records pond
