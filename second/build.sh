#!/bin/sh
# Builds the program at -O2 to target/second/hec1 below the repository's root, unless it is newer than all that stands here. It is put in its
# place in one move, since other parts of the test may be using it.
set -eu
here=$(CDPATH= cd -- "$(dirname -- "$0")" && pwd)
out=$here/../target/second
mkdir -p "$out"
cd "$here"
. ./kit.sh
if [ -x "$out/hec1" ] && [ -z "$(find . -newer "$out/hec1" | head -n 1)" ]; then exit 0; fi
# shellcheck disable=SC2086,SC2154
"${CC:-gcc}" -std=c11 -Wall -Wextra -Wpedantic -O2 -o "$out/hec1.$$" $sources
mv -f "$out/hec1.$$" "$out/hec1"
