#!/bin/sh
# instructions.sh PROGRAM [WORD...] <INPUT
# Prints how many x86-64 instructions the program executes on the input. What the program prints goes to
# standard error. The count is the same on every run, whatever else the machine does.
#
# It runs under valgrind's callgrind, on an x86-64 machine: today's kit builds programs for that alone, and they start by
# themselves. Each byte that a 'rep movsb' or 'rep stosb' moves counts as an instruction of its own.
set -eu

die() {
    echo "instructions.sh: $*" >&2
    exit 2
}

if [ $# -eq 0 ]; then
    sed -n '2,/^set/s/^# \{0,1\}//p' "$0" >&2
    exit 2
fi
case $1 in */*) ;; *) die "$1: give the program with its folder, as ./$1" ;; esac
[ -x "$1" ] || die "$1 is not a program"
[ "$(uname -m)" = x86_64 ] || die "this machine does not run x86-64 programs"
command -v valgrind >/dev/null 2>&1 || die "valgrind is missing (Debian's package valgrind)"
scratch=$(mktemp -d)
trap 'rm -rf "$scratch"' EXIT
trap 'exit 2' HUP INT TERM

ended=0
valgrind --tool=callgrind --callgrind-out-file=/dev/null --log-file="$scratch/log" "$@" >&2 || ended=$?
count=$(sed -n 's/.*Collected : \([0-9][0-9]*\).*/\1/p' "$scratch/log")
if [ "$ended" != 0 ] || [ -z "$count" ]; then die "the program ended with status $ended and was not counted"; fi
echo "$count"
