# trying.sh, for scripts that test the command ./hec1 to source, behind kit.sh and with root set: the command and its programs, a folder for
# scratch, and how a test is counted. The script ends by saying 'N passed, M failed'.
# shellcheck shell=sh disable=SC2034,SC2154

scratch=$(mktemp -d) || exit 2
trap 'rm -rf "$scratch"' EXIT
trap 'exit 1' HUP INT TERM
passed=0
failed=0

# take_command [--program PROGRAM]: sets hec1 to the command, with its programs built, or with a program to start in place of the proved ones,
# and second to the second program
take_command() {
    sh "$root/second/build.sh" || exit 2
    second=$root/target/second/hec1
    hec1=$root/hec1
    proved=yes
    if [ "${1:-}" = --program ]; then
        proved=
        hec1=$scratch/hec1
        printf '#!/bin/sh\nexec "%s" --program "%s" "$@"\n' "$root/hec1" "$(readlink -f "${2:?--program wants a program}")" >"$hec1"
        chmod +x "$hec1"
        return
    fi
    # built here, so that no test sees the words of a first use
    printf '*FREE\nIT 60,,,1\nKK A\nBA 1\nPI\nLU\nUI\nZZ\n' >"$scratch/in"
    for words in --quiet --bundle --records '--sheet A' '--hydrograph A'; do
        # shellcheck disable=SC2086
        "$hec1" $words "$scratch/in" >/dev/null || { echo "${0##*/}: there is no proved program" >&2; exit 2; }
    done
    printf 'IT\n' | "$hec1" --quiet 2>&1 >/dev/null | grep -q 'field 1' || { echo "${0##*/}: there is no proved program reason" >&2; exit 2; }
}

# same NAME EXPECTED GOT: two files must be equal
same() {
    if cmp -s "$2" "$3"; then
        passed=$((passed + 1))
    else
        failed=$((failed + 1))
        printf 'FAILED: %s\n' "$1"
        diff "$2" "$3" | head -n 20
    fi
}

# holds NAME COMMAND...: a command must succeed
holds() {
    what=$1
    shift
    if "$@"; then
        passed=$((passed + 1))
    else
        failed=$((failed + 1))
        printf 'FAILED: %s\n' "$what"
    fi
}

# try NAME STATUS OUT ERR WORD...: runs the words on the file 'in' and compares all three; OUT and ERR are for printf's %b
try() {
    name=$1
    { printf 'status %s\n-- out\n%b-- err\n%b' "$2" "$3" "$4"; } >"$scratch/expected"
    shift 4
    "$@" <"$scratch/in" >"$scratch/out" 2>"$scratch/err"
    ended=$?
    { printf 'status %s\n-- out\n' "$ended"; cat "$scratch/out"; echo '-- err'; cat "$scratch/err"; } >"$scratch/got"
    same "$name" "$scratch/expected" "$scratch/got"
}

input() { printf '%b' "$1" >"$scratch/in"; }

# bare_tools: makes a folder with the tools that the command wants, and nothing else: there is neither rt nor a program that draws among them
bare_tools() {
    mkdir "$scratch/nothing"
    for tool in sh awk sed cat env find head tail tr mktemp rm readlink dirname uname grep date cp mv touch mkdir wc; do
        at=$(command -v "$tool") && ln -s "$at" "$scratch/nothing/$tool"
    done
}
