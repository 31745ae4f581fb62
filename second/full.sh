#!/bin/sh
# full.sh --full [--named BLOCK] [--ratio RATIO] <DECK
# The proved program `rooms` on one deck, with room for any: prints NQ, the block count and the count of ratios, or the refusal, and behind
# that the ordinates of the named block under the named ratio (0, the last, where none is named), as the second program does with these words.
set -eu
root=$(CDPATH="" cd -- "$(dirname -- "$0")/.." && pwd -P)
named=0
ratio=0
usage() { sed -n '2,/^set/s/^# \{0,1\}//p' "$0" >&2; exit 2; }
[ "${1:-}" = --full ] || usage
shift
while [ $# -gt 0 ]; do
    case $1 in
    --named) named=${2:?--named wants a number} ;;
    --ratio) ratio=${2:?--ratio wants a number} ;;
    *) usage ;;
    esac
    shift 2
done
[ -x "$root/target/bin/rooms" ] || { echo "full.sh: target/bin/rooms is missing: second/programs.sh puts it there" >&2; exit 2; }
deck=$(mktemp)
trap 'rm -f "$deck"' EXIT
cat >"$deck"

# four NUMBER: in 4 bytes, the lowest first
four() {
    # shellcheck disable=SC2059
    printf "$(printf '\\%03o\\%03o\\%03o\\%03o' $(($1 % 256)) $(($1 / 256 % 256)) $(($1 / 65536 % 256)) $(($1 / 16777216)))"
}
# the block, the ratio, the work words, the ordinates, the record bytes, the deck's length, and the deck
{ four "$named"; four "$ratio"; four 6000; four 300; four 72000; four $(($(wc -c <"$deck"))); cat "$deck"; } | "$root/target/bin/rooms"
