#!/bin/bash
# Runs the proved program on each example once for every allocation that it makes, which is refused,
# and demands each time the answer that ample memory gives, or the exit status 6 with nothing
# written. Of the many allocations of iso and aut it refuses every one of the first fifty, and
# then fewer and fewer. Usage, after ./ff prove: scripts/refused_memory.sh. Needs cc.
set -u
top=$(cd "$(dirname "$0")/.." && pwd)
program=$("$top/ff" where) || { echo "there is no proved program: call ./ff prove" >&2; exit 1; }
work=$(mktemp -d)
trap 'rm -rf "$work"' EXIT
cc -shared -fPIC -O1 -o "$work/refuse.so" "$top/scripts/refused_memory/refuse.c" -ldl || exit 1
wrong=0
for input in "$top"/examples/*.txt; do
    name=$(basename "$input" .txt)
    form=${name%%-*}
    wanted=$("$program" "$form" < "$input")
    status=$?
    refused=0
    number=0
    same=0
    # Ten runs in a row that the refusal did not change are past the last allocation.
    while [ "$same" -lt 10 ]; do
        case $form in
            iso | aut) number=$((number + 1 + number / 50)) ;;
            *) number=$((number + 1)) ;;
        esac
        text=$(REFUSE=$number LD_PRELOAD="$work/refuse.so" \
            "$program" "$form" < "$input" 2> "$work/errors")
        code=$?
        if [ "$code" = 6 ] && [ -z "$text" ] && [ ! -s "$work/errors" ]; then
            refused=$((refused + 1))
            same=0
        elif [ "$code" = "$status" ] && [ "$text" = "$wanted" ]; then
            same=$((same + 1))
        else
            wrong=$((wrong + 1))
            same=0
            echo "$(basename "$input"), allocation $number: status $code, answer '$text'"
        fi
    done
    echo "$(basename "$input"): up to allocation $number, $refused runs ended without memory"
done
exit $((wrong > 0))
