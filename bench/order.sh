#!/bin/sh
# Times ./ff order on ten equations, from one of genus 2 over 3 elements to one at the limits over
# 97, whose rows have the degrees 9, 12, 12, 12, 12, 12 and 3, so that its monic form has degree 24.
# The time is the least of three runs, the start of the process included, and the memory the
# greatest of a run. Of the answer it shows how many elements each list has.
# Usage, after ./ff prove: bench/order.sh. Needs Python 3 and GNU time.
set -eu
top=$(cd "$(dirname "$0")/.." && pwd)
work=$(mktemp -d)
trap 'rm -rf "$work"' EXIT
mkdir "$work/inputs"
python3 "$top/bench/order/inputs.py" "$work/inputs"
program=$("$top/ff" where) || { echo "there is no proved program: call ./ff prove" >&2; exit 1; }
echo 'input bytes finite infinite milliseconds kilobytes'
for input in "$work"/inputs/*; do
    best=
    most=0
    for turn in 1 2 3; do
        begin=$(date +%s%N)
        /usr/bin/time -q -f %M -o "$work/memory" \
            "$program" order < "$input" > "$work/answer" || true
        end=$(date +%s%N)
        time=$(((end - begin) / 10000))
        if [ -z "$best" ] || [ "$time" -lt "$best" ]; then best=$time; fi
        memory=$(cat "$work/memory")
        if [ "$memory" -gt "$most" ]; then most=$memory; fi
    done
    time=$((best / 100)).$(printf %02d $((best % 100)))
    counts=$(sed -n 's/^finite: //p; s/^infinite: //p' "$work/answer" | tr '\n' ' ')
    [ -n "$counts" ] || counts="no list: $(head -n 1 "$work/answer")"
    echo "$(basename "$input") $(wc -c < "$input") $counts $time $most" | tr -s ' '
done
