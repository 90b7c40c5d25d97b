#!/bin/sh
# Times ./ff check: on eight inputs, the fifth one at the limits (p = 97, equations of y-degree 6
# and x-degree 12, elements of x-degree 512 and y-degree 64) and the last three with elements of
# high degree whose values at one another are of far higher degree; on a text of 65,536 bytes that
# is mostly like terms; and on eleven inputs that were made to be slow. A row has the milliseconds
# of the processor, the least of three runs with the start of the process, and the greatest memory.
# Usage, after ./ff prove: bench/check.sh. Needs Python 3 and GNU time.
set -eu
top=$(cd "$(dirname "$0")/.." && pwd)
work=$(mktemp -d)
trap 'rm -rf "$work"' EXIT
mkdir "$work/inputs"
python3 -B "$top/bench/check/inputs.py" "$work/inputs"
program=$("$top/ff" where) || { echo "there is no proved program: call ./ff prove" >&2; exit 1; }
python3 "$top/bench/check/measure.py" "$program" "$work"/inputs/*
