#!/bin/sh
# Times ./ff aut on ten equations, from hyperelliptic curves over 5 to 97 elements to quartics and
# curves of degree six in y. A row has how many entries the list has and the processor seconds of
# one run, with the start of the process; after two minutes the run is ended. Where `perf` and `nm`
# are at hand it also has how many pairs were tested and how many nodes the search for roots had, by
# the calls of `is_inverse` and of `push_child`, and the three functions that take the most time.
# Usage, after ./ff prove: bench/list.sh [SECONDS], the most that a run may take.
# PROGRAM names another program than the one of ./ff where.
set -eu
top=$(cd "$(dirname "$0")/.." && pwd)
most=${1-120}
work=$(mktemp -d)
trap 'rm -rf "$work"' EXIT
. "$top/bench/timed.sh"
program=${PROGRAM-$("$top/ff" where)} ||
    { echo "there is no proved program: call ./ff prove" >&2; exit 1; }

# The address at which a function of the program is loaded, where addresses are not random.
address() {
    at=$(nm "$program" | sed -n "s/^\([0-9a-f]*\) [tTwW] .*::$1::.*/\1/p" | head -n 1)
    [ -n "$at" ] && printf '0x%x' $((0x$at + 0x555555554000))
}

# How often a function is called in a run.
calls() {
    place=$(address "$1") || { echo -; return; }
    setarch -R perf stat -x, -o "$work/count" -e "mem:$place:x:u" \
        timeout "$most" "$program" aut < "$work/input" > "$work/answer" 2> "$work/log" || true
    sed -n 's/^\([0-9]*\),.*mem:.*/\1/p' "$work/count"
}

# The three dearest functions of a run, with their shares.
dearest() {
    perf record -q -e cpu-clock -o "$work/record" \
        timeout "$most" "$program" aut < "$work/input" > "$work/answer" 2> "$work/log" || true
    perf report -i "$work/record" --stdio --sort symbol 2> "$work/log" |
        sed -n 's/^ *\([0-9]*\)[.0-9]*% *\[.\] *\([^ <]*\).*/\1% \2/p' | sed 's/::$//' |
        head -n 3 | tr '\n' ' '
}

echo 'prime equation entries seconds tests nodes functions'
while read -r prime equation; do
    printf 'p %s\nf %s\n' "$prime" "$equation" > "$work/input"
    status=0
    run aut || status=$?
    count=$(sed -n 's/^automorphisms: //p' "$work/answer")
    if [ "$status" -ne 0 ]; then count="status-$status"; fi
    more='- - -'
    if command -v perf nm > "$work/log"; then
        more="$(calls is_inverse) $(calls push_child) $(dearest)"
    fi
    echo "$prime $equation $count $(seconds '%.2f') $more"
done <<'END'
5 y^2-x^5+x
7 y^2-x^7+x
29 x^3*y+y^3+x
97 y^2-x^5-1
97 y^4+x^3*y+x+1
97 y^3-x^7-x-1
13 x^4+y^4+1
97 y^6-x^5-x-1
11 y^6+x^12+x*y+3
97 y^2-x^12-x-1
END
