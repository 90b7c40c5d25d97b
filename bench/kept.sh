#!/bin/sh
# Times the way to a kept pole system on ten equations, and shows where the time goes, crate by
# crate. It runs ./ff iso on the equation and on y^2 - n with n no square (y^2 + y + 1 over two
# elements), whose field has no rational place, so that nothing is searched: what is timed is why
# the equation is separable, both maximal orders, whether it is irreducible, the points, the least
# functions of a point, their description and a relation, and next to nothing for the second one.
# A row has the processor seconds of one run, with the start of the process, the first line of the
# answer and, where `perf` is at hand, the shares of the crates; `rest` is memory and the C library.
# Usage, after ./ff prove: bench/kept.sh [SECONDS], the most that a run may take.
# PROGRAM names another program than the one of ./ff where.
set -eu
top=$(cd "$(dirname "$0")/.." && pwd)
most=${1-120}
work=$(mktemp -d)
trap 'rm -rf "$work"' EXIT
. "$top/bench/timed.sh"
program=${PROGRAM-$("$top/ff" where)} ||
    { echo "there is no proved program: call ./ff prove" >&2; exit 1; }

# An equation whose field has no rational place.
pointless() {
    case $1 in
        2) echo 'y^2+y+1' ;;
        7) echo 'y^2-3' ;;
        97) echo 'y^2-5' ;;
        *) echo 'y^2-2' ;;
    esac
}

# The shares of the crates of a run.
shares() {
    perf record -q -F 4000 -e cpu-clock -o "$work/record" \
        timeout "$most" "$program" iso < "$work/input" > "$work/answer" 2> "$work/log" || true
    perf report -i "$work/record" --stdio --sort symbol 2> "$work/log" |
        sed -n 's/^ *\([0-9.]*\)% *\[.\] *\(.*\)/\1 \2/p' |
        awk '{ crate = "rest"; if (match($2, /ff_[a-z]+/)) crate = substr($2, RSTART, RLENGTH)
               share[crate] += $1 }
             END { for (crate in share) if (share[crate] >= 1) print share[crate], crate }' |
        sort -rn | awk '{ printf "%s %.0f%% ", $2, $1 }'
}

echo 'prime equation seconds answer shares'
while read -r prime equation; do
    printf 'p %s\nf %s\ng %s\n' "$prime" "$equation" "$(pointless "$prime")" > "$work/input"
    status=0
    run iso || status=$?
    answer=$(head -n 1 "$work/answer" | tr ' ' '-')
    if [ "$status" -ne 0 ]; then answer="status-$status"; fi
    more=-
    if command -v perf > "$work/log"; then more=$(shares); fi
    echo "$prime $equation $(seconds '%.3f') $answer $more"
done <<'END'
3 y^2-x^5-1
97 y^2-x^5-1
3 y^3-y-x^4
2 x^3*y+y^3+x
97 y^4+x^3*y+x+1
97 y^3-x^7-x-1
97 y^2-x^12-x-1
97 y^6-x^5-x-1
11 y^6+x^12+x*y+3
97 y^6-x^11-x-1
END
