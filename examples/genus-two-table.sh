#!/usr/bin/env bash
# A table of curves of genus two over the field of two elements: the equations
# y^2 + y + x^5 + a*x^3 + b*x + c, how many automorphisms are found of each, and the first equation
# of the table of which an isomorphism onto it is found.
# Usage, after ./ff prove: examples/genus-two-table.sh. Needs bash alone.
set -u
ff=$(cd "$(dirname "$0")/.." && pwd)/ff
seen=()
for a in 0 1; do
  for b in 0 1; do
    for c in 0 1; do
      equation=y^2+y+x^5+$a*x^3+$b*x+$c
      count=$(printf 'p 2\nf %s\n' "$equation" | "$ff" aut | head -n 1)
      first=$equation
      for other in "${seen[@]}"; do
        found=$(printf 'p 2\nf %s\ng %s\n' "$other" "$equation" | "$ff" iso | head -n 1)
        if [ "$found" != "isomorphisms: 0" ]; then
          first=$other
          break
        fi
      done
      seen+=("$equation")
      printf '%s  %s  %s\n' "$equation" "$count" "$first"
    done
  done
done
