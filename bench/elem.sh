#!/bin/sh
# Times products and inverses in E(f) over 97 elements, for monic equations of y-degree 2, 4 and 6
# and elements with numerators and denominators of degree 10 and 50, and the same by FLINT beside it
# where it is installed (Debian: libflint-dev). Both print the number of coefficients of the
# denominator of the answer. The program is built in a folder of its own, which is removed at the
# end: the files of bench/elem become a crate there, over copies of the libraries.
set -eu
top=$(cd "$(dirname "$0")/.." && pwd)
work=$(mktemp -d)
trap 'rm -rf "$work"' EXIT

crate=$work/crates/elem_bench
mkdir -p "$crate/src" "$crate/proofs/dense" "$crate/proofs/rows"
for name in ff_theory ff_alg ff_prime ff_poly ff_elem; do
    (cd "$top/crates" && tar -cf - --exclude=out "$name") | (cd "$work/crates" && tar -xf -)
    grep "^$name:" "$top/crates.txt" >> "$work/crates.txt"
done
echo 'elem_bench: ff_elem ff_poly ff_prime ff_alg ff_theory' >> "$work/crates.txt"
cp "$top/bench/elem/program.rt.txt" "$crate/src/main.rt"
cp "$top/bench/elem/dense.antt.txt" "$crate/proofs/dense/Invariants.antt"
cp "$top/bench/elem/rows.antt.txt" "$crate/proofs/rows/Invariants.antt"

cd "$crate"
if ! rt run > "$work/ours" 2> "$work/log"; then
    tail -n 20 "$work/log" >&2
    exit 1
fi
if cc -O2 -o "$work/flint" "$top/bench/elem/flint.c" -lflint 2> "$work/cc"; then
    "$work/flint" > "$work/flints"
    printf '%s ' call y_degree coefficients microseconds denominator
    echo flint_microseconds flint_denominator ratio
    paste -d ' ' "$work/ours" "$work/flints" |
        awk '{ printf "%s %s %s %.1f %s ", $1, $2, $3, $5 / $4 / 1e3, $6
            printf "%.1f %s %.1f\n", $11 / $10 / 1e3, $12, ($5 / $4) / ($11 / $10) }'
else
    echo 'call y_degree coefficients microseconds denominator (FLINT is not installed)'
    awk '{ printf "%s %s %s %.1f %s\n", $1, $2, $3, $5 / $4 / 1e3, $6 }' "$work/ours"
fi
