#!/bin/sh
# Times products of two polynomials of degree 50, 500 and 2000 over 97 elements, and quotients of
# such a product by a factor, and FLINT's nmod_poly beside it where it is installed (Debian:
# libflint-dev). The program is built in a folder of its own, which is removed at the end: the files
# of bench/poly become a crate there, over copies of the libraries.
set -eu
top=$(cd "$(dirname "$0")/.." && pwd)
work=$(mktemp -d)
trap 'rm -rf "$work"' EXIT

mkdir -p "$work/crates/poly_bench/src" "$work/crates/poly_bench/proofs/dense"
for crate in ff_theory ff_alg ff_prime ff_poly; do
    (cd "$top/crates" && tar -cf - --exclude=out "$crate") | (cd "$work/crates" && tar -xf -)
    grep "^$crate:" "$top/crates.txt" >> "$work/crates.txt"
done
echo 'poly_bench: ff_alg ff_poly ff_prime ff_theory' >> "$work/crates.txt"
cp "$top/bench/poly/program.rt.txt" "$work/crates/poly_bench/src/main.rt"
cp "$top/bench/poly/dense.antt.txt" "$work/crates/poly_bench/proofs/dense/Invariants.antt"

cd "$work/crates/poly_bench"
if ! rt run > "$work/ours" 2> "$work/log"; then
    tail -n 20 "$work/log" >&2
    exit 1
fi
if cc -O2 -o "$work/flint" "$top/bench/poly/flint.c" -lflint 2> "$work/cc"; then
    "$work/flint" > "$work/flints"
    echo 'call coefficients microseconds flint_microseconds ratio'
    paste -d ' ' "$work/ours" "$work/flints" |
        awk '{ printf "%s %s %.2f %.2f %.1f\n",
            $1, $2, $4 / $3 / 1e3, $8 / $7 / 1e3, ($4 / $3) / ($8 / $7) }'
else
    echo 'call coefficients microseconds (FLINT is not installed)'
    awk '{ printf "%s %s %.2f\n", $1, $2, $4 / $3 / 1e3 }' "$work/ours"
fi
