#!/bin/sh
# Times span, kernel and solve of ff_lin at square matrices of 50, 200 and 500 rows over 2 and 97
# elements, and FLINT's nmod_mat beside it where it is installed (Debian: libflint-dev). The program
# is built in a folder of its own, which is removed at the end: the files of bench/lin become a
# crate there, over copies of the libraries. On a machine that other work shares the ratios swing by
# half.
set -eu
top=$(cd "$(dirname "$0")/.." && pwd)
work=$(mktemp -d)
trap 'rm -rf "$work"' EXIT

mkdir -p "$work/crates/lin_bench/src" "$work/crates/lin_bench/proofs/row"
mkdir -p "$work/crates/lin_bench/proofs/matrix"
for crate in ff_theory ff_alg ff_prime ff_lin; do
    (cd "$top/crates" && tar -cf - --exclude=out "$crate") | (cd "$work/crates" && tar -xf -)
    grep "^$crate:" "$top/crates.txt" >> "$work/crates.txt"
done
echo 'lin_bench: ff_lin ff_prime ff_alg ff_theory' >> "$work/crates.txt"
cp "$top/bench/lin/program.rt.txt" "$work/crates/lin_bench/src/main.rt"
cp "$top/bench/lin/row.antt.txt" "$work/crates/lin_bench/proofs/row/Invariants.antt"
cp "$top/bench/lin/matrix.antt.txt" "$work/crates/lin_bench/proofs/matrix/Invariants.antt"

cd "$work/crates/lin_bench"
if ! rt run > "$work/ours" 2> "$work/log"; then
    tail -n 20 "$work/log" >&2
    exit 1
fi
if cc -O2 -o "$work/flint" "$top/bench/lin/flint.c" -lflint 2> "$work/cc"; then
    "$work/flint" > "$work/flints"
    echo 'elements rows call milliseconds answer flint_milliseconds flint_answer ratio'
    paste -d ' ' "$work/ours" "$work/flints" |
        awk '{ printf "%s %s %s %.2f %s %.2f %s %.1f\n",
            $1, $2, $3, $4 / 1e6, $5, $9 / 1e6, $10, $4 / $9 }'
else
    echo 'elements rows call milliseconds answer (FLINT is not installed)'
    awk '{ printf "%s %s %s %.2f %s\n", $1, $2, $3, $4 / 1e6, $5 }' "$work/ours"
fi
