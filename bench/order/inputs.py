#!/usr/bin/env python3
"""Writes the inputs of bench/order.sh into the folder that is named: ten equations.

Those that are made have rows of given degrees, with coefficients from fixed seeds.
"""
import random
import sys
from pathlib import Path


def dense(p, degrees):
    """An equation whose row j has degree degrees[j]."""
    source = random.Random(p)
    terms = []
    for j, degree in enumerate(degrees):
        row = [source.randint(0, p - 1) for _ in range(degree)] + [source.randint(1, p - 1)]
        terms += [f"{c}*x^{i}*y^{j}" for i, c in enumerate(row) if c]
    return "+".join(reversed(terms))


def main():
    folder = Path(sys.argv[1])
    inputs = [
        ("genus-two", 3, "y^2-x^5-1"),
        ("double-point", 3, "y^2-x^7-x^2"),
        ("klein-quartic", 2, "x^3*y+y^3+x"),
        ("sixth-powers", 5, "y^6-x^12-x^6"),
        ("characteristic-two", 2, dense(2, [12, 12, 12, 12, 12, 11, 0])),
        ("square-root", 97, dense(97, [12, 0, 0])),
        ("degree-three", 31, dense(31, [12, 12, 12, 6])),
        ("degree-four", 97, dense(97, [12, 12, 12, 12, 0])),
        ("degree-six", 97, dense(97, [12, 12, 12, 12, 12, 12, 0])),
        ("not-monic", 97, dense(97, [9, 12, 12, 12, 12, 12, 3])),
    ]
    for number, (name, p, f) in enumerate(inputs, 1):
        (folder / f"{number:02}-{name}").write_text(f"p {p}\nf {f}\n")


if __name__ == "__main__":
    main()
