#!/usr/bin/env python3
"""Writes the inputs of bench/check.sh into the folder that is named.

Eight are for the time of `check`, one long text is for that of the reader, and those of
adversarial.py were made to be slow.
"""
import random
import sys
from pathlib import Path

import adversarial


def written(terms):
    return "+".join(f"{c}*x^{i}*y^{j}" for (i, j), c in sorted(terms.items()))


def polynomial(source, p, width, height, count):
    """A polynomial with this many terms, the highest one among them."""
    powers = {(width, height), (width, 0), (0, height)}
    while len(powers) < count:
        powers.add((source.randint(0, width), source.randint(0, height)))
    return {power: source.randint(1, p - 1) for power in powers}


def equation(source, p, width, height, monic):
    """An equation with all terms below its leading row, which is 1 or x^2+2."""
    terms = {(i, j): source.randint(1, p - 1) for j in range(height) for i in range(width + 1)}
    terms.update({(0, height): 1} if monic else {(2, height): 1, (0, height): 2})
    return terms


def disguised(p, terms, g, h):
    """terms + g*h, which is the same element of E(g)."""
    total = dict(terms)
    for (i, j), c in g.items():
        for (k, l), d in h.items():
            total[i + k, j + l] = (total.get((i + k, j + l), 0) + c * d) % p
    return written({power: c for power, c in total.items() if c})


def dense(source, p, width, height=0):
    """A polynomial with all terms within these degrees."""
    return {(i, j): source.randint(1, p - 1) for j in range(height + 1) for i in range(width + 1)}


def power_modulo(p, terms, n):
    """The n-th power in E(y^n - x): y^(n*q+r) is x^q*y^r."""
    total = {(0, 0): 1}
    for _ in range(n):
        product = {}
        for (i, j), c in total.items():
            for (k, l), d in terms.items():
                power = (i + k + (j + l) // n, (j + l) % n)
                product[power] = (product.get(power, 0) + c * d) % p
        total = {power: c for power, c in product.items() if c}
    return total


def text(p, f, g, x, y, u, v):
    return f"p {p}\nf {f}\ng {g}\nX {x}\nY {y}\nU {u}\nV {v}\n"


def main():
    folder = Path(sys.argv[1])
    source = random.Random(97)
    small = "y^2-x^5-1"
    full = equation(source, 97, 12, 6, False)
    middle = equation(source, 97, 6, 3, True)
    x, y = {(1, 0): 1}, {(0, 1): 1}

    def pair(width, height, count):
        return [written(polynomial(source, 97, width, height, count)) for _ in range(2)]

    def identity():
        factors = [polynomial(source, 97, 500, 58, 8) for _ in range(2)]
        return [disguised(97, part, full, factor) for part, factor in zip((x, y), factors)]

    moebius = ["(4*x+2)/(x+4)", "(3*y)/(x^3+2*x^2+3*x+4)", "(x+2)/(x+1)", "(2*y)/(x^3+3*x^2+3*x+1)"]
    three, six = [written(middle)] * 2, [written(full)] * 2
    inputs = {
        "1-genus-two": text(3, small, small, "x", "2*y", "x", "2*y"),
        "2-moebius": text(5, "y^2-x^5+x", "y^2-x^5+x", *moebius),
        "3-middle": text(97, *three, *pair(64, 8, 60), *pair(64, 8, 60)),
        "4-identity": text(97, *six, *identity(), *identity()),
        "5-largest": text(97, *six, *pair(512, 64, 1000), *pair(512, 64, 1000)),
    }
    whole, fraction = [], []
    for _ in range(2):
        above, below = written(dense(source, 97, 512)), written(dense(source, 97, 512))
        whole.append(above)
        fraction.append(f"({above})/({below.replace('*y^0', '')})")
    roots = [dense(source, 97, width, 5) for width in (80, 40)]
    sixth = [(written(power_modulo(97, root, 6)), written(root)) for root in roots]
    inputs |= {
        "7-polynomials": text(97, "y-x", "y-x", whole[0], whole[0], whole[1], whole[1]),
        "8-fractions": text(97, "y-x", "y-x", fraction[0], fraction[0], fraction[1], fraction[1]),
        "9-sixth-powers": text(97, "y^6-x", "y^6-x", *sixth[0], *sixth[1]),
    }
    inputs |= adversarial.inputs(source)
    for name, data in inputs.items():
        assert len(data) <= 65536, (name, len(data))
        (folder / name).write_text(data)
    head = text(97, written(full), written(full), "x", "y", "x", "@")
    filler = "+".join("1*x^3*y^2" for _ in range((65536 - len(head)) // 10))
    long = head.replace("@", filler)
    long += "\n" * (65536 - len(long))
    assert len(long) == 65536
    (folder / "6-all-bytes").write_text(long)


if __name__ == "__main__":
    main()
