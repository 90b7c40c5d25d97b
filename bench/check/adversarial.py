"""Inputs of `check` that were made to be slow, with its source at hand: the rows 10 to 20.

The first ones are no inverse pairs, and are slow where a program does not test modulo a polynomial
first. The others are inverse pairs over nilpotent elements: where z^2 = 0, x + r*z and x - r*z undo
each other for any fraction r, so that denominators of any degree come in.
"""


def dense(source, p, degree, step=1):
    """All coefficients of a monic polynomial in x^step of about this degree."""
    degree -= degree % step
    return [source.randrange(p) if i % step == 0 else 0 for i in range(degree)] + [1]


def product(p, *factors):
    total = [1]
    for factor in factors:
        longer = [0] * (len(total) + len(factor) - 1)
        for i, c in enumerate(total):
            if c:
                for j, d in enumerate(factor):
                    longer[i + j] = (longer[i + j] + c * d) % p
        total = longer
    return total


def total(p, a, b, c=1):
    """a + c*b"""
    longer = [0] * max(len(a), len(b))
    for i, e in enumerate(a):
        longer[i] = e
    for i, e in enumerate(b):
        longer[i] = (longer[i] + c * e) % p
    return longer


def derivative(p, a):
    return [i * c % p for i, c in enumerate(a)][1:]


def written(rows):
    """The text of a polynomial that is given by its row for each power of y."""
    return "+".join(
        f"{c}*x^{i}*y^{j}" for j, row in rows.items() for i, c in enumerate(row) if c
    )


def fraction(rows, below):
    return f"({written(rows)})/({written({0: below}).replace('*y^0', '')})"


def text(p, f, x, y, u, v):
    return f"p {p}\nf {f}\ng {f}\nX {x}\nY {y}\nU {u}\nV {v}\n"


X = [0, 1]


def known_modulus(p, m, rest):
    """x + m*x^rest four times: equal to x modulo m."""
    part = "x+" + written({0: product(p, m, [0] * rest + [1])})
    return text(p, "y-x", part, part, part, part)


def all_powers(p, m, rest):
    """The like with all powers of y."""
    product_m = product(p, m, [0] * rest + [1])
    x, y = (f"{z}+" + written({j: product_m for j in range(6)}) for z in "xy")
    return text(p, "y^6-x-1", x, y, x, y)


def shifted(p, n, numerators, below, first, wrong=False):
    """x + y^first*(numerators)/below where y^n is 0, with y."""
    def part(sign):
        rows = {0: product(p, X, below)}
        rows |= {first + j: [sign * c % p for c in row] for j, row in enumerate(numerators)}
        return fraction(rows, below)

    last = part(-1)
    if wrong:
        last = last.replace("(", "(1+", 1)
    return text(p, f"y^{n}", part(1), "y", last, "y")


def moved(source, p, height, top, below):
    """x and y moved by multiples of a*y - b, whose square is 0; they have y^(height + 1)."""
    a, b = dense(source, p, 6), dense(source, p, 6)
    turned = total(p, product(p, derivative(p, b), a), product(p, derivative(p, a), b), -1)
    f = written({0: product(p, b, b), 1: product(p, [-2 % p], a, b), 2: product(p, a, a)})
    parts = []
    for sign in (1, -1):
        by = [sign * c % p for c in top]
        den, cube = product(p, a, below), product(p, a, a, a, below)
        for rows, factor, under in (({0: product(p, X, den)}, by, den),
                                    ({1: cube}, product(p, turned, by), cube)):
            rows[height + 1] = product(p, a, factor)
            rows[height] = product(p, [-1 % p], b, factor)
            parts.append(fraction(rows, under))
    return text(p, f, *parts)


def all_four(source, p, degree):
    """x + (q/d)*y and (s/t)*y where y^2 is 0."""
    q, d, s, t = (dense(source, p, degree) for _ in range(4))
    ds = product(p, d, s)
    back = {0: product(p, X, ds), 1: product(p, [-1 % p], q, t)}
    x, y = fraction({0: product(p, X, d), 1: q}, d), fraction({1: s}, t)
    return text(p, "y^2", x, y, fraction(back, ds), fraction({1: t}, s))


def inputs(source):
    m = [1, 1] + [0] * 38 + [1]
    long = [dense(source, 97, 490 - 10 * j) for j in range(3)]
    double = dense(source, 97, 500), dense(source, 97, 500)
    fifth = dense(source, 5, 500, 5), dense(source, 5, 500, 5)
    eighth = dense(source, 2, 504, 8), dense(source, 2, 504, 8)
    sparse = [1] + [0] * 479 + [1], [1, 1] + [0] * 470 + [1]
    return {
        "10-modulus": known_modulus(97, m, 472),
        "11-modulus-rows": all_powers(97, m, 472),
        "12-modulus-dense": known_modulus(2, dense(source, 2, 40), 472),
        "13-almost": shifted(97, 2, [double[0]], double[1], 1, wrong=True),
        "14-square": shifted(97, 2, [double[0]], double[1], 1),
        "15-rows": shifted(97, 6, long, double[1], 3),
        "16-fifth-powers": shifted(5, 6, [fifth[0]], fifth[1], 1),
        "17-eighth-powers": shifted(2, 6, [eighth[0]], eighth[1], 1),
        "18-high": moved(source, 97, 62, *sparse),
        "19-middle": moved(source, 97, 20, *sparse),
        "20-all-four": all_four(source, 97, 250),
    }
