#!/usr/bin/env python3
"""cubics_sqrt.py: the rows of `CUBICS` in crates/sqrt/src/lib.rt, and the greatest relative error found at 101 points of each stretch.

Row i is the cubic c0 + c1 * f - c2 * f ^ 2 + c3 * f ^ 3 that equals the square root of f at the four zeros of Chebyshev's polynomial between
1 + i / 32 and 1 + (i + 1) / 32, the coefficients rounded to 11 places. The last row is lowered by 2e-10: a root just below a power of 2 lies just
below the middle of two numbers, and a value of the cubic that is a little small puts the candidate on the right side. The first row's value at 1
is a little great, which does the same above. Nothing rests on the rows being right but speed.
"""
import math
from fractions import Fraction


def through(xs, ys):
    """The coefficients, lowest first, of the polynomial through the points, by divided differences."""
    d = list(ys)
    for j in range(1, len(xs)):
        for i in range(len(xs) - 1, j - 1, -1):
            d[i] = (d[i] - d[i - 1]) / (xs[i] - xs[i - j])
    p = [d[-1]]
    for i in range(len(xs) - 2, -1, -1):
        q = [Fraction(0)] + p
        for k, c in enumerate(p):
            q[k] -= c * xs[i]
        q[0] += d[i]
        p = q
    return p


def main():
    worst = 0.0
    for i in range(32):
        low, high = 1 + i / 32, 1 + (i + 1) / 32
        xs = [Fraction((low + high) / 2 + (high - low) / 2 * math.cos(math.pi * (2 * k + 1) / 8)) for k in range(4)]
        row = through(xs, [Fraction(math.sqrt(x)) for x in xs])
        if i == 31:
            row[0] -= Fraction(2, 10**10)
        row = ["%.11f" % c for c in row]
        print("    Cubic(%s, %s, %s, %s)," % (row[0], row[1], row[2].lstrip("-"), row[3]))
        for k in range(101):
            f = low + (high - low) * k / 100
            worst = max(worst, abs(sum(float(c) * f**n for n, c in enumerate(row)) / math.sqrt(f) - 1))
    print("greatest relative error: 2^%.2f" % math.log2(worst))


main()
