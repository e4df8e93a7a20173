#!/usr/bin/env python3
"""list_tolerance.py: the tolerances that the gate replays, to standard output (`| tools/lists.py put tolerance -`).

Each confusion with each angular: the ends of both ranges (2^-40 and 1; 0 and 1), their neighbours, both zeros, subnormals, infinities, NaN.
The answer is document 01's rule 5 on exact fractions.
"""
import math
import struct
import sys
from fractions import Fraction


def bits(x):
    return struct.unpack(">Q", struct.pack(">d", x))[0]


def around(x):
    return [math.nextafter(x, -math.inf), x, math.nextafter(x, math.inf)]


def within(x, low, high):
    return math.isfinite(x) and low <= Fraction(x) <= high


SPECIAL = [0.0, -0.0, 5e-324, -5e-324, 2.2250738585072014e-308, 1e-7, 1e-12, 0.5, 2.0, -1.0, 1.7976931348623157e308, math.inf, -math.inf, math.nan]
confusions = around(2.0**-40) + around(1.0) + SPECIAL
angulars = around(0.0) + around(1.0) + SPECIAL
for c in confusions:
    for a in angulars:
        fit = within(c, Fraction(1, 2**40), Fraction(1)) and within(a, Fraction(0), Fraction(1))
        sys.stdout.buffer.write(struct.pack(">QQQ", bits(c), bits(a), int(fit)))
