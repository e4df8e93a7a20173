#!/usr/bin/env python3
"""list_sqrt.py LIST: the square roots that the gate replays (`tools/lists.py put sqrt LIST`).

Each record is two 8-byte big-endian words: the bits of an argument and those of its square root. The root is the hardware's, by way of
the C library, and each one is confirmed here by whole numbers (math.isqrt). Every NaN is written as 7ff8000000000000.
"""
import math
import random
import struct
import sys

NAN = 0x7FF8000000000000
INF = 0x7FF0000000000000
SIGN = 1 << 63


def number(bits):
    return struct.unpack(">d", struct.pack(">Q", bits))[0]


def pattern(x):
    return NAN if x != x else struct.unpack(">Q", struct.pack(">d", x))[0]


def hardware(bits):
    x = number(bits)
    if x != x or x < 0:
        return NAN
    return pattern(math.sqrt(x))


def exact(bits):
    """The root by whole numbers: the nearest to the root of m * 2 ^ e, as the square of no half-way number is representable."""
    sign, e, t = bits >> 63, (bits >> 52) & 0x7FF, bits & ((1 << 52) - 1)
    if e == 0x7FF:
        return INF if t == 0 and not sign else NAN
    if e == 0 and t == 0:
        return bits
    if sign:
        return NAN
    m, e = (t, -1074) if e == 0 else (t + (1 << 52), e - 1075)
    shift = 108 - m.bit_length()
    shift += (e - shift) % 2
    n, half = m << shift, (e - shift) // 2
    q = math.isqrt(n)
    k = q.bit_length() - 53
    low = q >> k
    middle = ((2 * low + 1) << k) ** 2
    assert middle != 4 * n
    if middle < 4 * n:
        low += 1
    return pattern(math.ldexp(low, k + half))


def odd_roots(c, k):
    """The y with y * y = c modulo 2 ^ k, for a c that is 1 modulo 8."""
    y = 1
    for i in range(3, k):
        if (y * y - c) >> i & 1:
            y += 1 << (i - 1)
    return {s * (y + h) % (1 << k) for s in (1, -1) for h in (0, 1 << (k - 1))}


def hard(rng, count):
    """Arguments whose root lies nearest to the middle of two neighbours: 4 * A * 2 ^ 52 is an odd square less a small c."""
    found = [[], []]
    i = 0
    while min(map(len, found)) < count:
        i += 1
        for c in (8 * i - 7, 1 - 8 * i):
            for parity in (0, 1):
                for y in odd_roots(c, 54 + parity):
                    a = (y * y - c) >> (54 + parity)
                    if a >> 52 == 1 and (a << (54 + parity)) + c == y * y and len(found[parity]) < count:
                        found[parity].append((a, abs(c)))
    out = []
    for parity in (0, 1):
        for a, _ in found[parity]:
            # an even power of two above A where A is taken as it is, an odd one where it is doubled
            field = rng.choice([f for f in range(1, 2047) if (f - 1075 + 52) % 2 == parity])
            out.append((field << 52) | (a - (1 << 52)))
    return out


def arguments():
    rng = random.Random(20250101)
    special = [0, INF, NAN, 1, 0x000FFFFFFFFFFFFF, 0x0010000000000000, 0x7FEFFFFFFFFFFFFF, 0x3FF0000000000000, 0x3FEFFFFFFFFFFFFF, 0x4000000000000000]
    special += [0x7FF0000000000001, 0x7FFFFFFFFFFFFFFF, 0x7FF4000000000000, 0x7FF8000000000001]
    yield from special
    yield from (b | SIGN for b in special)
    for e in range(1, 2047):
        for t in (0, (1 << 52) - 1, rng.getrandbits(52)):
            yield (e << 52) | t
    for n in range(1, 53):
        top = 1 << (n - 1)
        yield from (top, 2 * top - 1, top | rng.randrange(top), SIGN | top)
    for _ in range(200):
        square = pattern(float(rng.getrandbits(26) ** 2))
        scaled = square + (2 * rng.randrange(-480, 480) << 52) if square else 1
        yield from (scaled - 1, scaled, scaled + 1)
    yield from hard(rng, 150)
    for _ in range(300):
        yield rng.getrandbits(64)


def main():
    out = bytearray()
    count = 0
    for bits in arguments():
        root = hardware(bits)
        if root != exact(bits):
            sys.exit("the hardware's root of %016x is %016x, the exact one %016x" % (bits, root, exact(bits)))
        out += struct.pack(">QQ", bits, root)
        count += 1
    with open(sys.argv[1], "wb") as f:
        f.write(out)
    print("%d records, each root the hardware's and confirmed by whole numbers" % count)


main()
