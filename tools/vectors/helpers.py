#!/usr/bin/env python3
"""Vectors for the number helpers, by exact arithmetic on whole numbers and fractions.

Nothing of the Rattle code is used. A float is taken apart from its bit pattern and is a fraction of two whole numbers from
there on. The square root is found by a search over all bit patterns, with squares of fractions; cosine, sine and e^-a follow
document 01's recurrences on Python's whole numbers. Inputs are the edges of each rule and a fixed stream of numbers.

A line is a kind and its words, in hexadecimal: the argument and the answer, floats by their bit patterns. A NaN's pattern is
written 7fc00000.
"""
from fractions import Fraction

INF, NAN, TOP = 0x7f800000, 0x7fc00000, 0x80000000


def is_nan(b):
    return b % TOP > INF


def value(b):
    """the value of a finite pattern"""
    e, m = b % TOP >> 23, b % (1 << 23)
    v = Fraction(m, 1 << 149) if e == 0 else Fraction((1 << 23) + m) * Fraction(2) ** (e - 150)
    return -v if b >= TOP else v


def nearest(v, negative=False):
    """the pattern of the f32 nearest to a fraction, ties to the even one; 'negative' is the sign of a zero"""
    if v < 0:
        return TOP + nearest(-v)
    low, high = 0, INF  # value(low) <= v < 2^128
    if v >= Fraction(2) ** 128 - Fraction(2) ** 103:
        return INF
    while high - low > 1:
        mid = (low + high) // 2
        low, high = (mid, high) if value(mid) <= v else (low, mid)
    up = Fraction(2) ** 128 if low + 1 == INF else value(low + 1)
    twice = 2 * v - value(low) - up
    r = low if twice < 0 or (twice == 0 and low % 2 == 0) else low + 1
    return TOP + r if negative else r


def sqrt(b):
    if is_nan(b) or (b > TOP):
        return NAN
    if b in (0, TOP, INF):
        return b
    x = value(b)
    low, high = 0, INF  # value(low)^2 <= x
    while high - low > 1:
        mid = (low + high) // 2
        low, high = (mid, high) if value(mid) ** 2 <= x else (low, mid)
    middle = (value(low) + value(low + 1)) / 2
    assert middle ** 2 != x  # no tie
    return low if x < middle ** 2 else low + 1


ONE = 1 << 30


def recurrence(z, divisors):
    u = ONE
    for d in divisors:
        u = ONE - z * u // (ONE * d)
    return u


def square(b):
    return int(value(b) ** 2 * ONE // 1)


def cos(b):
    return nearest(Fraction(recurrence(square(b), [(2 * k - 1) * 2 * k for k in range(8, 0, -1)]), ONE))


def sin(b):
    w = value(nearest(Fraction(recurrence(square(b), [2 * k * (2 * k + 1) for k in range(8, 0, -1)]), ONE)))
    return nearest(w * value(b), negative=b >= TOP and w * value(b) == 0)


def exp_neg(b):
    e = recurrence(int(value(b) * (1 << 27) // 1), range(12, 0, -1))
    for _ in range(3):
        e = e * e // ONE
    return nearest(Fraction(e, ONE))


def whole(b, to_whole):
    if is_nan(b):
        return NAN
    if b % TOP == INF:
        return b
    n = to_whole(value(b))
    return nearest(Fraction(n), negative=b >= TOP and n == 0)


def floor(b):
    return whole(b, lambda v: v // 1)


def round_away(b):
    return whole(b, lambda v: (abs(v) + Fraction(1, 2)) // 1 * (-1 if v < 0 else 1))


def absolute(b):
    return NAN if is_nan(b) else b % TOP


def is_finite(b):
    return int(b % TOP < INF)


def as_usize(b):
    if is_nan(b) or b >= TOP:
        return 0
    return 2 ** 64 - 1 if b == INF else min(int(value(b)), 2 ** 64 - 1)


def whole_to_f32(n):
    return nearest(Fraction(n))


def stream(seed):
    """a fixed stream of 32-bit numbers: Knuth's 64-bit linear congruence, its upper half"""
    while True:
        seed = (seed * 6364136223846793005 + 1442695040888963407) % 2 ** 64
        yield seed >> 32


def bits(x):
    return nearest(Fraction(x)) if x >= 0 else TOP + nearest(Fraction(-x))


NUMBERS = stream(20260101)
EDGES = [0, 1, 2, 0x7fffff, 0x800000, 0x800001, 0x3e800000, 0x3f000000, 0x3effffff, 0x3f000001, 0x3f7fffff, 0x3f800000, 0x3f800001,
         0x3fbfffff, 0x3fc00000, 0x3fc00001, 0x40000000, 0x40200000, 0x4afffffe, 0x4affffff, 0x4b000000, 0x4b000001, 0x4b7fffff, 0x4b800000,
         0x5effffff, 0x5f000000, 0x5f7fffff, 0x5f800000, 0x7f7fffff, INF, 0x7f800001, NAN, 0x7fffffff]


def anywhere(n):
    """edges of both signs, and n patterns of the stream"""
    return EDGES + [TOP + b for b in EDGES] + [next(NUMBERS) for _ in range(n)]


def between(limit, n, signs):
    """patterns from 0 to that of limit: the edges there, small ones, and n of the stream"""
    top = bits(limit)
    some = [b for b in EDGES if b <= top] + [top, top - 1, 0x3a800000, 0x39800000, 0x34000000, 0x33ffffff, 0x30000000, 0x3fc90fdb]
    some += [next(NUMBERS) % (top + 1) for _ in range(n)] + [bits(Fraction(next(NUMBERS) % 65536 * limit, 65536)) for _ in range(n)]
    return some + ([TOP + b for b in some] if signs else [TOP])


def roots(n):
    """where the digits of a root are decided: subnormal powers of two and one less, ends of fields, squares, and the patterns around the square of
    a middle of two f32, for n middles"""
    some = [1 << k for k in range(23)] + [(1 << k) - 1 for k in range(2, 24)]
    some += [(e << 23) + m for e in (1, 2, 3, 126, 127, 128, 253, 254) for m in (0, 1, 0x3fffff, 0x400000, 0x7fffff)]
    some += [bits(q * q) for q in (2, 3, 5, 181, 1023, 2896, 2897, 4095)]
    middles = stream(20261115)
    for _ in range(n):
        p = nearest(Fraction(2 ** 24 + 2 * (next(middles) % 2 ** 23) + 1, 2) ** 2)
        some += [p - 1, p, p + 1]
    return some


KINDS = [
    (1, 'sqrt', sqrt, anywhere(120) + roots(30)),
    (2, 'cos', cos, between(2, 40, True)),
    (3, 'sin', sin, between(2, 40, True)),
    (4, 'exp_neg', exp_neg, between(6, 60, False)),
    (5, 'floor', floor, anywhere(60) + [bits(Fraction(next(NUMBERS) % 4096 - 2048, 64)) for _ in range(60)]),
    (6, 'round', round_away, anywhere(60) + [bits(Fraction(next(NUMBERS) % 4096 - 2048, 64)) for _ in range(60)]),
    (7, 'abs', absolute, anywhere(20)),
    (8, 'is_finite', is_finite, anywhere(20)),
    (9, 'to_f32', whole_to_f32, [0, 1, 2, 3, 4095, 4096, 2 ** 24 - 1, 2 ** 24] + [next(NUMBERS) % (2 ** 24 + 1) for _ in range(40)]),
    (10, 'as_usize', as_usize, anywhere(60)),
]
