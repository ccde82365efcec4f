#!/usr/bin/env python3
"""Vectors for the driver numbers, by exact fractions: nothing of the Rattle code is used, and nothing of the oracle.

A line is a kind and its words in hexadecimal: number, theta, tx, ty by their bit patterns, w, h; then dx, dy and turn, each by two words: 1 if it is
below 0, else 0, and its distance to 0. tools/vectors/make writes them.

Document 01's case 8 is on the list, for a 1x1 frame, the lines without a star too: 200 gives 32767, -128 gives -32768, theta -2 gives -16384.
"""
import random
import struct
from fractions import Fraction
from helpers import INF, TOP, cos, nearest, sin, value

KIND = 27


def finite(b):
    return b % TOP < INF


def pattern(x):
    return struct.unpack('<I', struct.pack('<f', x))[0]


def held(v):
    """a fraction to the nearest whole number, half away from zero, held"""
    size = int(abs(v) + Fraction(1, 2))
    return max(-32768, min(32767, -size if v < 0 else size))


def rows(theta, tx, ty):
    """the first two rows of a pose's matrix, as fractions; identity3's for a theta outside -2..2"""
    if abs(value(theta)) > 2:
        return [1, 0, 0], [0, 1, 0]
    c, s = value(cos(theta)), value(sin(theta))
    return [c, -s, value(tx)], [s, c, value(ty)]


def pins(number, theta, tx, ty, w, h):
    """documents 01 and 02: how far the middle of the frame moves, in 1/256 pixel, and the turn in 1/8192 radian"""
    if number != 0 or not (1 <= w <= 4096 and 1 <= h <= 4096) or not all(map(finite, (theta, tx, ty))):
        return 0, 0, 0
    x, y = Fraction(w - 1, 2), Fraction(h - 1, 2)
    first, second = rows(theta, tx, ty)
    return (held(256 * (first[0] * x + first[1] * y + first[2] - x)), held(256 * (second[0] * x + second[1] * y + second[2] - y)),
            held(8192 * value(theta)))


def line(number, theta, tx, ty, w, h):
    told = [word for v in pins(number, theta, tx, ty, w, h) for word in (int(v < 0), abs(v))]
    return ' '.join(f'{word:x}' for word in [KIND, number, theta, tx, ty, w, h] + told)


def around(x):
    """a number, its negative, and the f32 next to it on either side"""
    return [b for near in (-1, 0, 1) for b in ((pattern(x) + near) % 2 ** 32, (pattern(x) + near) % 2 ** 32 ^ TOP)]


def edges(r):
    """patterns at the edges of the rules, and any"""
    some = [0, TOP, INF - 1, TOP + INF - 1, 1 << 23, 0x7fc00000, INF, TOP + INF]
    for n in [0, 1, 2, 3, 255, 256, 32766, 32767, 32768, 32769]:
        for scale in (256, 8192):
            some += around((n + 0.5) / scale) + around((n + 1.0) / scale)
    return some + [r.getrandbits(32) for _ in range(200)]


def tiny(r):
    """a pattern of a number below 2^-24 in size"""
    return r.choice([0, TOP]) + r.choice([1, 2, 3, 1 << 22, 1 << 23, r.getrandbits(29), r.getrandbits(24), r.getrandbits(10)])


def named():
    """those that the documents and their readings name"""
    yield from ((0, pattern(t), pattern(x), pattern(y), 1, 1) for t, x, y in [(0, 1 / 512, -1 / 512), (-2, 200, -128), (2, -200, 128), (2.5, 1, 1)])
    yield from ((0, pattern(1.0), 0, 0, w, h) for w, h in [(1, 1), (3, 1), (0, 5), (5, 0), (4096, 4096), (4097, 1), (1, 4097), (2 ** 63, 2 ** 63)])
    yield 0, pattern(2.0 ** -6), 0x3c90feaa, 0, 3, 3
    yield from ((0, pattern(0.1), 0, 0, n, n) for n in (20, 40))
    yield from ((number, pattern(1.0), pattern(2.0), pattern(3.0), 32, 24) for number in range(1, 14))


def halves(r):
    """an exact half by the turn with a tiny shift, and by the shift with a tiny turn"""
    for _ in range(60):
        j = r.randrange(4, 12)
        turn = pattern(r.choice([1, -1]) * (2 * r.randrange(4) + 1) / 256 / 2 ** j / 2 ** r.randrange(3))
        yield 0, turn, tiny(r), tiny(r), 2 ** j + 1, 2 ** j + 1
        shift = pattern(r.choice([1, -1]) * (2 * r.randrange(70000) + 1) / 512)
        yield 0, tiny(r), shift, pattern(r.choice([1, -1]) * (2 * r.randrange(20) + 1) / 512), r.randrange(1, 4097), r.randrange(1, 4097)


def aimed(r):
    """a turn, with the shift for which the middle moves by a whole number of half steps, to the nearest f32 and those beside it"""
    for _ in range(120):
        w, h, theta = r.choice([1, 2, 3, 32, 350, 4095, 4096]), r.choice([1, 2, 7, 24, 480, 4095, 4096]), nearest(Fraction(r.randrange(-2000, 2001), 1000))
        x, y = Fraction(w - 1, 2), Fraction(h - 1, 2)
        first, second = rows(theta, 0, 0)
        steps = [Fraction(r.choice([65535, -65537, 1, -1, 2 * r.randrange(-35000, 35000) + 1]), 512) for _ in range(2)]
        tx = nearest(steps[0] + x - first[0] * x - first[1] * y)
        ty = nearest(steps[1] + y - second[0] * x - second[1] * y)
        yield 0, theta, (tx + r.randrange(-1, 2)) % 2 ** 32, (ty + r.randrange(-1, 2)) % 2 ** 32, w, h


def far(r):
    """shifts around those from which they decide alone, under the steepest turns of the largest frame"""
    for size in (2 ** 11, 2 ** 12, 4883, 5000, 2 ** 13, 2 ** 14):
        for b in around(float(size)):
            yield 0, r.choice([pattern(2.0), pattern(-2.0), pattern(1.57)]), b, b ^ r.choice([0, TOP]), 4096, 4096


def stored():
    """the lines of the gate"""
    r = random.Random(20260106)
    all_edges = edges(r)
    n = len(all_edges)
    lines = ['# driver numbers: number, theta, tx, ty, w, h; dx, dy, turn, each by its sign and its size']
    for i, b in enumerate(all_edges):
        lines.append(line(0, b, all_edges[(i * 7 + 3) % n], all_edges[(i * 11 + 5) % n], 1, 1))
        lines.append(line(0, 0, b, b ^ TOP, r.randrange(1, 4097), r.randrange(1, 4097)))
        lines.append(line(0, b, tiny(r), pattern(r.uniform(-200, 200)), r.randrange(1, 4097), r.randrange(1, 4097)))
    return lines + [line(*pose) for family in (named(), halves(r), aimed(r), far(r)) for pose in family]


if __name__ == '__main__':
    print('\n'.join(stored()))
