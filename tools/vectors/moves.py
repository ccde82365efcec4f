#!/usr/bin/env python3
"""Vectors for moves by whole pixels: theta is a zero, tx and ty are whole numbers. No number is worked out, bit patterns are copied.

A pixel is marked where 0 <= x + tx < w - 1 and 0 <= y + ty < h - 1, by Python's whole numbers, and then has the bits of the source's pixel at
x + tx, y + ty; an unmarked one is +0. One thing is more than copying: -0 stays -0 only where the pixels to the right of it, below it and below
to the right all have their sign's bit set, since a sum of zeros is -0 only if all of them are.

A line is of the kind of warp_three_inverse_map, 23: sides, map, three images, three images after, marks, count, in hexadecimal; floats by their
bit patterns. The map is [1, -s, tx] and [s, 1, ty], s the zero that theta is. By itself the file prints as many lines as its argument says, of
drawn sides and moves: 'moves.py 3000 | tools/run replay'.
"""
import struct
import sys

MINUS = 0x80000000  # the sign's bit, and the pattern of -0
ONE = 0x3f800000
EDGES = [0, MINUS, 1, MINUS + 1, 0x007fffff, 0x00800000, 0x7f7fffff, 0xff7fffff, ONE, MINUS + ONE]


class Stream:
    """a fixed stream of numbers: Knuth's 64-bit linear congruence, its upper half"""

    def __init__(self, seed):
        self.state = seed

    def below(self, n):
        self.state = (self.state * 6364136223846793005 + 1442695040888963407) % (1 << 64)
        return (self.state >> 32) % n

    def finite(self):
        """the pattern of a finite number: an edge, one of any size, or one such as images hold"""
        sort = self.below(4)
        if sort == 0:
            return EDGES[self.below(len(EDGES))]
        sign = MINUS if self.below(2) else 0
        return sign + (self.below(0x7f800000) if sort == 1 else 0x3f000000 + self.below(0x08000000))


def whole(t, zero):
    """the pattern of the f32 of a whole number; `zero` is that of 0"""
    return zero if t == 0 else struct.unpack('<I', struct.pack('<f', t))[0]


def moved(rows, w, h, tx, ty):
    """the source's rows moved"""
    def at(x, y):
        x, y = x + tx, y + ty
        if not (0 <= x < w - 1 and 0 <= y < h - 1):
            return 0
        beside = [rows[y][x + 1], rows[y + 1][x], rows[y + 1][x + 1]]
        return 0 if rows[y][x] == MINUS and not all(b >= MINUS for b in beside) else rows[y][x]
    return [[at(x, y) for x in range(w)] for y in range(h)]


def line(s, w, h, tx, ty):
    """one vector: three drawn sources, and zeros of drawn signs"""
    sources = [[[s.finite() for _ in range(w)] for _ in range(h)] for _ in range(3)]
    zero = [MINUS * s.below(2) for _ in range(3)]
    map_ = [ONE, MINUS - zero[0], whole(tx, zero[1]), zero[0], ONE, whole(ty, zero[2])]
    marks = [int(0 <= x + tx < w - 1 and 0 <= y + ty < h - 1) for y in range(h) for x in range(w)]
    images = sources + [moved(rows, w, h, tx, ty) for rows in sources]
    words = [23, w, h] + map_ + [b for image in images for row in image for b in row] + marks + [sum(marks)]
    return ' '.join(f'{word:x}' for word in words)


def stored():
    """the vectors that the gate replays: both zeros, each way, to the last marked pixel and one further, far outside"""
    s = Stream(20261116)
    lines = ['# moves by whole pixels: sides, map, three images, three images after, marks, count']
    for w, h in [(1, 1), (2, 2), (1, 5), (5, 1), (3, 2), (6, 5)]:
        ways = sorted({0, 1, -1, w - 2, w - 1, 2 - w, 1 - w, -w})
        lines += [line(s, w, h, tx, ty) for tx in ways for ty in sorted({0, 1, -1, h - 2, 1 - h})]
        lines += [line(s, w, h, tx, ty) for tx, ty in [(0, 0), (0, 0), (4096, 0), (-4096, 4096), (0, -4096)]]
    lines += [line(s, 512, 2, 510, 0), line(s, 512, 2, -509, 0), line(s, 2, 300, 0, -298), line(s, 24, 24, -7, 11)]
    return lines


def drawn(n):
    """n vectors of drawn sides up to 1,024 pixels, and of moves up to a little further than the sides"""
    s = Stream(n)
    for _ in range(n):
        w = 1 + s.below(40)
        h = 1 + s.below(min(40, 1024 // w))
        yield line(s, w, h, s.below(w + w + 3) - w - 1, s.below(h + h + 3) - h - 1)


if __name__ == '__main__':
    if len(sys.argv) != 2 or not sys.argv[1].isdigit():
        sys.exit(__doc__)
    for text in drawn(int(sys.argv[1])):
        print(text)
