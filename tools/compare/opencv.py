#!/usr/bin/env python3
"""opencv.py [ROUNDS]: OpenCV's findTransformECC on the frames of tools/compare/speed.rs, for its table.

It is another arrangement of the same method (it keeps other images, warps with its own tables and sums by matrix products), not document 000: its
numbers are not held to ours. One thread; the processor time of a call of ten passes less one of one pass, for each pixel and pass (at 4096x4096 of
three less one); medians. It needs OpenCV's package for Python, and says nothing where there is none.
"""
import sys
import time

try:
    import cv2
    import numpy as np
except ImportError:
    sys.exit(0)


def texture(x, y):
    """a smooth texture in the whole plane, 0 to 255"""
    waves = 45 * np.sin(0.31 * x + 0.17 * y) + 35 * np.sin(0.23 * y - 0.12 * x + 1) + 25 * np.sin(0.09 * x - 0.05 * y + 2)
    return np.floor(waves + 20 * np.sin(0.04 * x * np.cos(0.02 * y) + 0.06 * y) + 128.5).astype(np.uint8)


def frame(side, turn, dx, dy):
    """the texture turned about the top left corner and shifted"""
    y, x = np.mgrid[0:side, 0:side].astype(np.float64)
    s, c = np.sin(turn), np.cos(turn)
    return texture(c * x - s * y + dx, s * x + c * y + dy)


def timed(template, image, filter, passes):
    """nanoseconds of a call"""
    pose = np.eye(2, 3, dtype=np.float32)
    start = time.process_time_ns()
    cv2.findTransformECC(template, image, pose, cv2.MOTION_EUCLIDEAN, (cv2.TERM_CRITERIA_COUNT, passes, 0), None, filter)
    return time.process_time_ns() - start


def main():
    rounds = int(sys.argv[1]) if len(sys.argv) > 1 else 15
    cv2.setNumThreads(1)
    print(f"\nOpenCV {cv2.__version__}, findTransformECC: another arrangement of the same method, one thread. Nanoseconds for each pixel and pass.")
    for side in (32, 128, 350, 1024, 4096):
        template, image = frame(side, 0, 0, 0), frame(side, 0.16 / side, 0.7, -0.4)
        many, count = (3, min(rounds, 3)) if side == 4096 else (10, rounds)
        for filter in (1, 5):
            repeats = max(1, 2_000_000 // (side * side * many))
            calls = lambda passes: sum(timed(template, image, filter, passes) for _ in range(repeats)) / repeats
            taken = sorted(calls(many) - calls(1) for _ in range(count))
            print(f"{f'{side}x{side}':>9} {filter:>6} | {taken[len(taken) // 2] / (side * side * (many - 1)):>6.2f}")


main()
