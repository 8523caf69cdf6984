#!/usr/bin/env python3
"""The plain program that the cover is compared with: it lists cells.

The curve of order 8 is made as the list of its 65,536 cells, by gluing four
copies of the next lower order. For each of 200 rectangles every cell is looked
at, the numbers of those that meet the rectangle are joined into runs, and the
runs are folded into one number. `python3 cells.py` prints these numbers as the
table of the test in crates/region_cover/src/tests.rt; `python3 cells.py points`
prints the points, values and cells of the test in crates/hilbert_key/src/tests.rt.
"""
import sys

CELL = 256
SIZES = [0, 1, 255, 256, 655, 6554, 32768, 65535]


def path(order):
    """The points of the square of side 2 ** order, as the curve goes through them."""
    if order == 0:
        return [(0, 0)]
    part = path(order - 1)
    half = 1 << (order - 1)
    return (
        [(y, x) for x, y in part]
        + [(x, y + half) for x, y in part]
        + [(x + half, y + half) for x, y in part]
        + [(2 * half - 1 - y, half - 1 - x) for x, y in part]
    )


def rectangle(n):
    """The n-th rectangle of the table."""
    x, y = n * 7919 % 65536, n * 40503 % 65536
    return x, y, min(x + SIZES[n % 8], 65535), min(y + SIZES[n // 8 % 8], 65535)


def cover(cells, rect):
    """The runs of values of the cells that meet the rectangle."""
    x1, y1, x2, y2 = rect
    runs = []
    for number, (x, y) in enumerate(cells):
        left, low = x * CELL, y * CELL
        if left <= x2 and x1 <= left + CELL - 1 and low <= y2 and y1 <= low + CELL - 1:
            lo = number * CELL * CELL
            hi = lo + CELL * CELL - 1
            if runs and runs[-1][1] + 1 == lo:
                runs[-1][1] = hi
            else:
                runs.append([lo, hi])
    return runs


def fingerprint(runs):
    total = 0
    for lo, hi in runs:
        for value in (lo, hi):
            total = (total * 16777619 + value) % 2**32
    return total


def value(x, y):
    """A point's value by its bits from the top, with the square turned round at each."""
    total, size = 0, 65536
    while size > 1:
        size //= 2
        right, upper = (x & size) > 0, (y & size) > 0
        total += size * size * (3 if right and not upper else 2 if right else 1 if upper else 0)
        if not upper:
            if right:
                x, y = 65535 - x, 65535 - y
            x, y = y, x
    return total


def points():
    some = [(0, 0), (1, 0), (1, 1), (0, 1), (2, 2), (2, 0), (3, 0), (255, 255), (0, 256), (12345, 54321),
            (32767, 32768), (32768, 32768), (54321, 12345), (65535, 65535), (65535, 0)]
    for x, y in sorted(some, key=lambda p: value(*p)):
        print(f"({x}, {y}, {value(x, y)}, {value(x, y) // 65536}),")


def main():
    if sys.argv[1:] == ["points"]:
        points()
        return
    cells = path(8)
    for row in range(0, 200, 8):
        print("    " + " ".join(f"{fingerprint(cover(cells, rectangle(n)))}," for n in range(row, row + 8)))


main()
