#!/usr/bin/env python3
"""A plain model of trees on pages: pages as lists of bytes, a descent that looks at every row, and a scan that filters the
list and looks at the span of every page.

Prints the tables of the tests. Descents: rows, pages, a key, whether it is there, the pages of its descent, first bytes of
the root. Scans: rows, ranges, how many rows lie in them, the first four pages that are asked for, how many they are.
"""
import struct

LEAF, INNER = 52, 340


def image(keys):
    leaves = [keys[i:i + LEAF] for i in range(0, len(keys), LEAF)] or [[]]
    pages = [(1, 0, [struct.pack('>Q', k) + bytes(70) for k in leaf]) for leaf in leaves]
    below = [(leaf[0] if leaf else None, n) for n, leaf in enumerate(leaves)]
    level = 1
    while len(below) > 1:
        groups = [below[i:i + INNER] for i in range(0, len(below), INNER)]
        at = len(pages)
        pages += [(2, level, [struct.pack('>QI', k, n) for k, n in g]) for g in groups]
        below = [(g[0][0], at + i) for i, g in enumerate(groups)]
        level += 1
    out = []
    for kind, level, rows in pages:
        page = bytes([kind, level]) + struct.pack('>H', len(rows)) + bytes(4) + b''.join(rows)
        out.append(page + bytes(4096 - len(page)))
    return out


def descent(pages, key):
    at, way = len(pages) - 1, []
    while True:
        way.append(at)
        page = pages[at]
        count = struct.unpack('>H', page[2:4])[0]
        if page[0] == 1:
            rows = [struct.unpack('>Q', page[8 + 78 * i:16 + 78 * i])[0] for i in range(count)]
            return (key in rows), way
        rows = [struct.unpack('>QI', page[8 + 12 * i:20 + 12 * i]) for i in range(count)]
        fit = [child for k, child in rows if k <= key]
        at = fit[-1] if fit else rows[0][1]


for n in [0, 1, 52, 53, 17680, 17681, 20000]:
    keys = [3 * i + 1 for i in range(n)]
    pages = image(keys)
    for key in sorted({0, 1, 2, 157, 3 * n - 2 if n else 5, 3 * n + 7, 53041, 30000}):
        found, way = descent(pages, key)
        print(f"({n}, {len(pages)}, {key}, {str(found).lower()}, &{way}, {list(pages[-1][:20])}),")


def scan(keys, ranges):
    sizes = [max(-(-len(keys) // LEAF), 1)]
    while sizes[-1] > 1:
        sizes.append(-(-sizes[-1] // INNER))
    root = len(sizes) - 1
    pages = [sum(sizes[:root])]
    for level in range(root - 1, -1, -1):
        span = LEAF * INNER ** level
        for at in range(sizes[level]):
            first = keys[at * span]
            end = keys[(at + 1) * span] if (at + 1) * span < len(keys) else None
            if any(first <= high and (end is None or low < end) for low, high in ranges):
                pages.append(sum(sizes[:level]) + at)
    return [k for k in keys if any(low <= k <= high for low, high in ranges)], pages


MOST = 2 ** 64 - 1
for n, ranges in [
    (0, []), (0, [(0, MOST)]), (1, []), (1, [(0, 0)]), (1, [(1, 1)]), (1, [(2, 9)]),
    (52, [(0, MOST)]), (52, [(154, 154)]), (52, [(155, MOST)]), (52, [(4, 7), (8, 9), (10, 10)]),
    (53, []), (53, [(0, 0)]), (53, [(0, MOST)]), (53, [(154, 154)]), (53, [(155, 156)]), (53, [(157, 157)]),
    (53, [(154, 157)]), (53, [(0, 1), (153, 155), (158, MOST)]), (53, [(158, MOST)]),
    (105, [(0, 0), (160, 160), (400, 500)]), (105, [(1, 1), (313, 313)]), (105, [(2, 3), (155, 156)]),
    (17681, []), (17681, [(0, 0)]), (17681, [(53041, 53041)]), (17681, [(0, MOST)]), (17681, [(53038, 53041)]),
    (17681, [(1, 1), (30000, 30400), (53050, MOST)]), (17681, [(53035, 53036), (53039, 53040)]),
]:
    rows, pages = scan([3 * i + 1 for i in range(n)], ranges)
    print(f"({n}, {ranges}, {len(rows)}, {(pages + [0] * 4)[:4]}, {len(pages)}),")
