#!/usr/bin/env python3
"""A plain model of R-trees on pages: each page's bounds are worked out from all rows below it, and a search reads pages.

Prints the table of the tests: rows, pages, a rectangle, how many rows lie in it, and the pages that a search asks for.
"""
import struct

FULL = 340


def points(n):
    return [(i // 100, i * 7 % 1000, i) for i in range(n)]


def around(rows):
    xs, ys = [x for x, _, _ in rows], [y for _, y, _ in rows]
    return (min(xs), min(ys), max(xs), max(ys)) if rows else None


def image(rows):
    leaves = [rows[i:i + FULL] for i in range(0, len(rows), FULL)] or [[]]
    pages = [(3, 0, [struct.pack('>HHQ', *r) for r in leaf]) for leaf in leaves]
    below = [(leaf, n) for n, leaf in enumerate(leaves)]
    level = 1
    while len(below) > 1:
        groups = [below[i:i + FULL] for i in range(0, len(below), FULL)]
        at = len(pages)
        pages += [(4, level, [struct.pack('>HHHHI', *around(r), n) for r, n in g]) for g in groups]
        below = [(sum((r for r, _ in g), []), at + i) for i, g in enumerate(groups)]
        level += 1
    out = []
    for kind, level, rows in pages:
        page = bytes([kind, level]) + struct.pack('>H', len(rows)) + bytes(4) + b''.join(rows)
        out.append(page + bytes(4096 - len(page)))
    return out


def search(pages, rect):
    x1, y1, x2, y2 = rect
    asked, found, todo = [], [], [len(pages) - 1]
    while todo:
        asked += todo
        following = []
        for at in todo:
            page = pages[at]
            for i in range(struct.unpack('>H', page[2:4])[0]):
                row = page[8 + 12 * i:20 + 12 * i]
                if page[0] == 3:
                    x, y, key = struct.unpack('>HHQ', row)
                    if x1 <= x <= x2 and y1 <= y <= y2:
                        found.append(key)
                else:
                    a1, b1, a2, b2, child = struct.unpack('>HHHHI', row)
                    if a1 <= x2 and x1 <= a2 and b1 <= y2 and y1 <= b2:
                        following.append(child)
        todo = following
    return found, asked


QUERIES = {
    0: [(0, 0, 65535, 65535)],
    1: [(0, 0, 65535, 65535), (0, 0, 0, 0), (1, 0, 9, 9)],
    340: [(0, 0, 65535, 65535), (3, 373, 3, 373), (4, 0, 9, 999)],
    341: [(0, 0, 65535, 65535), (3, 380, 3, 380), (0, 0, 2, 999), (3, 381, 3, 999), (3, 0, 3, 379), (4, 380, 9, 380), (500, 0, 600, 9)],
    115601: [(0, 0, 0, 0), (1156, 200, 1156, 200), (1155, 0, 1156, 999), (1156, 0, 1156, 199), (7, 100, 9, 200), (2000, 0, 3000, 999)],
}

for n, rects in QUERIES.items():
    rows = points(n)
    pages = image(rows)
    for rect in rects:
        found, asked = search(pages, rect)
        assert found == [k for x, y, k in rows if rect[0] <= x <= rect[2] and rect[1] <= y <= rect[3]]
        print(f"({n}, {len(pages)}, {rect}, {len(found)}, {asked}),", list(pages[-1][:32]) if len(pages) < 4 else '')
