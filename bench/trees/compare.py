#!/usr/bin/env python3
"""Compares descents and scans of a tree of 100,000 rows with the same in C, the pages in memory.

    python3 bench/trees/compare.py [RUNS]

makes a copy of the repository's crates with one more program in it, builds that
with `rt run` and trees.c with `cc -O2`, runs both in turn, RUNS times (7), and
prints the median time of a call of each and their ratio. `find` looks for keys
of which a third is there; `scan-1` asks for a hundredth of the rows in one
range, `scan-50` for as many in fifty. It ends with status 1 where the answers
differ or a ratio is above its goal.
"""
import sys
from pathlib import Path

HERE = Path(__file__).resolve().parent
sys.path.append(str(HERE.parent))
from beside_c import compared

CRATES = {"dev_model": [], "page_codec": [], "tree_shape": [], "btree_image": ["tree_shape", "page_codec", "dev_model"]}
GOAL = 2.0


def main():
    runs = int(sys.argv[1]) if len(sys.argv) > 1 else 7
    good = True
    for measure, ours, theirs, _, answers in compared(HERE, CRATES, "trees.c", runs):
        same = len(answers) == 1
        good = good and same and ours <= GOAL * theirs
        print(f"{measure:8} {ours:10.1f} ns, C {theirs:10.1f} ns, ratio {ours / theirs:5.2f} (goal {GOAL}){'' if same else ' ANSWERS DIFFER'}")
    sys.exit(0 if good else 1)


main()
