#!/usr/bin/env python3
"""Compares the curve and the cover with the same recursion in C.

    python3 bench/curve/compare.py [RUNS]

makes a copy of the repository's crates with one more program in it, builds that
with `rt run` and curve.c with `cc -O2`, runs both in turn, RUNS times (7), and
prints the median time of a call of each and their ratio. It ends with status 1
where the answers differ or a ratio is above its goal.
"""
import sys
from pathlib import Path

HERE = Path(__file__).resolve().parent
sys.path.append(str(HERE.parent))
from beside_c import compared

CRATES = {"geo_base": [], "hilbert_key": [], "region_cover": ["geo_base", "hilbert_key"]}
GOALS = {"value": 1.5}
COVER_GOAL = 2.0


def main():
    runs = int(sys.argv[1]) if len(sys.argv) > 1 else 7
    good = True
    for measure, ours, theirs, _, answers in compared(HERE, CRATES, "curve.c", runs):
        goal = GOALS.get(measure, COVER_GOAL)
        same = len(answers) == 1
        good = good and same and ours <= goal * theirs
        print(f"{measure:12} {ours:12.1f} ns, C {theirs:12.1f} ns, ratio {ours / theirs:5.2f} (goal {goal}){'' if same else ' ANSWERS DIFFER'}")
    sys.exit(0 if good else 1)


main()
