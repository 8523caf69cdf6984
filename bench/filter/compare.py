#!/usr/bin/env python3
"""Measures the filter's false answers, and its time against the same code in C.

    python3 bench/filter/compare.py [RUNS]

makes a copy of the filter's crate with one more program beside it, builds that
with `rt run` and filter.c with `cc -O2`, runs both in turn, RUNS times (9), and
prints for each measure the median time of a call of each, their ratio, and the
part of the calls that answered yes. It ends with status 1 where the answers
differ, a ratio is above 1.5, a key that was added is denied, or more than 1.1 %
of the absent keys are not.
"""
import sys
from pathlib import Path

HERE = Path(__file__).resolve().parent
sys.path.append(str(HERE.parent))
from beside_c import compared

GOAL = 1.5
MOST_FALSE = 0.011


def main():
    runs = int(sys.argv[1]) if len(sys.argv) > 1 else 9
    good = True
    for measure, ours, theirs, calls, answers in compared(HERE, {"bloom_bits": []}, "filter.c", runs):
        parts = {int(yes) / calls for yes in answers}
        right = len(parts) == 1 and (parts == {1.0} if measure.startswith("present") else max(parts) <= MOST_FALSE)
        good = good and right and ours <= GOAL * theirs
        print(f"{measure:16} {ours:6.1f} ns, C {theirs:6.1f} ns, ratio {ours / theirs:5.2f} (goal {GOAL}), yes {100 * max(parts):8.4f} %{'' if right else ' WRONG ANSWERS'}")
    sys.exit(0 if good else 1)


main()
