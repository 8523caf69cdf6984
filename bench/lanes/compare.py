#!/usr/bin/env python3
"""Compares turns of a cell with a pthread_mutex around the same work in C.

    python3 bench/lanes/compare.py [RUNS]

makes a copy of the turn cell with one more program in it, builds that with
`rt run` and mutex.c with `cc -O2`, runs both in turn, RUNS times (7), and
prints the median time of a turn of each and their ratio: for one thread, which
nobody waits for, and for four and eight, with turns of 1, 500 and 5,000 steps
of some three nanoseconds. By strace it counts the calls of futex, and how many of
them are sleeps. Last it looks how much of a processor each of seven threads
takes that wait while an eighth one has its turn. The load of the machine is
printed first. It ends with status 1 where the answers differ or a goal is
missed.
"""
import os
import re
import statistics
import subprocess
import sys
import tempfile
import time
from pathlib import Path

HERE = Path(__file__).resolve().parent
sys.path.append(str(HERE.parent))
from beside_c import TOP, build_c, build_proved

CRATES = {"turn_cell": ["atomic_table"]}
# threads, turns of each, steps of a turn, and the greatest ratio
MEASURES = [(1, 2_000_000, 1, 2.0)] + [
    (threads, turns // threads, steps, 1.5)
    for steps, turns in ((1, 400_000), (500, 80_000), (5_000, 12_000))
    for threads in (4, 8)
]
MOST_SLEEPS = 1.0
LONG_TURN = 500_000_000
WINDOW = 0.4
MOST_SHARE = 0.01


def words_of(program, threads, turns, steps):
    return [str(program), str(threads), str(turns), str(steps)]


def run(program, threads, turns, steps):
    """Nanoseconds a turn, and the number at the end."""
    words = words_of(program, threads, turns, steps)
    taken, nanos, at = subprocess.run(words, capture_output=True, text=True, check=True).stdout.split()
    return int(nanos) / int(taken), at


def futex_calls(program, folder, threads, turns, steps):
    """How many calls of futex a run makes, and how many of them are sleeps."""
    trace = folder / "trace"
    tracer = ["strace", "-f", "-e", "trace=futex", "-o", str(trace)]
    subprocess.run(tracer + words_of(program, threads, turns, steps), capture_output=True, check=True)
    calls = [line for line in trace.read_text().splitlines() if re.search(r"\bfutex\(", line)]
    return len(calls), sum("FUTEX_WAIT" in line for line in calls)


def processor_time(process):
    """Nanoseconds that each thread of the process has run."""
    tasks = Path(f"/proc/{process.pid}/task")
    return {task.name: int((task / "schedstat").read_text().split()[0]) for task in tasks.iterdir()}


def shares_of_waiting(program):
    """What part of a processor each thread takes while one of eight has a long turn, without the busiest one."""
    process = subprocess.Popen(words_of(program, 8, 1, LONG_TURN), stdout=subprocess.DEVNULL)
    time.sleep(WINDOW / 2)
    before = processor_time(process)
    time.sleep(WINDOW)
    after = processor_time(process)
    process.kill()
    process.wait()
    shares = sorted((after[task] - before[task]) / (WINDOW * 1e9) for task in before)
    if len(shares) != 8 or shares[-1] < 0.05:
        sys.exit(f"no thread had its turn while it was looked at: {shares}")
    return shares[:-1]


def compared(cell, mutex, folder, runs):
    good = True
    for threads, turns, steps, goal in MEASURES:
        pairs = [(run(cell, threads, turns, steps), run(mutex, threads, turns, steps)) for _ in range(runs)]
        ours = statistics.median(pair[0][0] for pair in pairs)
        theirs = statistics.median(pair[1][0] for pair in pairs)
        same = len({one[1] for pair in pairs for one in pair}) == 1
        calls, sleeps = futex_calls(cell, folder, threads, turns, steps)
        rare = calls == 0 if threads == 1 else sleeps <= MOST_SLEEPS * threads * turns
        good = good and same and rare and ours <= goal * theirs
        print(
            f"{threads} threads, {steps:4} steps: {ours:9.1f} ns a turn, C {theirs:9.1f} ns, ratio {ours / theirs:5.2f} (goal {goal}); "
            f"{calls} futex calls, {sleeps} sleeps in {threads * turns} turns{'' if same else '; ANSWERS DIFFER'}",
            flush=True,
        )
    return good


def main():
    runs = int(sys.argv[1]) if len(sys.argv) > 1 else 7
    print(f"load {os.getloadavg()[0]:.1f} on {os.cpu_count()} processors")
    with tempfile.TemporaryDirectory() as name:
        folder = Path(name)
        (folder / "HANDLES").write_text((TOP / "HANDLES").read_text())
        cell, mutex = build_proved(folder, HERE, CRATES), build_c(folder, HERE / "mutex.c")
        good = compared(cell, mutex, folder, runs)
        shares = shares_of_waiting(cell)
        print(f"7 threads that wait take at most {100 * max(shares):.2f} % of a processor each (goal below {100 * MOST_SHARE:.0f} %)")
    sys.exit(0 if good and max(shares) < MOST_SHARE else 1)


main()
