#!/usr/bin/env python3
"""Measures a durable put against the bare device calls in C, and against SQLite, on the same file system.

    python3 bench/durable/compare.py [PROGRAM] [--puts N] [--runs N] [--pages N] [--folder FOLDER]

PROGRAM is crates/spatial/out/spatial where none is named. In turns, RUNS times (101), each on a new file in FOLDER
(bench/out/durable) and with PUTS puts (50, and 1,023 at the most, so that no flush comes):

- spatial: the time of `serial` with a script of the puts, without the time of one with an empty script.
- bare: the same of bare.c, a loop over 96 bytes, a sync, 1 byte and a sync, on a file that was formatted in the same way.
- SQLite: python's own module with journal_mode=WAL and synchronous=FULL, one transaction a put.

It prints the median times of a put, the mean processor times of a put, and the two ratios of the medians. It ends with
status 1 where one of these is above its goal. The ratio of the bare calls to SQLite, which has no goal, says how much
of the second one the calls cost by themselves.
"""
import resource
import sqlite3
import statistics
import sys
import tempfile
from pathlib import Path

from costs import Clock, place_of, timed
from stores import MOST_PUTS, expected_text, new_file, read_words, rows, script_of, words_of

HERE = Path(__file__).resolve().parent
sys.path.append(str(HERE.parent))
from beside_c import build_c

MOST_OVER_BARE = 1.2
MOST_OVER_SQLITE = 1.4


def program_cost(program, file, pages, puts):
    new_file(program, file, pages)
    words = [program, file, str(pages), "serial"]
    empty, _ = timed(words)
    full, text = timed(words, script_of(puts))
    if text != expected_text(puts):
        sys.exit("the puts weren't answered as on an empty table")
    return (full - empty) / puts


def bare_cost(program, peer, file, pages, puts):
    new_file(program, file, pages)
    empty, _ = timed([peer, file, "0"])
    full, _ = timed([peer, file, str(puts)])
    return (full - empty) / puts


def sqlite_cost(folder, puts):
    for old in folder.glob("rows.db*"):
        old.unlink()
    base = sqlite3.connect(folder / "rows.db", isolation_level=None)
    if base.execute("PRAGMA journal_mode=WAL").fetchone() != ("wal",):
        sys.exit("SQLite has no write-ahead log here")
    base.execute("PRAGMA synchronous=FULL")
    base.execute("CREATE TABLE rows (key INTEGER PRIMARY KEY, x INTEGER, y INTEGER, note TEXT)")
    wanted = rows(puts)
    clock = Clock(resource.RUSAGE_SELF)
    for row in wanted:
        # Without BEGIN each statement is a transaction of its own.
        base.execute("INSERT OR REPLACE INTO rows VALUES (?, ?, ?, ?)", row)
    cost = clock.cost()
    if base.execute("SELECT count(*) FROM rows").fetchone() != (puts,):
        sys.exit("SQLite lacks rows")
    base.close()
    return cost / puts


def measured(words, folder):
    peer = build_c(folder, HERE / "bare.c")
    file = folder / "store.dat"
    return [
        (
            program_cost(words.program, file, words.pages, words.puts),
            bare_cost(words.program, peer, file, words.pages, words.puts),
            sqlite_cost(folder, words.puts),
        )
        for _ in range(words.runs)
    ]


def median_of(name, costs):
    """The median time of a put, which is printed."""
    passed = [1e6 * cost.passed for cost in costs]
    processor = statistics.mean(1e6 * cost.processor for cost in costs)
    print(f"{name:14} {statistics.median(passed):8.1f} us a put (of the runs {min(passed):.1f} to {max(passed):.1f}), {processor:6.1f} us of a processor")
    return statistics.median(passed)


def within(name, ours, theirs, goal):
    print(f"spatial to {name}: ratio {ours / theirs:.2f} (goal {goal}){'' if ours <= goal * theirs else ' ABOVE THE GOAL'}")
    return ours <= goal * theirs


def main():
    parser = words_of("Measures a durable put.")
    parser.add_argument("--puts", type=int, default=50)
    parser.add_argument("--runs", type=int, default=101)
    words = read_words(parser)
    place = place_of(words.folder)
    if not 1 <= words.puts <= MOST_PUTS or words.runs < 1:
        parser.error(f"PUTS is 1 to {MOST_PUTS}, and RUNS at least 1")
    if place["kind"] in ("tmpfs", "ramfs"):
        parser.error(f"{words.folder} is in memory, where a sync does nothing: name another FOLDER")
    with tempfile.TemporaryDirectory(dir=words.folder) as name:
        found = measured(words, Path(name))
    print(f"{words.puts} puts, {words.runs} runs, files in {words.folder} on {place['source']}, {place['kind']} at {place['target']}")
    ours, bare, sqlite = map(median_of, ("spatial", "bare", f"SQLite {sqlite3.sqlite_version}"), zip(*found))
    good = [within("bare", ours, bare, MOST_OVER_BARE), within("SQLite", ours, sqlite, MOST_OVER_SQLITE)]
    print(f"bare to SQLite: ratio {bare / sqlite:.2f}")
    sys.exit(0 if all(good) else 1)


main()
