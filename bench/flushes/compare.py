#!/usr/bin/env python3
"""Measures what flushes cost, what they do on the file, and what an opening behind them reads.

    python3 bench/flushes/compare.py [PROGRAM] [--runs N] [--openings N] [--pages N] [--folder FOLDER] [--only PART]

PROGRAM is crates/spatial/out/spatial where none is named. Three parts, or the one that --only names:

- puts: 16,000 puts in one script, with the flushes that come by themselves, against the same puts in 16 scripts of 1,000,
  each on a new file, so that no flush comes and no component is read. In turns, RUNS times (3), both without the time of a
  process with an empty script. The mean of a put with flushes is at most 1.3 times that of one without.
- calls: of six flushes, five by themselves and one by its line, each call on the file by strace: each page of a component is
  written once and in order, and beside these only the log's change of segments, the slot and its gate.
- opening: a store of 16,000 puts is opened: by strace it reads the superblock, the directory and the log alone, and writes
  nothing. The time is that of a run with an empty script, less that of one with a bad line, which ends before the store is
  opened, as medians of OPENINGS runs (51). It is below 5 ms.

No 20,000 puts, since there are no merges: 16 components of 1,024 writes, as many that wait frozen, and 2,048 more are 19,456.

The load of the machine is printed first, a line for each part, and at the end one line with all ratios and limits. It ends
with status 1 where one is broken.
"""
import os
import statistics
import sys
import tempfile
from pathlib import Path

HERE = Path(__file__).resolve().parent
sys.path[:0] = [str(HERE.parent / "durable")]
import flush_calls
import opening_calls
from costs import place_of, timed
from layout import FLUSH_AT, MOST_COMPONENTS, MOST_WAITING
from stores import MOST_PUTS, expected_text, lines_of, new_file, read_words, rows, words_of

PUTS = 16_000
PART_PUTS = 1_000
MOST_RATIO = 1.3
PARTS = ("puts", "calls", "opening")


def script_cost(words, file, wanted):
    """What a script of puts costs on a new file, without what a process costs that does none."""
    new_file(words.program, file, words.pages)
    run = [words.program, file, str(words.pages), "serial"]
    empty, _ = timed(run)
    full, text = timed(run, lines_of(wanted))
    if text != expected_text(len(wanted)):
        sys.exit("the puts weren't answered as on an empty table")
    return full - empty


def costs_of(words, file):
    """The cost of a put with flushes and of one without, of the same puts."""
    wanted = rows(PUTS)
    with_flushes = script_cost(words, file, wanted)
    parts = [script_cost(words, file, wanted[at : at + PART_PUTS]) for at in range(0, PUTS, PART_PUTS)]
    return with_flushes / PUTS, sum(parts[1:], parts[0]) / PUTS


def puts_measured(words, file):
    pairs = [costs_of(words, file) for _ in range(words.runs)]
    flushing, plain = (statistics.median(pair[n].passed for pair in pairs) for n in (0, 1))
    used = [statistics.median(pair[n].processor for pair in pairs) for n in (0, 1)]
    ratio = flushing / plain
    line = (f"puts: {1e6 * flushing:.1f} us a put with flushes, {1e6 * plain:.1f} us without, ratio {ratio:.2f} (limit {MOST_RATIO}); "
            f"of a processor {1e6 * used[0]:.1f} and {1e6 * used[1]:.1f} us; ratios of the runs {', '.join(f'{a.passed / b.passed:.2f}' for a, b in pairs)}")
    return line, ratio <= MOST_RATIO


def measured(words, part, file):
    if part == "puts":
        return puts_measured(words, file)
    if part == "calls":
        return flush_calls.measured(words.program, file, words.pages)
    return opening_calls.measured(words.program, file, words.pages, PUTS, words.openings)


def read_own_words():
    parser = words_of("Measures what flushes cost, and what they do on the file.", "flushes")
    parser.add_argument("--runs", type=int, default=3)
    parser.add_argument("--openings", type=int, default=51)
    parser.add_argument("--only", choices=PARTS)
    words = read_words(parser)
    if words.runs < 1 or words.openings < 1:
        parser.error("RUNS and OPENINGS are at least 1")
    if place_of(words.folder)["kind"] in ("tmpfs", "ramfs"):
        parser.error(f"{words.folder} is in memory, where a sync does nothing: name another FOLDER")
    return words


def main():
    words = read_own_words()
    if PUTS > (MOST_COMPONENTS + 1) * FLUSH_AT + MOST_WAITING or PART_PUTS > MOST_PUTS:
        sys.exit("a store has no room for so many puts, or a flush comes where none may")
    print(f"load {' '.join(f'{load:.2f}' for load in os.getloadavg())} on {os.cpu_count()} processors, files in {words.folder}", flush=True)
    results = []
    with tempfile.TemporaryDirectory(dir=words.folder.resolve()) as name:
        for part in [words.only] if words.only else PARTS:
            line, good = measured(words, part, Path(name) / "store.dat")
            results.append((part, good))
            print(line, flush=True)
    print("; ".join(f"{part} {'within' if good else 'BROKEN'}" for part, good in results))
    sys.exit(0 if all(good for _, good in results) else 1)


if __name__ == "__main__":
    main()
