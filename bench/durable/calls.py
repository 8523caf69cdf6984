#!/usr/bin/env python3
"""Counts the calls on its file that the program makes for a put, by strace.

    python3 bench/durable/calls.py [PROGRAM] [--pages N] [--folder FOLDER]

Runs `serial` with no, one and eight puts, each on a new file. What the last two do on the file beyond the first has to
be for each put: 96 bytes written, a sync of the data, 1 byte written, a sync of the data, in this order, and no call
else. So it is where no flush comes and the store has no component: each component is read for the row that stood there.
It prints these calls of one put, and ends with status 1 where there are others.
"""
import sys
import tempfile
from pathlib import Path

from stores import expected_text, new_file, read_words, script_of, words_of
from traces import traced

A_PUT = ["pwrite64 96", "fdatasync", "pwrite64 1", "fdatasync"]


def calls_of(words, folder, puts):
    """The names and answers of the calls of so many puts on a new file."""
    file = folder / "store.dat"
    new_file(words.program, file, words.pages)
    return [str(call) for call in traced(words.program, file, words.pages, script_of(puts), expected_text(puts))]


def beyond(calls, without):
    """What stands in `calls` between the front and the end that it has in common with `without`."""
    front = next((n for n, (a, b) in enumerate(zip(calls, without)) if a != b), min(len(calls), len(without)))
    return calls[front:len(calls) - (len(without) - front)]


def main():
    words = read_words(words_of("Counts the calls of a put."))
    good = True
    with tempfile.TemporaryDirectory(dir=words.folder.resolve()) as name:
        none, one, eight = (calls_of(words, Path(name), puts) for puts in (0, 1, 8))
    for puts, calls in ((1, one), (8, eight)):
        added = beyond(calls, none)
        good = good and len(calls) == len(none) + len(added) and added == A_PUT * puts
        print(f"{puts} puts: {len(added)} calls, {sum(int(call.split()[1]) for call in added if call.startswith('pwrite64'))} bytes written")
    print("calls of a put: " + ", ".join(beyond(one, none)) + ("" if good else " WRONG: expected are " + ", ".join(A_PUT)))
    sys.exit(0 if good else 1)


main()
