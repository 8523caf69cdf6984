#!/usr/bin/env python3
"""Measures what the gate costs, crate by crate, in processor seconds.

usage: tools/gate_times.py [FILE]      (at the top of the repository; the gate's own output goes to FILE, or nowhere)

The gate itself prints no times. This runs it from nothing (`rt ci --anew`) in a clone of what is committed, looks four times
a second at the processes that it began, and adds up what each had spent when it was last seen: user and system time, which
hardly depends on what else the machine does. What a process spends behind the last look is missed, so a row is a little low. A
row of the table is a crate's proof, that of its tests where it has some, and its must-fail edits; the last rows are what no
crate's name stands in (running programs and tests, compiling, and the gate itself) and the whole. It ends as the gate does.
"""
import collections
import os
import pathlib
import shutil
import subprocess
import sys
import tempfile
import time

TOP = pathlib.Path(__file__).resolve().parent.parent
KINDS = ("proof", "tests", "edits")
TICKS = os.sysconf("SC_CLK_TCK")
LOOKS_A_SECOND = 4


def processes():
    """What stands in /proc of each process: its parent, its processor seconds, its words and its folder."""
    for entry in os.listdir("/proc"):
        if not entry.isdigit():
            continue
        try:
            fields = pathlib.Path("/proc", entry, "stat").read_text().rsplit(")", 1)[1].split()
            words = pathlib.Path("/proc", entry, "cmdline").read_text().split("\0")
            folder = os.readlink(f"/proc/{entry}/cwd")
        except OSError:
            continue
        yield int(entry), int(fields[1]), (int(fields[11]) + int(fields[12])) / TICKS, words, folder


def name_of(words, folder):
    """The crate that a process is about, and what it does for it."""
    if "--crate-name" not in words:
        return "", "proof"
    crate = words[words.index("--crate-name") + 1]
    if "/rt-edit" in folder:
        return crate, "edits"
    return crate, "tests" if "--test" in words else "proof"


def spent_below(root, spent):
    """Notes what each process that stands below this one has spent."""
    found = {pid: (parent, seconds, words, folder) for pid, parent, seconds, words, folder in processes()}
    for pid, (_, seconds, words, folder) in found.items():
        above = pid
        while above in found and above != root:
            above = found[above][0]
        if above == root:
            spent[pid, *name_of(words, folder)] = seconds


def crates_of(text):
    lines = [line.split("#")[0].strip() for line in text.splitlines()]
    return [line.split(":")[0].split()[0] for line in lines if line]


def main():
    folder = pathlib.Path(tempfile.mkdtemp(prefix="times-"))
    copy = folder / "repository"
    subprocess.run(["git", "clone", "-q", str(TOP), str(copy)], check=True)
    begun = time.monotonic()
    with open(sys.argv[1] if len(sys.argv) > 1 else os.devnull, "w") as output:
        gate = subprocess.Popen(["rt", "ci", "--anew"], cwd=copy, stdout=output, stderr=output, stdin=subprocess.DEVNULL)
        spent = {}
        while gate.poll() is None:
            spent_below(gate.pid, spent)
            time.sleep(1 / LOOKS_A_SECOND)
    table = collections.Counter()
    for (_, crate, kind), seconds in spent.items():
        table[crate, kind] += seconds
    print("| crate | proof | tests | edits |\n|---|---|---|---|")
    for crate in crates_of((copy / "crates.txt").read_text()):
        print(f"| {crate} | {' | '.join(f'{table[crate, kind]:.0f}' if table[crate, kind] >= 1 else '' for kind in KINDS)} |")
    print(f"| beside them | {table['', 'proof']:.0f} | | |")
    print(f"| all | {' | '.join(f'{sum(n for (c, k), n in table.items() if k == kind):.0f}' for kind in KINDS)} |")
    print(f"{sum(table.values()) / 60:.0f} processor minutes, {(time.monotonic() - begun) / 60:.0f} minutes", flush=True)
    shutil.rmtree(folder)
    return gate.returncode


if __name__ == "__main__":
    sys.exit(main())
