"""Builds a proved program and its peer in C, and runs both in turn."""
import shutil
import statistics
import subprocess
import sys
import tempfile
from pathlib import Path

TOP = Path(__file__).resolve().parent.parent


def build_proved(folder, here, crates):
    """Builds main.rt.txt, with its specs and proofs, in a copy of the crates that it needs. `crates` gives for each what it stands on."""
    for crate in crates:
        shutil.copytree(TOP / "crates" / crate, folder / "crates" / crate, ignore=shutil.ignore_patterns("out", "must-fail"))
    program = folder / "crates" / "measured"
    (program / "src").mkdir(parents=True)
    shutil.copy(here / "main.rt.txt", program / "src" / "main.rt")
    for text in here.glob("*/**/*.antt.txt"):
        place = program / text.relative_to(here).with_suffix("")
        place.parent.mkdir(parents=True, exist_ok=True)
        shutil.copy(text, place)
    lines = [f"{crate}: {' '.join(below)}\n" for crate, below in {**crates, "measured": list(crates)}.items()]
    (folder / "crates.txt").write_text("".join(lines))
    built = subprocess.run(["rt", "run"], cwd=program, capture_output=True, text=True)
    if not (program / "out" / "measured").exists():
        sys.exit(built.stdout[-3000:] + built.stderr[-3000:])
    return program / "out" / "measured"


def build_c(folder, source):
    subprocess.run(["cc", "-O2", "-o", folder / "peer", source], check=True)
    return folder / "peer"


def run(program):
    """For each measure its nanoseconds a call, its calls, and the number that depends on all answers."""
    text = subprocess.run([program], capture_output=True, text=True, check=True).stdout
    rows = [line.split() for line in text.splitlines()]
    return {name: (int(nanos) / int(calls), int(calls), answers) for name, calls, nanos, answers in rows}


def compared(here, crates, source, runs):
    """For each measure the median nanoseconds of a call of both, its calls, and the set of what was answered."""
    with tempfile.TemporaryDirectory() as name:
        folder = Path(name)
        proved, plain = build_proved(folder, here, crates), build_c(folder, here / source)
        pairs = [(run(proved), run(plain)) for _ in range(runs)]
    for measure, (_, calls, _) in pairs[0][0].items():
        ours = statistics.median(a[measure][0] for a, _ in pairs)
        theirs = statistics.median(b[measure][0] for _, b in pairs)
        yield measure, ours, theirs, calls, {one[measure][2] for pair in pairs for one in pair}
