"""A file of the program, and what the measures of a durable put share."""
import argparse
import subprocess
import sys
from pathlib import Path

TOP = Path(__file__).resolve().parent.parent.parent
# So many puts on an empty store make no flush: one comes behind the write that leaves 1,024 waiting.
MOST_PUTS = 1023


def tried(words, script, expected):
    """Runs a process that has to print what is expected, and to end with status 0."""
    done = subprocess.run(words, input=script, capture_output=True, text=True)
    if (done.returncode, done.stdout) != (0, expected):
        sys.exit(f"{words} ended with status {done.returncode}: {done.stdout[-300:]}{done.stderr[-300:]}")


def new_file(program, file, pages):
    """A file as `format` leaves it."""
    file.unlink(missing_ok=True)
    tried([program, file, str(pages), "format", "dhvb"], "", f"formatted {pages}\n")


def rows(puts):
    """Keys in no order, each once, with notes of every length."""
    return [(number * 7919 % 65537, number * 31 % 65536, number * 17 % 65536, "n" * (number % 64 + 1)) for number in range(1, puts + 1)]


def lines_of(wanted):
    return "".join(f"put {key} {x} {y} {note}\n" for key, x, y, note in wanted)


def script_of(puts):
    return lines_of(rows(puts))


def expected_text(puts):
    return "".join(f"{place} 0 put new\n" for place in range(puts))


def words_of(description, folder="durable"):
    parser = argparse.ArgumentParser(description=description)
    parser.add_argument("program", nargs="?", type=Path, default=TOP / "crates/spatial/out/spatial")
    parser.add_argument("--pages", type=int, default=4096)
    parser.add_argument("--folder", type=Path, default=TOP / "bench/out" / folder, help="where the files are made")
    return parser


def read_words(parser):
    words = parser.parse_args()
    if not words.program.exists():
        parser.error(f"{words.program} isn't there: build it first, by `rt run` in crates/spatial")
    words.program = words.program.resolve()
    words.folder.mkdir(parents=True, exist_ok=True)
    return words
