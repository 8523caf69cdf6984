"""What an opening reads of a store, and how long it takes."""
import statistics
import subprocess
import sys
import time

from layout import DATA, DIRECTORY, LOG
from stores import expected_text, new_file, script_of, tried
from traces import traced

PARTS = {"superblock": range(0, DIRECTORY), "directory": range(DIRECTORY, LOG), "log": range(LOG, DATA)}
MOST_SECONDS = 0.005
# A bad line ends a run behind the file's lock and the script's end, before the store is opened.
BAD_SCRIPT, BAD_TEXT, BAD_STATUS = "bad\n", "line 1: bad\n", 2


def is_within(call, part):
    return call.answer > 0 and call.bytes()[0] in part and call.bytes()[-1] in part


def read_faults(reads):
    """What is wrong with the reads of an opening, in words."""
    found = [f"a read of {call.answer} bytes at {call.at}" for call in reads if not any(is_within(call, part) for part in PARTS.values())]
    missed = [name for name, part in PARTS.items() if not any(is_within(call, part) for call in reads)]
    return found + [f"no read of the {name}" for name in missed]


def seconds_of(words, script, expected):
    begun = time.perf_counter()
    done = subprocess.run(words, input=script, capture_output=True, text=True)
    seconds = time.perf_counter() - begun
    if (done.returncode, done.stdout) != expected:
        sys.exit(f"{words} ended with status {done.returncode}: {done.stdout[-300:]}")
    return seconds


def opening_seconds(words, runs):
    """In turns a run that opens and does nothing, and one that ends before it opens."""
    pairs = [(seconds_of(words, "", (0, "")), seconds_of(words, BAD_SCRIPT, (BAD_STATUS, BAD_TEXT))) for _ in range(runs)]
    return statistics.median(opened for opened, _ in pairs) - statistics.median(ended for _, ended in pairs)


def measured(program, file, pages, puts, runs):
    new_file(program, file, pages)
    words = [program, file, str(pages), "serial"]
    tried(words, script_of(puts), expected_text(puts))
    calls = traced(program, file, pages, "", "")
    reads = [call for call in calls if call.name in ("pread64", "read")]
    faults = read_faults([call for call in reads if call.name == "pread64"])
    faults += [f"{call.name} on the file" for call in calls if call.name in ("read", "write", "pwrite64", "pwritev", "preadv", "ftruncate", "fallocate")]
    took = opening_seconds(words, runs)
    if took >= MOST_SECONDS:
        faults.append(f"the opening is not below {1000 * MOST_SECONDS:.0f} ms")
    line = (f"opening after {puts} puts: {1000 * took:.2f} ms (limit {1000 * MOST_SECONDS:.0f}), {len(reads)} reads of {sum(call.answer for call in reads)} bytes, "
            f"the last byte read is {max(call.bytes()[-1] for call in reads if call.at is not None)} of {DATA}")
    return "\n".join([line, *(f"  WRONG: {fault}" for fault in faults)]), not faults
