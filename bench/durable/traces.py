"""The calls that a run makes on its file, as strace shows them."""
import re
import shutil
import subprocess
import sys
from dataclasses import dataclass

from stores import tried

CALL = re.compile(r"^\d+ +(\w+)\(\d+<([^>]*)>(.*)\) += (-?\d+)")
# The last number of a positioned call is the place in the file.
PLACED = ("pwrite64", "pread64")


@dataclass(frozen=True)
class Call:
    """One call, and what it answered. `at` is its first byte in the file, where it has a place."""

    name: str
    at: int | None
    answer: int

    def __str__(self):
        return f"{self.name} {self.answer}" if self.answer else self.name

    def bytes(self):
        return range(self.at, self.at + self.answer)


def call_of(found):
    name, _, words, answer = found.groups()
    at = int(words.rsplit(",", 1)[1]) if name in PLACED else None
    return Call(name, at, int(answer))


def calls_on(file, trace):
    """The calls on the file in their order."""
    found = (CALL.search(line) for line in trace.splitlines())
    return [call_of(call) for call in found if call and call[2] == str(file)]


def traced(program, file, pages, script, expected):
    """The calls on the file that `serial` makes with a script, which has to print what is expected."""
    if not shutil.which("strace"):
        sys.exit("strace isn't there")
    trace = file.with_name("trace")
    # With no bytes of what is read or written.
    tracer = ["strace", "-f", "-y", "-s", "0", "-e", "trace=%desc", "-o", trace]
    tried([*tracer, program, file, str(pages), "serial"], script, expected)
    calls = calls_on(file, trace.read_text())
    if not calls:
        sys.exit("strace showed no call on the file")
    return calls
