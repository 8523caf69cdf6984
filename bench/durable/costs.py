"""What a process takes, of the time that passes and of a processor's."""
import resource
import subprocess
import sys
import time
from dataclasses import dataclass


@dataclass
class Cost:
    """Seconds that pass, and seconds of a processor."""

    passed: float
    processor: float

    def __add__(self, other):
        return Cost(self.passed + other.passed, self.processor + other.processor)

    def __sub__(self, other):
        return Cost(self.passed - other.passed, self.processor - other.processor)

    def __truediv__(self, number):
        return Cost(self.passed / number, self.processor / number)


class Clock:
    """What this process or its children take from its making on."""

    def __init__(self, whose):
        self.whose = whose
        self.begun = self.now()

    def now(self):
        used = resource.getrusage(self.whose)
        return Cost(time.perf_counter(), used.ru_utime + used.ru_stime)

    def cost(self):
        return self.now() - self.begun


def timed(words, script=""):
    """The cost of a process, and what it printed."""
    clock = Clock(resource.RUSAGE_CHILDREN)
    done = subprocess.run(words, input=script, capture_output=True, text=True)
    cost = clock.cost()
    if done.returncode != 0:
        sys.exit(f"{words} ended with status {done.returncode}: {done.stdout[-300:]}{done.stderr[-300:]}")
    return cost, done.stdout


def place_of(folder):
    lines = subprocess.run(["df", "--output=source,fstype,target", folder], capture_output=True, text=True, check=True).stdout.splitlines()
    return dict(zip(("source", "kind", "target"), lines[1].split()))
