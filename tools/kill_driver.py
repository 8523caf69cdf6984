#!/usr/bin/env python3
"""Kills the program in the middle of its work, again and again, and looks at what its file holds.

    python3 tools/kill_driver.py [PROGRAM] [--kills N] [--seed N] [--pages N] [--folder FOLDER]

PROGRAM is crates/spatial/out/spatial where none is named. Random scripts run on a file in FOLDER (tools/out). Some of
them end, and some are killed (SIGKILL) at a random moment, until N kills (200) ended a process; of a part of them the moment
is soon after the log went on to a new segment, which is the first step of a flush. After each run the file
is opened again, by a script that counts, gets every key and asks for the whole square:

- It opens, and these looks leave each byte of the file as it was. Most are answered over components on the device.
- All that was there before the run, and all that a run that ended answered, is there exactly.
- Of a run that was killed a prefix of its writes is there and nothing else, with each write whose answer was printed.
- A format that was killed leaves the old store, or a file that isn't formatted, or the new one.
- The file has the components that the script's flushes make, of just their writes: those of its `flush` lines, and of the
  flushes that come by themselves in long runs of puts. A killed run leaves the first few of them, among these each one
  whose flush came before the last write that is there.

Before that it is shown that a second process on the same file is refused while the first one goes on.

A store takes 16 components, since there are no merges yet: where a script would make more, a new file or format comes.

The last line says how many kills there were, and where they fell. At the first failure it says what is wrong and where
to look, and ends with status 1; so it does where hardly any kill fell between the first and the last write of a run, or
hardly any look was over components, or no kill fell amid a flush, or no flush came by itself.
"""
import argparse
import os
import random
import shutil
import subprocess
import sys
import tempfile
import time
from collections import Counter
from dataclasses import dataclass, replace
from difflib import unified_diff
from pathlib import Path

from plain_table import WHOLE, Count, Flush, Get, Put, Row, answers, prefixes, random_commands, random_keys, random_region, script_of
from upkeep import FLUSH_AT, MOST_COMPONENTS, Upkeep, cut_of, due_of, leaves, may_leave, upkeep_of

TOP = Path(__file__).resolve().parent.parent
SERIAL, FRESH, FORMAT = ("serial",), ("fresh", "dhvb"), ("format", "dhvb")
KILLED = -9
NOT_FORMATTED = (6, "bad image: not formatted\n")
REFUSED = (5, "device fault\n")
MOST_COMMANDS = 240
# A long run has so many, so that a flush comes by itself.
LONG_RUN = (1100, 1400)
MOST_FLUSH_LINES = 2
# More than two leaves of a component's tree take.
KEYS = 160
# Seconds after which a run counts as one that doesn't end.
PATIENCE = 60
# At least this part of the kills has to fall between the first and the last write of a run, and to be looked at over components.
LEAST_AMID = 0.1
# This part of the kills is aimed at a flush, within so many seconds of its begin.
AIMED, MOST_FLUSH = 0.4, 0.003
# Lines that differ are shown up to this number.
MOST_SHOWN = 12


class Failure(Exception):
    """What is wrong, for the one who has to look."""


@dataclass
class Ended:
    status: int
    text: str
    seconds: float

    def told(self):
        return self.status, self.text


def wait_for(child, has_begun):
    """Waits until the moment that is meant has come, or the child's end."""
    begun = time.monotonic()
    while not has_begun() and child.poll() is None and time.monotonic() - begun < PATIENCE:
        pass


def ended(child, moment=None, has_begun=None):
    """The child's status. So many seconds after its start, or after what is waited for, it is killed by its number, which is its own until it was waited for."""
    try:
        if has_begun is not None:
            wait_for(child, has_begun)
        if moment is not None:
            time.sleep(moment)
            child.kill()
        return child.wait(timeout=PATIENCE)
    except subprocess.TimeoutExpired:
        raise Failure(f"a run didn't end in {PATIENCE} s") from None
    finally:
        child.kill()
        child.wait()


class Program:
    """The program on one file. The scripts and texts of its runs are kept beside the file."""

    def __init__(self, path, pages, folder):
        self.path, self.pages, self.folder = path, pages, folder
        self.file = folder / "store.dat"
        self.runs = 0

    def words(self, command):
        return [self.path, self.file, str(self.pages), *command]

    def bytes_left(self):
        """The bytes of the file. What it lacks at its end the next run makes, as zeros."""
        found = self.file.read_bytes() if self.file.exists() else b""
        return found.ljust(self.pages * 4096, b"\0")

    def has_frozen(self, cut):
        """Whether the log has gone on to a new segment, so that a flush is under way."""
        with open(self.file, "rb") as file:
            return cut_of(lambda at, length: os.pread(file.fileno(), length, at)) > cut

    def run(self, command, commands, moment=None, cut=None):
        """Waits for the end of a run, or kills it so many seconds after its start; with a cut after its first flush began."""
        self.runs += 1
        script, printed = (self.folder / f"{self.runs:04}.{kind}" for kind in ("script", "printed"))
        script.write_text(script_of(commands))
        with open(script) as source, open(printed, "w") as sink:
            begun = time.perf_counter()
            has_begun = None if cut is None else lambda: self.has_frozen(cut)
            status = ended(subprocess.Popen(self.words(command), stdin=source, stdout=sink), moment, has_begun)
            seconds = time.perf_counter() - begun
        with open(self.folder / "runs.txt", "a") as runs:
            runs.write(f"{self.runs:04} {' '.join(command)}: status {status} after {seconds:.4f} s\n")
        return Ended(status, printed.read_text(errors="replace"), seconds)

    def forget_runs(self):
        """Only the runs since the last new file or format are kept."""
        for kept in [*self.folder.glob("*.script"), *self.folder.glob("*.printed"), *self.folder.glob("runs.txt")]:
            kept.unlink()


@dataclass(frozen=True)
class State:
    """What a file may hold: a table, or None where it isn't formatted; and how many writes its log has."""

    table: dict | None
    logged: int
    # So many writes of the last run are in it; None where that run did not come so far as to have a store of its own.
    writes: int | None

    def name(self):
        if self.table is None:
            return "a file that isn't formatted"
        return "the store before the run" if self.writes is None else f"the store with the run's first {self.writes} writes"


def difference(printed, expected):
    """The first few lines that differ."""
    lines = list(unified_diff(expected.splitlines(), printed.splitlines(), "expected", "printed", n=0, lineterm=""))
    shown = [f"  {line}" for line in lines[:MOST_SHOWN]]
    return "\n".join(shown + [f"  ... and {len(lines) - len(shown)} more lines"] * (len(lines) > len(shown)))


def unlike_lines(printed, expected):
    return sum((Counter(printed.splitlines()) - Counter(expected.splitlines())).values())


class Pace:
    """How many seconds a run takes, so that a moment of one can be chosen."""

    def __init__(self):
        self.opening, self.formatting, self.a_command = 0.02, 0.02, 0.002

    def before_commands(self, command):
        return self.opening + (self.formatting if command == FRESH else 0)

    def moment(self, chance, command, commands):
        """Anywhere in a run; every fourth time before its commands, which is a short part of it, and mostly so in a format."""
        before = self.before_commands(command)
        whole = before + self.a_command * len(commands)
        is_early = chance.random() < (0.75 if command == FRESH else 0.25)
        return chance.uniform(0, 1.2 * before if is_early else 1.05 * whole)

    def learn_opening(self, seconds):
        self.opening = (self.opening + seconds) / 2

    def learn(self, command, commands, seconds):
        """A run with a format tells how long that takes, and one without it how long a command does."""
        if command == FRESH:
            self.formatting = (self.formatting + max(0.0, seconds - self.opening - self.a_command * len(commands))) / 2
        else:
            self.a_command = (self.a_command + max(0.0, seconds - self.opening) / len(commands)) / 2


class Driver:
    def __init__(self, program, chance, kills):
        self.program, self.chance, self.kills = program, chance, kills
        self.keys = random_keys(chance, KEYS)
        self.looks = [Count(), *map(Get, self.keys), WHOLE, random_region(chance), random_region(chance)]
        self.state = State(None, 0, None)
        self.upkeep = Upkeep()
        self.pace = Pace()
        self.tally = Counter()

    def round(self):
        if self.chance.random() < 0.3:
            self.run(SERIAL, self.script_with_room())
        self.kill(SERIAL, self.script_with_room())

    def script_with_room(self):
        """A script whose components the store has room for, if need be after a new file or format."""
        if self.state.table is not None:
            commands = self.script(self.most_commands())
            due = due_of(commands, self.state.table, self.state.logged, self.upkeep)
            if len(self.upkeep.components) + len(due) <= MOST_COMPONENTS:
                return commands
        self.begin_file()
        return self.script(MOST_COMMANDS)

    def most_commands(self):
        return self.chance.randrange(*LONG_RUN) if self.chance.random() < 0.4 else MOST_COMMANDS

    def begin_file(self):
        """A new file, or the old one formatted over. Some formats are killed before one ends."""
        self.program.forget_runs()
        if self.chance.random() < 0.5:
            self.program.file.unlink(missing_ok=True)
            self.state = State(None, 0, None)
        while self.chance.random() < 0.75:
            self.kill(FRESH, self.script(10))
        self.run(FRESH, self.script(MOST_COMMANDS))
        self.tally["files"] += 1

    def script(self, most):
        """Of a long run the length is as chosen, and of others up to that."""
        length = most if most > MOST_COMMANDS else self.chance.randrange(1, most + 1)
        commands = random_commands(self.chance, self.keys, self.state.table or {}, length)
        for _ in range(self.chance.randrange(MOST_FLUSH_LINES + 1)):
            commands.insert(self.chance.randrange(len(commands) + 1), Flush())
        return commands

    def kill(self, command, commands):
        if self.is_done():
            return
        if command == SERIAL and self.chance.random() < AIMED and due_of(commands, self.state.table, self.state.logged, self.upkeep):
            self.run(command, commands, self.chance.uniform(0, MOST_FLUSH), self.upkeep.cut)
        else:
            self.run(command, commands, self.pace.moment(self.chance, command, commands))

    def is_done(self):
        return self.tally["kills"] >= self.kills

    def run(self, command, commands, moment=None, cut=None):
        """A run, and a look at what it left."""
        before, upkeep = (State({}, 0, None), Upkeep()) if command == FRESH else (self.state, self.upkeep)
        texts = answers(commands, before.table)
        possible = [State(p.table, before.logged + p.writes, p.writes) for p in prefixes(commands, before.table)]
        due = due_of(commands, before.table, before.logged, upkeep)
        done = self.program.run(command, commands, moment, cut)
        if done.status == KILLED and moment is not None:
            # None of this run's writes is in them.
            earlier = [replace(self.state, writes=None), State(None, 0, None)] if command == FRESH else []
            left = self.look(earlier + possible, least_writes(done.text, texts, commands, before.table))
            left = self.with_upkeep(left, lambda state, after: self.upkeep_may_be(state, upkeep, due, after))
            self.count_kill(left, possible[-1].writes)
        else:
            self.expect_all(done, texts)
            left = self.with_upkeep(self.look(possible[-1:], 0), lambda _, after: leaves(upkeep, due, after))
            self.pace.learn(command, commands, done.seconds)
            self.tally["finished"] += 1
        self.state = left[-1]
        self.note_upkeep(upkeep)

    def upkeep_may_be(self, state, upkeep, due, after):
        """Whether a killed run may leave this with the state."""
        if state.table is None:
            return True
        return after == self.upkeep if state.writes is None else may_leave(upkeep, due, state.logged, after)

    def with_upkeep(self, left, fits):
        """The states among these that fit to the components that the file has."""
        if all(state.table is None for state in left):
            return left
        after = upkeep_of(self.program.bytes_left())
        fit = [state for state in left if fits(state, after)]
        if not fit:
            raise Failure(f"the run before run {self.program.runs:04} left {left[-1].name()} with {after}, which its flushes don't make; before it was {self.upkeep}")
        return fit

    def note_upkeep(self, before):
        """Notes the components of the file for the next run, and counts the new ones."""
        self.upkeep = Upkeep() if self.state.table is None else upkeep_of(self.program.bytes_left())
        new = self.upkeep.components[len(before.components):] if self.state.writes is not None else ()
        self.tally["flushes"] += len(new)
        self.tally["by themselves"] += sum(last - first + 1 >= FLUSH_AT for first, last in new)
        self.tally["most"] = max(self.tally["most"], len(self.upkeep.components))

    def expect_all(self, done, texts):
        expected = "".join(texts)
        if done.told() != (0, expected):
            raise Failure(f"run {self.program.runs:04} ended with status {done.status}; expected are 0 and the plain table's answers\n{difference(done.text, expected)}")

    def look(self, possible, least):
        """The possible states that a reading run answers like, which has to leave the file as it was."""
        run, before = self.program.runs, self.program.bytes_left()
        seen = self.program.run(SERIAL, self.looks)
        self.pace.learn_opening(seen.seconds)
        like = [state for state in possible if self.told_by(state) == seen.told()]
        fit = [state for state in like if least is None or (state.writes is not None and state.writes >= least)]
        if not fit or self.program.bytes_left() != before:
            (self.program.folder / "as_left.dat").write_bytes(before)
        if not like:
            raise Failure(self.unlike(run, seen, possible))
        if not fit:
            raise Failure(f"run {run:04} was killed after it had printed the answers of {least} writes, and left {like[-1].name()}")
        if self.program.bytes_left() != before:
            raise Failure(f"run {self.program.runs:04} only reads, and changed the file: compare as_left.dat and store.dat")
        return fit

    def told_by(self, state):
        return NOT_FORMATTED if state.table is None else (0, "".join(answers(self.looks, state.table)))

    def unlike(self, run, seen, possible):
        nearest = min(possible, key=lambda state: unlike_lines(seen.text, self.told_by(state)[1]))
        status, text = self.told_by(nearest)
        return (f"run {run:04} left a file that answers run {self.program.runs:04} with status {seen.status}, as none of {len(possible)} possible states would; "
                f"the nearest is {nearest.name()}, with status {status}\n{difference(seen.text, text)}")

    def count_kill(self, left, all_writes):
        self.tally["kills"] += 1
        if left[-1].table is not None:
            upkeep = upkeep_of(self.program.bytes_left())
            self.tally["over components"] += bool(upkeep.components)
            self.tally["frozen"] += upkeep.is_frozen() and upkeep != self.upkeep
        writes = {state.writes for state in left}
        if None in writes:
            self.tally["formatting"] += 1
        elif 0 in writes:
            self.tally["before"] += 1
        elif all_writes in writes:
            self.tally["after"] += 1
        else:
            self.tally["amid"] += 1


def least_writes(printed, texts, commands, table):
    """How many writes have to be there: those whose answers were printed whole. None where nothing was printed."""
    if not "".join(texts).startswith(printed):
        raise Failure(f"what a killed run printed is no front of the plain table's answers\n{difference(printed, ''.join(texts))}")
    answered, length = 0, 0
    for text in texts:
        length += len(text)
        answered += length <= len(printed)
    return max(p.writes for p in prefixes(commands[:answered], table)) if printed else None


def wait_for_file(program, first):
    """Waits until the first process has made the file as long as its pages, which it does under its lock."""
    begun = time.monotonic()
    while not program.file.exists() or program.file.stat().st_size < program.pages * 4096:
        if first.poll() is not None or time.monotonic() - begun > PATIENCE:
            raise Failure("a first process with an open input ended, or did not make the file")
        time.sleep(0.01)


def expect_refused(program, command):
    before = program.bytes_left()
    second = program.run(command, [Count()])
    if second.told() != REFUSED:
        raise Failure(f"a second process on the file, with {' '.join(command)}, ended with status {second.status} and {second.text!r}; expected are {REFUSED}")
    if program.bytes_left() != before:
        raise Failure(f"a second process on the file, with {' '.join(command)}, changed it")


def two_at_once(program):
    """While one process waits for its script, each other one is refused. Then the first one does its work."""
    first = subprocess.Popen(program.words(FRESH), stdin=subprocess.PIPE, stdout=subprocess.PIPE, text=True)
    try:
        wait_for_file(program, first)
        for command in (SERIAL, FRESH, FORMAT):
            expect_refused(program, command)
        text, _ = first.communicate(script_of([Put(1, Row(2, 3, "a"))]), timeout=PATIENCE)
    except subprocess.TimeoutExpired:
        raise Failure(f"the first of two processes didn't end in {PATIENCE} s") from None
    finally:
        first.kill()
        first.wait()
    if (first.returncode, text) != (0, "0 0 put new\n"):
        raise Failure(f"the first of two processes ended with status {first.returncode} and {text!r}")
    after = program.run(SERIAL, [Get(1)])
    if after.told() != (0, "0 0 get 2 3 a\n"):
        raise Failure(f"after two processes at once the file answers with status {after.status} and {after.text!r}")
    program.file.unlink()


def drive(program, chance, kills):
    two_at_once(program)
    driver = Driver(program, chance, kills)
    while not driver.is_done():
        driver.round()
    tally = driver.tally
    if tally["amid"] < LEAST_AMID * tally["kills"]:
        raise Failure(f"only {tally['amid']} of {tally['kills']} kills fell between the first and the last write of a run, so little was shown")
    if tally["over components"] < LEAST_AMID * tally["kills"]:
        raise Failure(f"only {tally['over components']} of {tally['kills']} kills were looked at over components, so little was shown")
    if not tally["frozen"]:
        raise Failure("no kill fell amid a flush, so little was shown: take more kills")
    if not tally["by themselves"]:
        raise Failure("no flush came by itself, so little was shown: take more kills")
    return tally


def read_words():
    parser = argparse.ArgumentParser(description="Kills the program again and again, and looks at what its file holds.")
    parser.add_argument("program", nargs="?", type=Path, default=TOP / "crates/spatial/out/spatial")
    parser.add_argument("--kills", type=int, default=200)
    parser.add_argument("--seed", type=int, default=random.SystemRandom().randrange(2**32))
    parser.add_argument("--pages", type=int, default=1024)
    parser.add_argument("--folder", type=Path, default=TOP / "tools/out")
    words = parser.parse_args()
    if not words.program.exists():
        parser.error(f"{words.program} isn't there: build it first, by `rt run` in crates/spatial")
    return words


def main():
    words = read_words()
    words.folder.mkdir(parents=True, exist_ok=True)
    folder = Path(tempfile.mkdtemp(prefix="kills_", dir=words.folder))
    print(f"seed {words.seed}, {words.pages} pages, file in {folder}", flush=True)
    program = Program(words.program.resolve(), words.pages, folder)
    try:
        tally = drive(program, random.Random(words.seed), words.kills)
    except Failure as failure:
        print(f"FAILED (seed {words.seed}): {failure}")
        sys.exit(f"Look at {folder}: store.dat is the file, runs.txt names the runs on it in order, N.script and N.printed are theirs")
    shutil.rmtree(folder)
    print(f"{tally['kills']} kills, 0 lost, seed {words.seed}: {tally['amid']} amid the writes, {tally['before']} before the first, {tally['after']} after the last, "
          f"{tally['formatting']} while formatting; {tally['frozen']} amid a flush, {tally['over components']} looked at over components; {tally['flushes']} flushes, {tally['by themselves']} of them by themselves, up to {tally['most']} components; "
          f"{tally['finished']} finished runs, {tally['files']} formats; a second process was refused")


main()
