"""The plain table that the program's answers are compared with, and random scripts over it.

A table is a dict from keys to rows. A command knows its line of the script, and takes its answer from a table,
which it changes as the store has to change. A flush has no answer and no place, and changes nothing of the table.
"""
from dataclasses import dataclass

MOST_COORDINATE = 65_535
MOST_KEY = 2**64 - 1
NOTE_BYTES = [chr(byte) for byte in range(33, 127)]


@dataclass(frozen=True)
class Row:
    x: int
    y: int
    note: str

    def __str__(self):
        return f"{self.x} {self.y} {self.note or '-'}"


@dataclass(frozen=True)
class Put:
    key: int
    row: Row

    def line(self):
        return f"put {self.key} {self.row}"

    def is_logged(self, table):
        return True

    def answer(self, table):
        old = table.get(self.key)
        table[self.key] = self.row
        return "put new" if old is None else f"put old {old}"


@dataclass(frozen=True)
class Delete:
    key: int

    def line(self):
        return f"del {self.key}"

    def is_logged(self, table):
        return self.key in table

    def answer(self, table):
        old = table.pop(self.key, None)
        return "del none" if old is None else f"del old {old}"


@dataclass(frozen=True)
class Get:
    key: int

    def line(self):
        return f"get {self.key}"

    def is_logged(self, table):
        return False

    def answer(self, table):
        row = table.get(self.key)
        return "get none" if row is None else f"get {row}"


@dataclass(frozen=True)
class Count:
    def line(self):
        return "count"

    def is_logged(self, table):
        return False

    def answer(self, table):
        return f"count {len(table)}"


@dataclass(frozen=True)
class Region:
    x1: int
    y1: int
    x2: int
    y2: int

    def line(self):
        return f"region dhvb {self.x1} {self.y1} {self.x2} {self.y2}"

    def is_logged(self, table):
        return False

    def answer(self, table):
        found = [f"= {key} {row}" for key, row in sorted(table.items(), key=lambda item: item[0]) if self.holds(row)]
        return "\n".join([f"region {len(found)}", *found])

    def holds(self, row):
        return self.x1 <= row.x <= self.x2 and self.y1 <= row.y <= self.y2


@dataclass(frozen=True)
class Flush:
    def line(self):
        return "flush"

    def is_logged(self, table):
        return False

    def answer(self, table):
        return None


WHOLE = Region(0, 0, MOST_COORDINATE, MOST_COORDINATE)


@dataclass(frozen=True)
class Prefix:
    """The first so many commands of a script, the writes among them that are logged, and the table after them."""

    commands: int
    writes: int
    table: dict


def prefixes(commands, table):
    """The prefix without a write, and the one up to each write that is logged."""
    table = dict(table)
    found = [Prefix(0, 0, dict(table))]
    for number, command in enumerate(commands, 1):
        is_logged = command.is_logged(table)
        command.answer(table)
        if is_logged:
            found.append(Prefix(number, found[-1].writes + 1, dict(table)))
    return found


def answers(commands, table):
    """The printed text of each command's answer, where nothing is refused: none for a flush, which has no place."""
    table, texts, place = dict(table), [], 0
    for command in commands:
        answer = command.answer(table)
        texts.append("" if answer is None else f"{place} 0 {answer}\n")
        place += answer is not None
    return texts


def script_of(commands):
    return "".join(command.line() + "\n" for command in commands)


def random_keys(random, number):
    """Different keys, the least and the greatest among them."""
    return [0, MOST_KEY, *(random.randrange(1, MOST_KEY) for _ in range(number - 2))]


def random_row(random):
    """Rows of two puts hardly ever agree, so that the table tells which put was the last."""
    x, y = (random.choice((0, MOST_COORDINATE, *[random.randrange(MOST_COORDINATE)] * 6)) for _ in range(2))
    length = random.choice((0, 64, random.randrange(1, 64), random.randrange(1, 64)))
    return Row(x, y, "".join(random.choices(NOTE_BYTES, k=length)))


def random_region(random):
    x1, x2 = sorted(random.randrange(MOST_COORDINATE + 1) for _ in range(2))
    y1, y2 = sorted(random.randrange(MOST_COORDINATE + 1) for _ in range(2))
    return Region(x1, y1, x2, y2)


def random_command(random, keys, table):
    """Mostly a write, and mostly one that is logged."""
    kind = random.choices(("put", "del", "get", "count", "region"), (70, 18, 6, 3, 3))[0]
    if kind == "put":
        return Put(random.choice(keys), random_row(random))
    if kind == "del":
        return Delete(random.choice(sorted(table) if table and random.random() < 0.8 else keys))
    if kind == "get":
        return Get(random.choice(keys))
    return Count() if kind == "count" else random_region(random)


def random_commands(random, keys, table, length):
    table = dict(table)
    commands = []
    for _ in range(length):
        commands.append(random_command(random, keys, table))
        commands[-1].answer(table)
    return commands
