"""What flushes leave in a file: which writes each component has, and where the newest part of the log begins.

Both are read from the bytes of the file, as docs/FORMAT.md says where they stand, and told in advance of a script.
"""
from dataclasses import dataclass

from plain_table import Delete, Flush, Put

OPEN = 165
SLOTS, SLOT_BYTES, FIRST_SLOT = 512, 64, 4096
SEGMENTS, SEGMENT_BYTES, FIRST_SEGMENT = 4, 262_144, 36_864
# A flush comes behind a write that leaves so many in the newest segment.
FLUSH_AT = 1024
MOST_COMPONENTS = 16


def number_at(found, place):
    return int.from_bytes(found[place : place + 8], "big")


@dataclass(frozen=True)
class Upkeep:
    """The first and the last write of each component, oldest first, and the last write before the newest segment."""

    components: tuple = ()
    cut: int = 0

    def placed(self):
        """The last write that a component has."""
        return self.components[-1][1] if self.components else 0

    def is_frozen(self):
        """Whether a flush was begun and not ended."""
        return self.cut > self.placed()


def cut_of(read):
    """The last write before the newest segment. `read` gives so many bytes of a file from a place on."""
    headers = [read(FIRST_SEGMENT + SEGMENT_BYTES * segment, 17) for segment in range(SEGMENTS)]
    newest = max((number_at(header, 1), number_at(header, 9)) for header in headers if header[0] == OPEN)
    return newest[1] - 1


def upkeep_of(found):
    """Of the bytes of a store."""
    slots = [FIRST_SLOT + SLOT_BYTES * slot for slot in range(SLOTS)]
    components = sorted((number_at(found, at + 12), number_at(found, at + 20)) for at in slots if found[at] == OPEN)
    return Upkeep(tuple(components), cut_of(lambda at, length: found[at : at + length]))


@dataclass(frozen=True)
class Due:
    """A component that a script makes: its writes, and how many writes the store had when its flush came."""

    component: tuple
    at: int


def is_due(command, logged, upkeep):
    """A flush puts away all that waits, and a write what waits where that is much; also a delete that found nothing."""
    if isinstance(command, Flush):
        return logged > upkeep.placed()
    return isinstance(command, (Put, Delete)) and logged - upkeep.cut >= FLUSH_AT


def flushed(logged, upkeep):
    """The new components of one flush: of what an earlier flush left frozen, and of the writes since then."""
    frozen = [(upkeep.placed() + 1, upkeep.cut)] if upkeep.is_frozen() else []
    return frozen + ([(upkeep.cut + 1, logged)] if logged > upkeep.cut else [])


def due_of(commands, table, logged, upkeep):
    """The components that a script adds to a store with so many writes, in their order."""
    table, found = dict(table), []
    for command in commands:
        logged += command.is_logged(table)
        command.answer(table)
        if is_due(command, logged, upkeep):
            added = flushed(logged, upkeep)
            found += [Due(component, logged) for component in added]
            upkeep = Upkeep((*upkeep.components, *added), logged)
    return found


def may_leave(before, due, logged, after):
    """Whether a run that was killed, and left so many writes, may leave this. A flush that came before the last of them was ended."""
    new = after.components[len(before.components) :]
    least = sum(one.at < logged for one in due)
    most = sum(one.at <= logged for one in due)
    cuts = {before.cut, *(one.at for one in due[:most])}
    return after.components == before.components + tuple(one.component for one in due[: len(new)]) and least <= len(new) <= most and after.cut in cuts


def leaves(before, due, after):
    """Whether a run that ended leaves this."""
    return after == Upkeep(before.components + tuple(one.component for one in due), due[-1].at if due else before.cut)
