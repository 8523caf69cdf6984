"""Where the parts of a file stand that a flush and an opening touch, as docs/FORMAT.md says."""
from dataclasses import dataclass

PAGE = 4096
OPEN = 165
DIRECTORY, LOG, DATA = 4096, 36_864, 1_085_440
SLOT, SEGMENT, HEADER, RECORD = 64, 262_144, 64, 96
SEGMENTS, SLOTS = 4, 512
# A component's tree has pages of a header and of rows of so many bytes; a page above the leaves of a key and a child each.
PAGE_HEADER, LEAF_ROW, UPPER_ROW = 8, 78, 12
# A flush comes behind a write that leaves so many waiting.
FLUSH_AT = 1024
# So many components a store takes without merges, and so many writes its log behind them.
MOST_COMPONENTS, MOST_WAITING = 16, 2048


@dataclass(frozen=True)
class Extent:
    first: int
    pages: int


def extent_of(found, slot):
    """The extent of an open slot, of the bytes of a file."""
    at = DIRECTORY + SLOT * slot
    if found[at] != OPEN:
        raise ValueError(f"slot {slot} is closed")
    first, pages = (int.from_bytes(found[at + n : at + n + 4], "big") for n in (4, 8))
    return Extent(first, pages)


def open_slots(found):
    return [slot for slot in range(SLOTS) if found[DIRECTORY + SLOT * slot] == OPEN]


def image_pages(rows):
    """The pages of a tree of so many rows: its leaves, and each level above down to one page."""
    level = max(1, -(-rows // ((PAGE - PAGE_HEADER) // LEAF_ROW)))
    pages = level
    while level > 1:
        level = -(-level // ((PAGE - PAGE_HEADER) // UPPER_ROW))
        pages += level
    return pages
