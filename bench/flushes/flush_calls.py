"""What a script of puts with flushes does on its file, call by call."""
import sys

from layout import DATA, DIRECTORY, FLUSH_AT, HEADER, LOG, PAGE, RECORD, SEGMENT, SEGMENTS, SLOT, extent_of, image_pages, open_slots
from stores import expected_text, new_file, script_of
from traces import traced

# Five flushes by themselves and one by its line: more than the log has segments, so that one is used again.
PUTS = 5 * FLUSH_AT + 100
SYNC = ("fdatasync", None, 0)
CHANGES = ("pwrite64", "fdatasync")


def write(at, length):
    return ("pwrite64", at, length)


def gated(at, length):
    """What stands behind a gate, a sync, the gate, a sync."""
    return [write(at + 1, length), SYNC, write(at, 1), SYNC]


def record_calls(generation, place):
    return gated(LOG + SEGMENT * (generation % SEGMENTS) + HEADER + RECORD * place, RECORD)


def change_calls(generation):
    """A change to the segment of this generation. Where it had a header that is open, this is closed before."""
    at = LOG + SEGMENT * (generation % SEGMENTS)
    closed = [write(at, 1), SYNC] if generation >= SEGMENTS else []
    return closed + gated(at, HEADER)


def page_calls(extent):
    return [write(PAGE * (extent.first + page), PAGE) for page in range(extent.pages)]


def flush_calls(slot, extent):
    return [*change_calls(slot + 1), *page_calls(extent), *gated(DIRECTORY + SLOT * slot, SLOT - 1)]


def script_calls(extents, sizes):
    """Of each flush its puts, and then its own calls, as two lists."""
    return [
        ([call for place in range(puts) for call in record_calls(slot, place)], flush_calls(slot, extent))
        for slot, (extent, puts) in enumerate(zip(extents, sizes))
    ]


def told(call):
    return (call.name, call.at, call.answer)


def first_unlike(seen, expected):
    place = next((n for n, (a, b) in enumerate(zip(seen, expected)) if a != b), min(len(seen), len(expected)))
    return f"call {place}: seen {seen[place:place + 3]}, expected {expected[place:place + 3]}"


def amid_flush(calls, flushes):
    """Whether a read falls among the calls of a flush, of the changes of which there are these numbers."""
    changes = 0
    for call in calls:
        if call.name in CHANGES:
            changes += 1
        elif call.name == "pread64" and any(first <= changes < last for first, last in flushes):
            return True
    return False


def spans(parts):
    """For each flush how many changes stand before it, and how many up to its end."""
    found, at = [], 0
    for puts, own in parts:
        found.append((at + len(puts), at + len(puts) + len(own)))
        at = found[-1][1]
    return found


def faults_of(calls, parts, extents, sizes):
    """What is wrong with the calls, in words."""
    seen = [told(call) for call in calls if call.name in CHANGES]
    expected = [call for puts, own in parts for call in [*puts, *own]]
    pages = sorted(page for extent in extents for page in range(extent.first, extent.first + extent.pages))
    found = [f"the changes of the file differ at {first_unlike(seen, expected)}"] if seen != expected else []
    if [extent.pages for extent in extents] != [image_pages(rows) for rows in sizes]:
        found.append(f"components of {[extent.pages for extent in extents]} pages")
    if len(set(pages)) != len(pages) or pages[0] < DATA // PAGE:
        found.append("two components share a page, or one stands before the data")
    if any(call.name not in (*CHANGES, "pread64") for call in calls):
        found.append("the file has other calls than reads, writes and syncs")
    if amid_flush(calls, spans(parts)):
        found.append("a flush reads the file")
    return found


def measured(program, file, pages):
    """The line of the result, and whether all is as it has to be."""
    new_file(program, file, pages)
    opening = len(traced(program, file, pages, "", ""))
    calls = traced(program, file, pages, script_of(PUTS) + "flush\n", expected_text(PUTS))
    # The calls before the first put are those of the opening, which the empty script has too, but for the close at its end.
    work = [call for call in calls[opening - 1 :] if call.name != "close"]
    found = file.read_bytes()
    sizes = [FLUSH_AT] * (PUTS // FLUSH_AT) + [PUTS % FLUSH_AT]
    if open_slots(found) != list(range(len(sizes))):
        sys.exit(f"after {PUTS} puts and a flush the slots {open_slots(found)} are open")
    extents = [extent_of(found, slot) for slot in range(len(sizes))]
    parts = script_calls(extents, sizes)
    faults = faults_of(work, parts, extents, sizes)
    # Counted in the trace, and not in what is expected.
    written = [call for call in work if call.name == "pwrite64" and call.answer == PAGE]
    others = len([call for call in work if call.name in CHANGES]) - len(written) - 4 * PUTS
    line = (f"calls: {len(sizes)} flushes wrote {len(written)} pages of components with {sum(extent.pages for extent in extents)} pages, each once and in order: "
            f"{'no' if faults else 'yes'}; beside these {others} calls (log, slot, gate, syncs); {sum(call.name == 'pread64' for call in work)} reads, by puts alone")
    return "\n".join([line, *(f"  WRONG: {fault}" for fault in faults)]), not faults
