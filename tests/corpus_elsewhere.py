"""Makes records on chunks held elsewhere: their entries, what they cover, and what they are beside."""

from boxes import box, entry, ftyp, head, lost_segment, open_segment, pfhd, ploc, pshd, surl
from foreign import DAMAGED, ELSEWHERE, GOOD, LIMIT, LOST
from plan import Data, Entry, Plan, Segment
from record import refused, taken

DATA = b"abcdefgh"


def of_entries(*entries, widths=(1, 1), count=None, flags=0):
    """A file of one segment, with data in front of it."""
    return head() + box(b"pdat", DATA) + box(b"pseg", pshd(7, flags), ploc(*widths, list(entries), count=count))


def elsewhere_segment(offset, sizes, flags=0, width=None):
    return lost_segment(offset, sizes, flags, width=width, flag_byte=ELSEWHERE)


# Entries.

def widths():
    """Its size in every width, and no offset beside any width of those."""
    for width in range(1, 9):
        yield taken(f"5 held elsewhere in {width} bytes", of_entries(entry(ELSEWHERE, width, 5), widths=(width, 0)))
        yield taken(f"5 held elsewhere where offsets have {width} bytes", of_entries(entry(ELSEWHERE, 1, 5), entry(GOOD, 1, 1, width, -8), widths=(1, width)))
        most = 256 ** width - 1
        file = of_entries(entry(ELSEWHERE, width, most), widths=(width, 8))
        yield taken(f"the largest size in {width} bytes held elsewhere", file) if width < 5 else refused(23, f"the largest size in {width} bytes held elsewhere", file)
    yield taken("held elsewhere, a size of no byte", of_entries(3 * bytes([ELSEWHERE]), widths=(0, 0), count=3))
    yield taken("held elsewhere, a size of no byte beside offsets", of_entries(bytes([ELSEWHERE]), entry(GOOD, 0, 0, 1, 9), widths=(0, 1)))


def cut_and_left_over():
    for width in range(1, 9):
        yield refused(17, f"held elsewhere, {width - 1} bytes of a size of {width}", of_entries(bytes(width), widths=(width, 0)))
    yield refused(17, "held elsewhere, its offset left over", of_entries(entry(ELSEWHERE, 1, 5, 1, -8)))
    yield refused(17, "held elsewhere, an offset of 8 bytes left over", of_entries(entry(ELSEWHERE, 1, 5, 8, -8), widths=(1, 8)))
    yield refused(17, "the second held elsewhere is cut", of_entries(entry(ELSEWHERE, 1, 5), bytes([ELSEWHERE])))
    yield refused(17, "held elsewhere, none of the one stated", of_entries(count=1))
    yield taken("an offset of one byte would be one entry more", of_entries(entry(ELSEWHERE, 1, 5), b"\0\x05"))
    for flag_byte in (0x01, 0x02, 0x04, 0x08, 0x10, 0x20, 0x3F):
        yield refused(20, f"reserved bits {flag_byte} behind one held elsewhere", of_entries(entry(ELSEWHERE, 1, 5), bytes([flag_byte, 5])))
        yield refused(20, f"reserved bits {flag_byte} and nothing else", of_entries(bytes([flag_byte]), widths=(8, 0)))


# What it covers.

def limits():
    yield taken("1024 held elsewhere", head() + elsewhere_segment(0, 1024 * [1], width=1))
    yield refused(22, "1025 held elsewhere", head() + elsewhere_segment(0, 1025 * [1], width=1))
    yield refused(22, "1024 lost, one held elsewhere", head() + lost_segment(0, 1024 * [1], width=1) + elsewhere_segment(0, [1]))
    yield taken("held elsewhere to the limit", head() + elsewhere_segment(0, [LIMIT]))
    yield taken("held elsewhere to the limit in two", head() + elsewhere_segment(5, [LIMIT - 6, 1], flags=1))
    yield taken("an empty one held elsewhere at the limit", head() + elsewhere_segment(LIMIT, [0]))
    for offset, sizes in [(0, [LIMIT + 1]), (1, [LIMIT]), (LIMIT, [1]), (5, [LIMIT - 6, 2])]:
        yield refused(23, f"held elsewhere over the limit from {offset} of {len(sizes)}", head() + elsewhere_segment(offset, sizes, width=6))
    for offset, size in [(1, 2 ** 64 - 1), (LIMIT, 2 ** 64 - LIMIT)]:
        yield refused(23, f"{size} held elsewhere from {offset}", head() + elsewhere_segment(offset, [size], width=8))


CLOSING = elsewhere_segment(0, [10], flags=1)


def sizes():
    yield taken("closed by one held elsewhere", head() + CLOSING)
    yield taken("not closed, held elsewhere to 10", head() + elsewhere_segment(0, [10]))
    for name, content in [("a lost one to it", lost_segment(4, [6], flags=1)), ("one held elsewhere to it", elsewhere_segment(9, [1])), ("open at it", open_segment(10)),
                          ("an empty one held elsewhere at it", elsewhere_segment(10, [0], flags=1))]:
        yield taken(f"closed at 10 by one held elsewhere, {name}", head() + CLOSING + content)
        yield taken(f"closed at 10 behind, {name}", head() + content + CLOSING)
    for name, content in [("another size", elsewhere_segment(0, [9], flags=1)), ("one held elsewhere past it", elsewhere_segment(9, [2])), ("open above it", open_segment(11)),
                          ("an empty one held elsewhere above it", elsewhere_segment(11, [0]))]:
        yield refused(25, f"closed at 10 by one held elsewhere, {name}", head() + CLOSING + content)
        yield refused(25, f"closed at 10 behind, {name}", head() + content + CLOSING)


# Beside others.

def beside_others():
    data = Data(DATA)
    each = [Entry(ELSEWHERE, 3), Entry(GOOD, 5, data, 3), Entry(ELSEWHERE, 0), Entry(DAMAGED, 2, data, 0), Entry(ELSEWHERE, 300), Entry(LOST, 4), Entry(ELSEWHERE, 1)]
    over = Segment(1, [Entry(GOOD, 8, data, 0), Entry(ELSEWHERE, 9)], flags=2)
    for name, items in [("data in front", [data, Segment(0, each, 1), over]), ("data behind", [over, Segment(0, each, 1), data])]:
        yield taken(f"held elsewhere beside each state, {name}", Plan(ftyp(), [pfhd(), surl()], items).assemble())
        yield taken(f"held elsewhere beside each state, mixed, {name}", Plan(ftyp([b"pmff"]), [pfhd(), surl()], items).assemble())
    good = entry(GOOD, 1, 8, 1, -8)
    for name, entries in [("before", [entry(ELSEWHERE, 1, 5), good]), ("behind", [good, entry(ELSEWHERE, 1, 5)]), ("around", [entry(ELSEWHERE, 1, 5), good, entry(ELSEWHERE, 1, 6)])]:
        yield taken(f"held elsewhere {name} a good one", of_entries(*entries, flags=1))
    outside = entry(GOOD, 1, 1, 1, 0)
    yield refused(24, "a good one in no pdat behind one held elsewhere", of_entries(entry(ELSEWHERE, 1, 5), outside))
    yield refused(24, "a good one in no pdat before one cut short", of_entries(outside, bytes([ELSEWHERE])))
    yield taken("held elsewhere in a file without data", head() + elsewhere_segment(3, [9, 0, 4]))


def records():
    for made in (widths, cut_and_left_over, limits, sizes, beside_others):
        yield from made()
