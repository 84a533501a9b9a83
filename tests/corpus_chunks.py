"""Makes records on chunks: the widths of their fields, their places in data boxes, and the known size of the source."""

from boxes import box, entry, ftyp, head, lost_segment, open_segment, pfhd, ploc, pshd, surl
from foreign import DAMAGED, GOOD, LOST
from plan import Data, Entry, Other, Plan, Segment
from record import refused, taken

DATA = b"abcdefgh"
PDAT = box(b"pdat", DATA)


def segment(entries, length_size=1, offset_size=1):
    return box(b"pseg", pshd(7), ploc(length_size, offset_size, entries))


def behind(front, size, offset, length_size=1, offset_size=1, flag_byte=GOOD):
    """A file of one chunk, with these boxes in front of its segment."""
    return head() + front + segment([entry(flag_byte, length_size, size, offset_size, offset)], length_size, offset_size)


def length_of(offset_size):
    """The length of a segment of one chunk with a size of one byte."""
    return len(segment([entry(GOOD, 1, 0, offset_size, 0)], 1, offset_size))


def ahead(back, size, offset, offset_size=1):
    """The same, with the boxes behind the segment."""
    return head() + segment([entry(GOOD, 1, size, offset_size, offset)], 1, offset_size) + back


# Widths.

def offset_widths():
    for width in range(1, 9):
        yield taken(f"8 back in {width} bytes", behind(PDAT, 8, -8, 1, width))
        yield taken(f"8 ahead in {width} bytes", ahead(PDAT, 8, length_of(width) + 8, width))
        half = 256 ** width // 2
        if width > 1:
            yield refused(24, f"furthest back in {width} bytes", behind(PDAT, 1, -half, 1, width))
        yield refused(24, f"furthest ahead in {width} bytes", behind(PDAT, 1, half - 1, 1, width))
    yield refused(24, "an offset of no byte", behind(PDAT, 1, 0, 1, 0))
    yield taken("an empty chunk with an offset of no byte", behind(PDAT, 0, 0, 1, 0))
    yield taken("lost chunks with an offset of no byte", behind(PDAT, 5, None, 1, 0, LOST))


def length_widths():
    for width in range(1, 9):
        yield taken(f"size 8 in {width} bytes", behind(PDAT, 8, -8, width, 1))
        most = 256 ** width - 1
        file = head() + lost_segment(0, [most], width=width)
        yield taken(f"largest size in {width} bytes", file) if width <= 5 else refused(23, f"largest size in {width} bytes", file)
        yield taken(f"both fields of {width} bytes", behind(PDAT, 5, -7, width, width))
    yield taken("sizes of no byte", head() + lost_segment(4, 3 * [0], width=0))
    yield taken("good, size and offset of no byte", behind(PDAT, 0, 0, 0, 0))
    yield taken("good, size of no byte, offset nowhere", behind(PDAT, 0, -128, 0, 1))


def offsets_at_the_edge():
    """Offsets at the edge of one byte and of two; in some both readings of the sign bit lead to data."""
    around = box(b"pdat", bytes(300))
    yield taken("128 back in 1 byte", behind(around, 100, -128))
    yield taken("127 ahead of a segment in 1 byte", ahead(around, 100, 127))
    yield taken("16 back in 1 byte, data on both sides", behind(around, 5, -16) + around)
    yield taken("129 back in 2 bytes", behind(around, 129, -129, 1, 2))
    yield taken("128 ahead of a segment in 2 bytes", ahead(around, 100, 128, 2))
    far, back = box(b"pdat", 33_000 * b"x"), segment([entry(GOOD, 1, 1, 3, -32769)], 1, 3) + segment([entry(GOOD, 1, 1, 2, -32768)], 1, 2)
    yield taken("32767 ahead and 32768 back in 2 bytes, 32768 ahead and 32769 back in 3", ahead(segment([entry(GOOD, 1, 1, 3, 32768)], 1, 3) + far + back, 1, 32767, 2))


# Places.

def places_of_one_box():
    for name, size, offset in [("whole", 8, -8), ("first byte", 1, -8), ("last byte", 1, -1), ("middle", 3, -5)]:
        yield taken(f"{name} of a pdat", behind(PDAT, size, offset))
    for name, size, offset in [
            ("from the last byte of the header", 2, -9), ("the header", 8, -16), ("past the end", 8, -7),
            ("one byte too long", 9, -8), ("just behind", 1, 0), ("longer than the file", 255, -8)]:
        yield refused(24, f"{name} of a pdat", behind(PDAT, size, offset))
    yield refused(24, "place 0", behind(PDAT, 1, -len(head() + PDAT)))
    yield refused(24, "place -1", behind(PDAT, 1, -len(head() + PDAT) - 1))
    yield refused(24, "a pdat whose end is the file's, past it", ahead(PDAT, 8, length_of(1) + 9))
    yield refused(24, "in a pdat if counted from the body of pseg", behind(PDAT, 4, -12))
    yield refused(24, "in a pdat if counted from the body of ploc", behind(PDAT, 8, -48))
    yield refused(24, "damaged, just behind a pdat", behind(PDAT, 1, 0, flag_byte=DAMAGED))
    yield taken("damaged, whole of a pdat", behind(PDAT, 8, -8, flag_byte=DAMAGED))


def places_of_more_boxes():
    yield refused(24, "across two neighbouring pdat", behind(2 * PDAT, 24, -24))
    yield refused(24, "from one pdat into the header of the next", behind(2 * PDAT, 9, -24))
    yield refused(24, "the two bodies without the header between", behind(2 * PDAT, 16, -24))
    for name, offset in [("first", -40), ("second", -24), ("third", -8)]:
        yield taken(f"the {name} of three pdat", behind(3 * PDAT, 8, offset))
    large = box(b"pdat", DATA, large=True)
    yield taken("whole of a large pdat", behind(large, 8, -8))
    yield refused(24, "from the large size of a pdat", behind(large, 9, -9))
    yield refused(24, "the large size of a pdat", behind(large, 8, -16))
    for kind in (b"free", b"mdat", b"pdaT"):
        yield refused(24, f"in a {kind.decode()} box", behind(box(kind, DATA), 8, -8))
    yield refused(24, "in an empty pdat", behind(box(b"pdat"), 1, 0))
    yield refused(24, "in a pdat in a box", behind(box(b"free", PDAT), 8, -8))
    inner = ftyp() + box(b"pfil", pfhd(), surl(), PDAT)
    yield refused(24, "in a pdat of pfil", inner + segment([entry(GOOD, 1, 8, 1, -8)]))
    own = pshd(7) + ploc(1, 1, [entry(GOOD, 1, 8, 1, 60)])
    yield refused(24, "in a pdat of its own pseg", head() + box(b"pseg", own, PDAT))


def shared_places():
    data, other = Data(DATA), Data(DATA[::-1], large=True)
    one = Segment(0, [Entry(GOOD, 5, data, 0), Entry(DAMAGED, 8, other, 0), Entry(GOOD, 5, data, 3)])
    two = Segment(3, [Entry(LOST, 9), Entry(GOOD, 8, data, 0), Entry(GOOD, 0, wild=77), Entry(GOOD, 2, other, 6)], flags=4)
    for name, items in [("between", [data, one, other, two]), ("behind", [two, one, data, other]),
                        ("in front", [other, data, Other(box(b"skip", DATA)), two, one])]:
        yield taken(f"two segments that share data {name}", Plan(ftyp(), [pfhd(), surl()], items).assemble())
    yield refused(24, "second chunk outside, first inside", behind_two(8, 1))
    yield taken("both chunks inside", behind_two(7, 1))


def behind_two(first, second):
    entries = [entry(GOOD, 1, first, 1, -8), entry(GOOD, 1, second, 1, first - 8)]
    return head() + PDAT + segment(entries)


# The known size.

CLOSING = lost_segment(0, [10], flags=1)


def sizes_taken():
    for name, content in [
            ("the same size twice", lost_segment(4, [6], flags=1)), ("an end below the size", lost_segment(2, [3])),
            ("an end at the size", lost_segment(9, [1])), ("open at the size", open_segment(10)),
            ("open and last at the size", open_segment(10, flags=1)), ("open and last below the size", open_segment(3, flags=1)),
            ("empty and last at the size", lost_segment(10, [0], flags=1))]:
        yield taken(f"{name}, behind", head() + CLOSING + content)
        yield taken(f"{name}, before", head() + content + CLOSING)
    yield taken("open and last is no size", head() + open_segment(5, flags=1) + lost_segment(0, [9]))
    yield taken("open and last only", head() + open_segment(5, flags=1))
    yield taken("empty and last is a size", head() + lost_segment(8, [0], flags=1))
    yield taken("described length 0, closed", head() + lost_segment(0, [0], flags=1))
    yield taken("described length 0, open", head() + open_segment(0))
    yield taken("open behind every end", head() + open_segment(100) + lost_segment(0, [50]))
    yield taken("open before an end", head() + open_segment(100) + lost_segment(90, [50]))
    for flags in (1, 3, 0xFFFFFF, 0xFFFFFE, 2):
        yield taken(f"flags {flags}", head() + lost_segment(0, [10], flags=flags))


def sizes_that_differ():
    for name, content in [
            ("a larger size", lost_segment(0, [11], flags=1)), ("a smaller size", lost_segment(0, [9], flags=1)),
            ("an end above the size", lost_segment(9, [2])), ("an empty end above the size", lost_segment(11, [0])),
            ("open above the size", open_segment(11)), ("open and last above the size", open_segment(11, flags=1)),
            ("empty and last above the size", lost_segment(11, [0], flags=1))]:
        yield refused(25, f"{name}, behind", head() + CLOSING + content)
        yield refused(25, f"{name}, before", head() + content + CLOSING)
    yield refused(25, "third size differs", head() + 2 * CLOSING + lost_segment(0, [3], flags=1))


def records():
    for made in (offset_widths, length_widths, offsets_at_the_edge, places_of_one_box, places_of_more_boxes,
                 shared_places, sizes_taken, sizes_that_differ):
        yield from made()
