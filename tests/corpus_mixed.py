"""Makes records on mixed files: the brands, and which boxes of the file a chunk may be."""

from boxes import box, entry, ftyp, open_segment, pfhd, ploc, pshd, surl
from foreign import DAMAGED, ELSEWHERE, GOOD, LOST
from plan import Data, Entry, Other, Plan, Segment, Whole
from record import refused, taken

PFIL = box(b"pfil", pfhd(), surl())
MOOF, MDAT = box(b"moof", b"0123456789"), box(b"mdat", b"abcd", large=True)
PDAT = box(b"pdat", MOOF)
VENDOR = box(b"uuid", bytes(range(160, 176)), b"x")
FREE = box(b"free")


def behind(front, size, offset, flag_byte=GOOD, brands=(b"pmff",)):
    """A file of one chunk, with these boxes in front of its segment."""
    segment = box(b"pseg", pshd(7), ploc(2, 2, [entry(flag_byte, 2, size, 2, offset)]))
    return ftyp(brands) + PFIL + front + segment


def brands():
    for name, listed in [("pmff", [b"pmff"]), ("paff and pmff", [b"paff", b"pmff"]), ("pmff, isom and paff", [b"pmff", b"isom", b"paff"]),
                         ("pmff the fourth", [b"isom", b"iso6", b"Pmff", b"pmff"])]:
        yield taken(f"a box as a chunk, brands {name}", behind(MOOF, 18, -18, brands=listed))
        yield taken(f"an open segment, brands {name}", ftyp(listed) + PFIL + open_segment(7))
    for number, name, listed in [(24, "paff", [b"paff"]), (8, "none", []), (8, "Pmff", [b"Pmff"]), (8, "pmff across two", [b"\0\0pm", b"ff\0\0"]), (8, "pmfg and pmfe", [b"pmfg", b"pmfe"])]:
        yield refused(number, f"a box as a chunk, brands {name}", behind(MOOF, 18, -18, brands=listed))
    plain = behind(MOOF, 18, -18, brands=[b"paff"])
    yield refused(24, "pmff the major brand alone", ftyp([b"paff"], b"pmff") + plain[20:])


# A stretch of boxes that a good chunk may be, then those that it may not.
FOUR = MOOF + PDAT + MDAT + MOOF
MAY = [
    ("one box", MOOF, 18, -18), ("the first of two", MOOF + MDAT, 18, -38), ("the second of two", MOOF + MDAT, 20, -20), ("two boxes", MOOF + MDAT, 38, -38),
    ("the middle of three", MOOF + MDAT + MOOF, 20, -38), ("three boxes", 3 * MOOF, 54, -54), ("a vendor's box", VENDOR, 25, -25), ("beside a pdat", FOUR, 38, -38),
    ("before a pdat", FOUR, 18, -82), ("a box of 8 bytes", FREE, 8, -8), ("a large box of 16 bytes", box(b"free", large=True), 16, -16),
    ("100 boxes", 100 * FREE, 800, -800), *[(f"a {kind.decode()} of the file", box(kind, b"ab"), 10, -10) for kind in (b"surl", b"pfhd", b"pshd", b"ploc", b"fidx")]]
MAY_NOT = [
    ("one and a half", MOOF + MDAT, 28, -38), ("a half and one", MOOF + MDAT, 30, -30), ("a byte more", MOOF + MDAT, 19, -38), ("a byte less", MOOF, 17, -18),
    ("without the first byte", MOOF, 17, -17), ("from a byte before", MOOF, 19, -19), ("its header", MOOF, 8, -18), ("its body", MOOF, 10, -10),
    ("with the header of the pseg", MOOF, 26, -18), ("with all of the pseg", MOOF, 72, -18), ("a whole pdat", PDAT, 26, -26), ("a pdat in the middle", FOUR, 82, -82),
    ("a pdat in front", FOUR, 64, -64), ("a pdat behind", FOUR, 44, -82), ("a box in a box", box(b"free", MOOF), 18, -18), ("the pseg alone", MOOF, 54, 0),
    ("the ftyp", MOOF, 20, -73), ("the pfil", MOOF, 35, -53), ("the pfil and a box", MOOF, 53, -53), ("the ftyp and the pfil", MOOF, 55, -73), ("place -1", MOOF, 20, -74),
    ("longer than the file", MOOF, 65_535, -18), ("behind the end", MOOF, 18, 32_767), ("99 boxes and a half", 100 * FREE, 796, -800)]


def places():
    for name, front, size, offset in MAY:
        yield taken(f"a good chunk as {name}", behind(front, size, offset))
        yield taken(f"both brands, a good chunk as {name}", behind(front, size, offset, brands=[b"paff", b"pmff"]))
        yield refused(24, f"a damaged chunk as {name}", behind(front, size, offset, DAMAGED))
        yield refused(24, f"not mixed, a good chunk as {name}", behind(front, size, offset, brands=[b"paff"]))
        yield taken(f"a lost chunk as {name}", behind(front, size, None, LOST))
        yield taken(f"a chunk held elsewhere as {name}", behind(front, size, None, ELSEWHERE))
    for name, front, size, offset in MAY_NOT:
        yield refused(24, f"a good chunk as {name}", behind(front, size, offset))
    yield taken("a damaged chunk in a pdat of a mixed file", behind(PDAT, 18, -18, DAMAGED))
    yield taken("a part of a box in a pdat of a mixed file", behind(PDAT, 7, -12))
    yield taken("an empty chunk anywhere in a mixed file", behind(MOOF, 0, -9) + MOOF)


def plans():
    """Chunks that share boxes, that lie behind their segment or far from it, and in two pdat beside."""
    three, one, data = Whole([MOOF, VENDOR, FREE]), Whole([MDAT]), Data(b"abcdefgh")
    first = Segment(0, [Entry(GOOD, 18, three, 0), Entry(GOOD, 51, three, 0), Entry(LOST, 4), Entry(GOOD, 33, three, 18), Entry(DAMAGED, 8, data, 0)])
    second = Segment(100, [Entry(GOOD, 20, one, 0), Entry(GOOD, 5, data, 3), Entry(GOOD, 0, wild=99), Entry(GOOD, 8, three, 43)], flags=1)
    far = Other(box(b"skip", bytes(300)))
    for name, items in [("before", [three, one, data, first, second]), ("behind", [second, first, data, one, three]), ("between", [three, first, data, second, one]),
                        ("far before", [three, one, data, far, first, second]), ("far behind", [first, second, far, one, data, three])]:
        yield taken(f"shared boxes {name}", Plan(ftyp([b"pmff"]), [pfhd(), surl()], items).assemble())
    cut = Segment(0, [Entry(GOOD, 18, three, 0), Entry(GOOD, 25, three, 17)])
    yield refused(24, "the second of two chunks outside a byte off", Plan(ftyp([b"pmff"]), [pfhd(), surl()], [three, cut, second, one, data]).assemble())


def many():
    """As many boxes as a file may have, and chunks from one to another."""
    whole = Whole(509 * [FREE])
    edges = [(0, 509), (0, 1), (508, 509), (255, 257), (1, 508), (300, 400)]
    entries = [Entry(GOOD, 8 * (end - first), whole, 8 * first) for first, end in edges]
    yield taken("runs among 512 boxes", Plan(ftyp([b"pmff"]), [pfhd(), surl()], [whole, Segment(0, entries)]).assemble())
    yield refused(6, "runs among 513 boxes", Plan(ftyp([b"pmff"]), [pfhd(), surl()], [whole, Other(FREE), Segment(0, entries)]).assemble())


def records():
    for made in (brands, places, plans, many):
        yield from made()
