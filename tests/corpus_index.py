"""Makes records on box indexes: what they may hold, each reason to refuse one, levels, both containers and ends that are
not known, each alone and beside others."""

from boxes import bidx, box, entry, fidx, ftyp, head, open_segment, pfhd, ploc, pshd, sized, sized_large, surl
from foreign import LIMIT, LOST
from record import refused, taken

FREE = box(b"free")
VENDOR = bytes(range(16))
# A film of 100 bytes that is lost, of a known size or not.
SIZE = 100


def segment(*parts, offset=0, size=SIZE, flags=1):
    return box(b"pseg", pshd(offset, flags), ploc(5, 0, [entry(LOST, 5, size)]), *parts)


def in_pfil(*parts, flags=1, more=b""):
    """The film with these boxes in its pfil."""
    return ftyp() + box(b"pfil", pfhd(), surl(), *parts) + segment(flags=flags) + more


def in_segment(*parts, flags=1, offset=0, more=b""):
    """The film with these boxes in a segment of its own, behind it."""
    return head() + segment(flags=flags) + box(b"pseg", pshd(offset), ploc(0, 0, []), *parts) + more


def chain(levels, size, *parts):
    """A box of that size with these boxes in its list, inside others up to level 1 that it fills."""
    made = bidx(size, b"free", *parts)
    for level in range(1, levels):
        made = bidx(size + 8 * level, b"moov", made)
    return made


# What is taken.

RIGHT = [
    ("empty", fidx()),
    ("of one box", fidx(bidx(100))),
    ("of boxes that end before the source", fidx(bidx(8), bidx(9))),
    ("of boxes that end behind the source", fidx(bidx(99), bidx(8), bidx(2 ** 32 - 1))),
    ("of boxes behind the source", fidx(bidx(100), bidx(8), bidx(8))),
    ("of a large size", fidx(bidx(100, large=True))),
    ("of a large size of 16", fidx(bidx(16, large=True))),
    ("of a vendor's box of 24", fidx(bidx(24, b"uuid", VENDOR))),
    ("of a vendor's box of 32 in the large form", fidx(bidx(32, b"uuid", VENDOR, large=True))),
    ("of a box of eight bytes", fidx(bidx(8))),
    ("to the end", fidx(bidx(0))),
    ("to the end, eight bytes", fidx(bidx(92), bidx(0))),
    ("to the end, a vendor's box of 24", fidx(bidx(76), bidx(0, b"uuid", VENDOR))),
    ("to the end inside", fidx(bidx(60, b"moov", bidx(40, b"trak"), bidx(0)))),
    ("to the end inside one to the end", fidx(bidx(0, b"moov", bidx(40, b"trak"), bidx(0, b"mdat", bidx(0))))),
    ("of a box filled by one", fidx(bidx(16, b"moov", bidx(8)))),
    ("of a box filled by three", fidx(bidx(40, b"moov", bidx(8), bidx(16), bidx(8)))),
    ("of a large box filled", fidx(bidx(24, b"moov", bidx(8), large=True))),
    ("of a vendor's box filled", fidx(bidx(32, b"uuid", VENDOR, bidx(8)))),
    ("of a large vendor's box filled", fidx(bidx(40, b"uuid", VENDOR, bidx(8), large=True))),
    ("with a front part first", fidx(bidx(24, b"meta", box(b"frpa", bytes(8)), bidx(8)))),
    ("with a front part between", fidx(bidx(32, b"meta", bidx(8), box(b"frpa", bytes(8)), bidx(8)))),
    ("with a front part at last", fidx(bidx(24, b"meta", bidx(8), box(b"frpa", bytes(8))))),
    ("with an empty front part", fidx(bidx(16, b"meta", box(b"frpa"), bidx(8)))),
    ("with a front part of the large form", fidx(bidx(24, b"meta", box(b"frpa", bytes(8), large=True), bidx(8)))),
    ("with a front part behind a size 0", fidx(bidx(24, b"meta", bidx(0), box(b"frpa", bytes(8))))),
    ("with a front part alone", fidx(bidx(24, b"meta", box(b"frpa", bytes(8))))),
    ("with a front part longer than its box", fidx(bidx(8, b"meta", box(b"frpa", bytes(50))))),
    ("with a front part that leaves eight bytes", fidx(bidx(50, b"meta", box(b"frpa", bytes(34)), bidx(0)))),
    ("with boxes that are skipped", fidx(FREE, bidx(24, b"meta", box(b"dint", b"abc"), bidx(16), box(b"free", b"x")), box(b"dint"))),
    ("with an integrity box that has no framing", fidx(bidx(24, b"meta", box(b"dint", bytes(9)), bidx(16)))),
    ("with a front part that has no framing", fidx(bidx(24, b"meta", box(b"frpa", sized(0, b"bidx")), bidx(8)))),
    ("with a vendor's box in each list", fidx(box(b"uuid", VENDOR), bidx(16, b"moov", box(b"uuid", VENDOR), bidx(8)))),
    ("with skipped boxes behind a size 0", fidx(bidx(16), bidx(0, b"mdat", box(b"dint"), bidx(0), FREE), box(b"dint"), FREE)),
    ("with a front part in fidx", fidx(box(b"frpa", bytes(9)), bidx(100))),
    ("with two front parts in fidx", fidx(box(b"frpa", bytes(9)), bidx(100), box(b"frpa"))),
    ("with fidx in fidx", fidx(fidx(bidx(3)), bidx(100), fidx())),
    ("with two fidx in bidx", fidx(bidx(16, b"moov", fidx(b"abc"), bidx(8), fidx()))),
    ("with a bidx inside a box that is skipped", fidx(bidx(8, b"moov", box(b"dint", bidx(99)), box(b"free", bidx(0))))),
    ("of 512 boxes", fidx(512 * bidx(8))),
    ("of a box filled by 512", fidx(bidx(8 + 512 * 8, b"moov", 512 * bidx(8)))),
    ("of 511 boxes and one to the end", fidx(bidx(8 + 512 * 8, b"moov", 511 * bidx(8), bidx(0)))),
    ("in the large form", box(b"fidx", box(b"bidx", sized(16, b"moov"), bidx(8), large=True), large=True)),
    ("of eight levels", fidx(chain(8, 8))),
    ("of eight levels, the last to the end", fidx(chain(8, 30), chain(7, 30, bidx(0)))),
    ("of eight levels and a front part", fidx(chain(8, 20, box(b"frpa", bytes(12)), box(b"dint", b"x")))),
]
# Those that end at the limit, where the source starts at 0.
AT_THE_LIMIT = [
    ("up to the limit", fidx(bidx(LIMIT, b"mdat", large=True))),
    ("up to the limit in two boxes", fidx(bidx(LIMIT - 8, b"mdat", large=True), bidx(8))),
    ("up to the limit, filled", fidx(bidx(LIMIT, b"mdat", bidx(LIMIT - 16, b"mdat", large=True), large=True))),
]


def right():
    for name, index in RIGHT + AT_THE_LIMIT:
        yield taken(f"index in pfil, {name}", in_pfil(index))
    for name, index in RIGHT:
        yield taken(f"index in a segment, {name}", in_segment(index))
    yield taken("index in a segment at 92, to the end", in_segment(fidx(bidx(0)), offset=92))
    yield taken("index in a segment at 50, up to the limit", in_segment(fidx(bidx(LIMIT - 50, large=True)), offset=50))
    yield taken("index in each of two segments", head() + segment(fidx(bidx(30))) + segment(fidx(bidx(90), bidx(0))))
    yield taken("indexes in two segments, one of them empty", head() + segment(fidx()) + segment(fidx(bidx(8))))
    for flags in (0, 1):
        known = "known" if flags else "not known"
        yield taken(f"index of stated sizes, size {known}", in_pfil(fidx(bidx(60, b"moov", bidx(52)), bidx(99)), flags=flags))
        yield taken(f"index with a size 0 inside, size {known}", in_pfil(fidx(bidx(60, b"moov", bidx(0))), flags=flags))


def elsewhere():
    """What is no index, however spoiled."""
    spoiled = box(b"bidx", b"abc")
    for name, part in [("bidx", spoiled), ("frpa", box(b"frpa")), ("frpa and dint", box(b"frpa") + box(b"dint", b"x")), ("dint", box(b"dint", bytes(9)))]:
        yield taken(f"{name} in pfil", in_pfil(part))
        yield taken(f"{name} in a segment", in_segment(part))
    yield taken("fidx in the file", in_pfil(fidx(bidx(8)), more=fidx(b"abc") + fidx(bidx(3))))
    yield taken("fidx in a pdat", in_pfil(fidx(bidx(8)), more=box(b"pdat", fidx(b"abc"))))
    yield taken("fidx in a box of pfil", in_pfil(box(b"free", fidx(b"abc")), fidx(bidx(8)), box(b"pseg", fidx(b"abc"))))


# 36.

BROKEN = [
    ("a byte", b"\0"), ("seven bytes", bytes(7)), ("size 0", bytes(8)), ("a bidx of size 0", sized(0, b"bidx") + sized(8)), ("size 7", sized(7)),
    ("a large size of 15", sized_large(15)), ("a large size that is cut", sized(1) + bytes(7)), ("a size of 9 in 8 bytes", sized(9)),
    ("a vendor's box of 20", sized(20, b"uuid") + bytes(12)), ("a user type that is cut", sized(24, b"uuid") + bytes(15)),
]
CUT = [
    ("no field", b""), ("a size that is cut", bytes(3)), ("no type", sized(9)[:4]), ("a type that is cut", sized(9)[:7]), ("no large size", sized(1, b"moov")),
    ("a large size that is cut", sized_large(99, b"moov")[:15]), ("no user type", sized(99, b"uuid")), ("a user type that is cut", sized(99, b"uuid") + bytes(15)),
    ("no user type behind a large size", sized_large(99, b"uuid")), ("a user type that is cut behind a large size", sized_large(99, b"uuid") + bytes(15)),
    ("no user type of a size 0", sized(0, b"uuid")),
]
UNDER = [
    ("2", bidx(2)), ("7", bidx(7)), ("23 of a vendor's box", bidx(23, b"uuid", VENDOR)), ("8 of a vendor's box", bidx(8, b"uuid", VENDOR)),
    ("0 in the large form", bidx(0, large=True)), ("15 in the large form", bidx(15, large=True)), ("31 of a vendor's box in the large form", bidx(31, b"uuid", VENDOR, large=True)),
    ("16 of a vendor's box in the large form", bidx(16, b"uuid", VENDOR, large=True)),
]


def framing():
    for name, tail in BROKEN:
        yield refused(36, f"{name} in fidx", in_pfil(fidx(bidx(8), tail)))
        yield refused(36, f"{name} in a bidx", in_segment(fidx(bidx(8, b"moov", tail), bidx(8))))
        yield refused(36, f"{name} in a bidx of level 8", in_pfil(fidx(chain(8, 8, tail))))
    yield refused(36, "a 513th box in fidx", in_pfil(fidx(bidx(8), 512 * FREE)))
    yield refused(36, "a 513th box in a bidx", in_segment(fidx(bidx(8, b"moov", 513 * FREE))))
    yield refused(36, "a 513th box in a bidx of level 8", in_pfil(fidx(chain(8, 8, 513 * FREE))))


def fields():
    for name, cut in CUT:
        yield refused(36, f"bidx with {name}", in_pfil(fidx(bidx(8), box(b"bidx", cut))))
        yield refused(36, f"bidx of level 8 with {name}", in_segment(fidx(chain(7, 99, box(b"bidx", cut)))))
    for name, under in UNDER:
        yield refused(36, f"a size of {name}", in_segment(fidx(under)))
        yield refused(36, f"a size of {name}, inside", in_pfil(fidx(bidx(8), bidx(40, b"moov", under, bidx(0)))))
        yield refused(36, f"a size of {name}, at level 8", in_pfil(fidx(chain(7, 40, under))))


def ends():
    """A size 0 that is not last, or that leaves too little."""
    yield refused(36, "size 0 before another", in_pfil(fidx(bidx(0), bidx(8))))
    yield refused(36, "size 0 before a size 0", in_pfil(fidx(bidx(0), bidx(0))))
    yield refused(36, "size 0 before another, size not known", in_pfil(fidx(bidx(0), FREE, bidx(8)), flags=0))
    yield refused(36, "size 0 before another inside", in_segment(fidx(bidx(40, b"moov", bidx(0), box(b"dint"), bidx(8)))))
    yield refused(36, "size 0 before another inside a size 0", in_segment(fidx(bidx(0, b"moov", bidx(0), bidx(8))), flags=0))
    yield refused(36, "size 0 before another at level 8", in_pfil(fidx(chain(7, 40, bidx(0), bidx(8)))))
    for left in (7, 1, 0, -1, -8):
        yield refused(36, f"size 0 with {left} bytes of the source left", in_pfil(fidx(bidx(100 - left), bidx(0))))
        yield refused(36, f"size 0 with {left} bytes of its box left", in_segment(fidx(bidx(40, b"moov", bidx(32 - left), bidx(0)))))
    yield refused(36, "a vendor's size 0 with 23 bytes left", in_pfil(fidx(bidx(77), bidx(0, b"uuid", VENDOR))))
    yield refused(36, "size 0 in a segment at 93", in_segment(fidx(bidx(0)), offset=93))
    yield refused(36, "size 0 behind a front part that leaves 7 bytes", in_pfil(fidx(bidx(50, b"moov", box(b"frpa", bytes(35)), bidx(0)))))
    yield refused(36, "size 0 behind a front part longer than its box", in_pfil(fidx(bidx(50, b"moov", box(b"frpa", bytes(90)), bidx(0)))))


def filling():
    for name, made in [
            ("one byte short", bidx(40, b"moov", bidx(31))), ("one byte long", bidx(40, b"moov", bidx(33))), ("as long as their box", bidx(40, b"moov", bidx(40))),
            ("two, short", bidx(40, b"moov", bidx(8), bidx(23))), ("two, long", bidx(40, b"moov", bidx(8), bidx(25))), ("a third too many", bidx(40, b"moov", bidx(8), bidx(24), bidx(8))),
            ("the header of the large form not counted", bidx(40, b"moov", bidx(32), large=True)), ("the user type not counted", bidx(40, b"uuid", VENDOR, bidx(32))),
            ("the front part not counted", bidx(40, b"moov", box(b"frpa", bytes(4)), bidx(32))), ("the header of the front part counted", bidx(40, b"moov", box(b"frpa", bytes(4)), bidx(20))),
            ("a front part at last not counted", bidx(40, b"moov", bidx(32), box(b"frpa", bytes(4)))), ("an integrity box counted", bidx(40, b"moov", box(b"dint", bytes(8)), bidx(24))),
            ("less than 2^32 above", bidx(40, b"moov", bidx(2 ** 32 + 32, large=True)))]:
        yield refused(36, f"boxes that do not fill, {name}", in_pfil(fidx(made)))
        yield refused(36, f"boxes that do not fill a second one, {name}", in_segment(fidx(bidx(8), made, bidx(8))))
    yield refused(36, "boxes that do not fill at level 8", in_pfil(fidx(chain(7, 40, bidx(31)))))
    yield refused(36, "boxes that do not fill one to the end", in_pfil(fidx(bidx(60), bidx(0, b"moov", bidx(31)))))
    yield refused(36, "boxes that do not fill, inside an end that is not known", in_pfil(fidx(bidx(0, b"moov", bidx(40, b"trak", bidx(31)))), flags=0))


def seconds():
    for name, two in [("right ones", (fidx(bidx(8)), fidx(bidx(9)))), ("empty ones", (fidx(), fidx())), ("with another between", (fidx(), FREE, fidx(bidx(8))))]:
        yield refused(36, f"two fidx in pfil, {name}", in_pfil(*two))
        yield refused(36, f"two fidx in a segment, {name}", in_segment(*two))
    yield refused(36, "three fidx in pfil", in_pfil(fidx(), fidx(), fidx()))
    yield refused(36, "two frpa in a bidx", in_pfil(fidx(bidx(16, b"moov", box(b"frpa", bytes(4)), box(b"frpa", bytes(4))))))
    yield refused(36, "two empty frpa around a box", in_segment(fidx(bidx(16, b"moov", box(b"frpa"), bidx(8), box(b"frpa")))))
    yield refused(36, "two frpa in a bidx of level 8", in_pfil(fidx(chain(8, 8, box(b"frpa"), box(b"frpa")))))
    yield taken("frpa in each of two bidx", in_pfil(fidx(bidx(8, b"moov", box(b"frpa")), bidx(8, b"moov", box(b"frpa")))))


def limits():
    for name, index in [
            ("one over", fidx(bidx(LIMIT + 1, large=True))), ("one over by the second", fidx(bidx(LIMIT - 8, large=True), bidx(9))), ("the largest size", fidx(bidx(2 ** 64 - 1, large=True))),
            ("a second of the largest size", fidx(bidx(8), bidx(2 ** 64 - 8, large=True))), ("2^63", fidx(bidx(2 ** 63, large=True)))]:
        yield refused(36, f"an end over the limit, {name}", in_pfil(index))
    yield refused(36, "an end over the limit in a segment at 50", in_segment(fidx(bidx(LIMIT - 49, large=True)), offset=50))
    over = bidx(LIMIT - 7, b"mdat", large=True)
    yield refused(36, "an end over the limit inside one that is not known", in_pfil(fidx(bidx(0, b"moov", over)), flags=0))
    yield refused(39, "an end at the limit inside one that is not known", in_pfil(fidx(bidx(0, b"moov", bidx(LIMIT - 8, b"mdat", large=True))), flags=0))
    yield refused(39, "an end that is not known from the limit on", in_pfil(fidx(bidx(LIMIT, b"mdat", large=True), bidx(0)), flags=0))


# 37 to 39, and the order of all four.

NINTH = fidx(chain(8, 8, bidx(8)))
UNKNOWN = fidx(bidx(0))
WRONG = fidx(bidx(7))


def ninths():
    for name, ninth in [("right", bidx(8)), ("that does not fill", bidx(2 ** 31)), ("with a size under its header", bidx(7)), ("without fields", box(b"bidx")),
                        ("with a list that is cut", bidx(8, b"moov", b"abc")), ("of size 0 before another", bidx(0) + bidx(8)), ("of size 0", bidx(0)),
                        ("over the limit", bidx(2 ** 64 - 1, large=True)),
                        ("with two frpa", bidx(8, b"moov", box(b"frpa"), box(b"frpa"))), ("behind others", FREE + box(b"dint") + bidx(8))]:
        yield refused(37, f"a ninth level, {name}", in_pfil(fidx(chain(8, 16, ninth))))
    yield refused(37, "a ninth level in a segment", in_segment(fidx(bidx(8), chain(8, 16, bidx(8)))))
    yield refused(37, "a tenth level", in_pfil(fidx(chain(10, 8))))
    yield refused(37, "a ninth level inside an end that is not known", in_pfil(fidx(bidx(0, b"moov", chain(7, 8, bidx(8)))), flags=0))
    yield taken("eight levels beside eight", in_pfil(fidx(chain(8, 8), chain(8, 8), bidx(8))))


def both():
    for name, one, two in [("right", fidx(bidx(8)), fidx(bidx(8))), ("empty in pfil", fidx(), fidx(bidx(8))), ("empty in the segment", fidx(bidx(8)), fidx()), ("both empty", fidx(), fidx())]:
        yield refused(38, f"indexes in pfil and a segment, {name}", in_pfil(one, more=segment(two)))
    yield refused(38, "indexes in pfil and the last of three segments", in_pfil(fidx(), more=segment() + segment(fidx())))


def unknowns():
    for name, index in [("alone", fidx(bidx(0))), ("behind others", fidx(bidx(8), bidx(99), bidx(0))), ("inside another", fidx(bidx(0, b"moov", bidx(8), bidx(0)))),
                        ("with boxes that need not fill it", fidx(bidx(0, b"moov", bidx(8), bidx(9)))), ("of a vendor's box", fidx(bidx(0, b"uuid", VENDOR))),
                        ("at eight levels", fidx(bidx(0, b"a001", bidx(0, b"a002", bidx(0, b"a003", bidx(0, b"a004", bidx(0, b"a005", bidx(0, b"a006", bidx(0, b"a007", bidx(0))))))))))]:
        yield refused(39, f"an end that is not known, {name}", in_pfil(index, flags=0))
        yield refused(39, f"an end that is not known in a segment, {name}", in_segment(index, flags=0))
    yield refused(39, "an end that an open last segment does not tell", ftyp() + box(b"pfil", pfhd(), surl(), UNKNOWN) + open_segment(100, flags=1))
    yield refused(39, "an end that is not known behind a right index", head() + segment(fidx(bidx(8)), flags=0) + segment(fidx(bidx(0)), flags=0))


def orders():
    differing = segment(size=99)
    yield refused(25, "25 before 36", in_pfil(WRONG, more=differing))
    yield refused(25, "25 before 37, 38 and 39", in_pfil(NINTH, more=differing + segment(UNKNOWN)))
    yield refused(12, "12 before 36", ftyp() + box(b"pfil", pfhd(), surl(), WRONG))
    yield refused(36, "36 in the last segment before 37 and 38", in_pfil(NINTH, more=segment() + segment(WRONG)))
    yield refused(36, "36 before 37 in one index", in_pfil(fidx(chain(8, 8, bidx(8)), bidx(7))))
    yield refused(36, "36 in a segment before 39 in pfil", in_pfil(UNKNOWN, flags=0, more=segment(WRONG, flags=0)))
    yield refused(36, "36 behind 39 in one index", in_pfil(fidx(bidx(0, b"moov", bidx(8)), b"\0"), flags=0))
    yield refused(37, "37 in a segment before 38", in_pfil(fidx(), more=segment(NINTH)))
    yield refused(37, "37 in a segment before 39 in another", head() + segment(UNKNOWN, flags=0) + segment(NINTH, flags=0))
    yield refused(38, "38 before 39", in_pfil(UNKNOWN, flags=0, more=segment(fidx(), flags=0)))
    for number, file in [(36, in_pfil(WRONG)), (37, in_pfil(NINTH)), (38, in_pfil(fidx(), more=segment(fidx()))), (39, in_pfil(UNKNOWN, flags=0))]:
        yield refused(number, f"{number} before 26", file, 0, 0)
    yield refused(26, "26 behind a right index", in_pfil(fidx(bidx(0))), 7, 6)


def claims():
    """All of them, which tests/model_check_index.py takes."""
    for made in (right, elsewhere, framing, fields, ends, filling, seconds, limits, ninths, both, unknowns, orders):
        yield from made()


def records():
    """Of those that are taken, and of those with 36, every second."""
    return [record for turn, record in enumerate(claims()) if record.wanted not in (0, 36) or turn % 2 == 0]
