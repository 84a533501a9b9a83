"""Makes runs on mixed files: begun with either brand, good chunks stored outside as whole boxes, what may not go there,
and the boxes that count."""

from boxes import box, head, open_segment, sized, sized_large
from model import PAFF, PMFF
from writes_refusals import OPEN_SIZE, begun
from writes_run import LAST, add, begin, data_of, given_list, outside, run

FREE = box(b"free")
MOOF, MDAT = box(b"moof", data_of(10)), box(b"mdat", data_of(4), large=True)
VENDOR = box(b"uuid", bytes(range(160, 176)), b"xyz")
TOP = 2 ** 64
DAMAGED = ("damaged", b"abc")
LOST = ("lost", 6)


def mixed(kind, name, calls, wanted, **more):
    """A run of a mixed begin that is taken, and these calls."""
    return run(kind, name, [begin(brand=PMFF), *calls], [0, *wanted], **more)


# Begin.

def beginnings():
    yield run("begin", "mixed, in exactly its bytes", [begin(b"a", brand=PMFF)], [0], spare=0)
    yield run("begin", "mixed, with both texts", [begin(b"http://films.example/lesson", b"video/mp4", PMFF)], [0])
    yield run("begin", "mixed over the other and back", [begin(), add(0, "good 4"), begin(brand=PMFF), outside(0, MOOF), begin(brand=PAFF), outside(0, MOOF)],
              [0, 0, 0, 0, 0, 35])
    yield run("33", "a mixed begin, one short", [begin(b"a", brand=PMFF)], [33], lent=54)
    yield run("34", "a mixed begin with a zero byte", [begin(b"a\0", brand=PMFF)], [34], lent=90)


# What is stored, and where.

def stored():
    for name, chunks in [
            ("one box", [MOOF]), ("two boxes in one chunk", [MOOF + MDAT]), ("two chunks", [MOOF, MDAT]), ("a vendor's box", [VENDOR]),
            ("the smallest boxes", [FREE, sized_large(16)]), ("a known box out of its place", [box(b"surl", b"a"), box(b"ploc"), box(b"pfhd")]),
            ("all states", [MOOF, DAMAGED, LOST, MDAT + FREE, ("damaged", b"de")]), ("a lost chunk first", [LOST, MOOF]), ("a damaged one first", [DAMAGED, MOOF]),
            ("a damaged one last", [MOOF, DAMAGED]), ("damaged bytes that are a box", [MOOF, ("damaged", MDAT), MOOF])]:
        yield mixed("outside", name, [outside(3, *chunks, flags=LAST, repair=TOP - 1)], [0])
    yield mixed("outside", "inside, outside and inside again", [add(0, "good 9, lost 3"), outside(12, MOOF), add(30, "good 4"), outside(12, MDAT)], [0, 0, 0, 0])
    yield mixed("outside", "the film's first box inside, the others outside",
                [given_list(0, [20, 2], head()[:20]), outside(20, MOOF + MDAT), outside(58, ("lost", 38), MOOF, flags=LAST), given_list(58, [38, 2], MOOF + MDAT)],
                [0, 0, 0, 0])
    both = head()[:8] + b"isom" + bytes(4) + b"paff" + head(brand=PMFF)[20:]
    yield run("outside", "a file that has both brands", [outside(0, MOOF, DAMAGED)], [0], file=(24).to_bytes(4, "big") + both[4:20] + b"pmff" + both[20:])


def none_goes_outside():
    for name, chunks in [("an open segment", []), ("a lost chunk", [LOST]), ("damaged chunks", [DAMAGED, LOST, ("damaged", MOOF)])]:
        yield begun("outside", f"{name}, the file not mixed", [outside(9, *chunks)], [0])
        yield mixed("outside", f"{name}, the file mixed", [outside(9, *chunks)], [0])


def widths():
    for size in (8, 127, 128, 129, 32_768, 32_769):
        yield mixed("widths", f"{size} outside", [outside(0, box(b"mdat", data_of(size - 8)))], [0])
    for inside, out in [(1, 127), (1, 128), (120, 8), (121, 8), (128, 8), (129, 8)]:
        yield mixed("widths", f"{inside} in the pdat and {out} outside", [outside(0, box(b"mdat", data_of(out - 8)), ("damaged", data_of(inside)))], [0])
    yield mixed("widths", "a header of 16 bytes and 120 outside", [outside(2 ** 31, box(b"mdat", data_of(104), large=True), ("lost", 2 ** 24))], [0])


# 35.

NOT_WHOLE = [
    ("one byte", b"x"), ("seven bytes", MOOF[:7]), ("a cut box", MOOF[:-1]), ("a byte left over", MOOF + b"\0"), ("a cut second header", MOOF + MOOF[:7]),
    ("a cut second box", MOOF + MDAT[:-1]), ("size 0", sized(0, b"mdat") + bytes(8)), ("size 0 at last", MOOF + sized(0, b"mdat")), ("size 7", sized(7)),
    ("size 2 and a box", sized(2) + MOOF), ("a cut large size", sized(1) + bytes(7)), ("large size 15", sized_large(15)), ("large size over", sized_large(17)),
    ("the largest size", sized_large(TOP - 1)), ("a uuid of 8", box(b"uuid")), ("a uuid of 23", box(b"uuid", bytes(15))),
    ("a uuid cut by the chunk", sized(24, b"uuid") + bytes(15)), ("a large uuid of 31", box(b"uuid", bytes(15), large=True)), ("from the second byte", MOOF[1:] + MOOF[:1])]


def refused_outside():
    for kind in (b"ftyp", b"pfil", b"pseg", b"pdat"):
        for name, part in [("first", box(kind, bytes(12)) + MOOF), ("last", MOOF + box(kind)), ("large", box(kind, large=True))]:
            yield mixed("35", f"a {kind.decode()} {name}", [outside(0, part), outside(0, ("damaged", part), MOOF)], [35, 0], spare=90)
    for name, part in NOT_WHOLE:
        yield mixed("35", name, [outside(0, part), outside(0, MOOF, LOST, part), outside(0, part, DAMAGED, MOOF), outside(0, MOOF, ("damaged", part))],
                    [35, 35, 35, 0], spare=99)
    yield mixed("35", "a box over two chunks", [outside(0, MOOF[:9], MOOF[9:]), outside(0, MOOF + MDAT[:8], MDAT[8:])], [35, 35], spare=99)
    yield mixed("35", "taken inside", [outside(0, b"x"), given_list(0, [1, 2], b"x")], [35, 0], spare=99)
    yield begun("35", "the file not mixed", [outside(0, MOOF), outside(0, DAMAGED, MOOF), outside(0, DAMAGED), add(3, "good 1")], [35, 35, 0, 0], spare=99)
    file = head(brand=PMFF)[:16] + PAFF + head()[20:]
    yield run("35", "mixed by its major brand alone", [outside(0, MOOF)], [35], file=file, spare=90)


def order():
    yield begun("35", "31 before 35", [given_list(0, [18, 2, 0, 0], MOOF, outside=True), given_list(0, [18, 2, 1], MOOF, outside=True)], [31, 31], spare=99)
    yield begun("35", "32 before 35", [given_list(0, [18, 2], MOOF + b"x", outside=True), given_list(0, [TOP - 1, 2], b"", outside=True)], [32, 32], spare=99)
    yield begun("35", "35 before 22, 23 and 33", [given_list(TOP - 1, [1, 2], data_of(1_025), count=2_050, outside=True)], [35], lent=60)
    yield mixed("35", "35 before 25 and 33", [add(0, "lost 4", LAST), outside(4, MOOF[1:]), outside(4, MOOF)], [0, 35, 25], spare=0)
    full = head(brand=PMFF) + 64 * open_segment(0) + 446 * FREE
    yield run("35", "35 before 6 and 13", [outside(0, b"x"), outside(0, MOOF)], [35, 6], file=full, spare=99)
    yield run("35", "6 before 13", [outside(0, 600 * FREE)], [6], file=head(brand=PMFF) + 64 * open_segment(0), spare=9_000)


# 6 and the room.

def counted():
    for name, chunks, number in [
            ("509 boxes", [509 * FREE], 0), ("510 boxes", [510 * FREE], 6), ("600 boxes", [600 * FREE], 6), ("508 and a pdat", [508 * FREE, DAMAGED], 0),
            ("509 and a pdat", [DAMAGED, 509 * FREE], 6), ("509 in two chunks", [500 * FREE, 9 * FREE], 0), ("510 in two chunks", [500 * FREE, 10 * FREE], 6)]:
        yield mixed("6", f"{name} outside", [outside(0, *chunks), add(0, "lost 1")], [number, 6 if number == 0 else 0], spare=99)
    yield mixed("6", "600 boxes inside", [given_list(0, [4_800, 2], 600 * FREE)], [0])
    yield run("6", "two boxes outside of a file of 509", [outside(0, 2 * FREE, flags=LAST), add(0, "lost 1")], [0, 6], file=head(brand=PMFF) + 507 * FREE, spare=99)
    yield run("6", "three boxes outside of a file of 509", [outside(0, 3 * FREE), outside(0, FREE, DAMAGED)], [6, 0], file=head(brand=PMFF) + 507 * FREE, spare=99)


def rooms():
    for name, call in [("one box", outside(0, MOOF)), ("all states", outside(0, MOOF, DAMAGED, LOST, MDAT))]:
        exact = run("33", f"{name} outside, exactly", [begin(brand=PMFF), call], [0, 0], spare=0)
        yield exact
        for short in (1, 8, 18):
            lent = exact.lent - short
            yield mixed("33", f"{name} outside, {short} short", [call, add(1, "")], [33, 0 if lent >= 55 + OPEN_SIZE else 33], lent=lent)


def runs():
    for part in (beginnings, stored, none_goes_outside, widths, refused_outside, order, counted, rooms):
        yield from part()
