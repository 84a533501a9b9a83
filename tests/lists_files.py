"""Makes records on the paper's files, on open and empty ones, on chunks of size 0, many small ranges, long parts,
indexes, and the limits."""

from boxes import bidx, box, entry, fidx, ftyp, head, lost_segment, open_segment, pfhd, ploc, pshd, surl
from foreign import DAMAGED, ELSEWHERE, GOOD, LIMIT, LOST, WIDE
from lists_record import assembled, file_of, listed, refused
from plan import Data, Entry, Other, Plan, Segment, Whole

LAST = 1


def of_the_paper():
    ninth = (0, "good 4, lost 6", LAST)
    yield listed("paper", "P9", file_of(ninth), [(0, 4)], [(4, 6)])
    yield listed("paper", "P10", file_of(ninth, (2, "good 5")), [(0, 7)], [(7, 3)])
    yield listed("paper", "P10 with its segments turned", file_of((2, "good 5"), ninth), [(0, 7)], [(7, 3)])
    yield listed("paper", "P11", file_of((100, "")), [], [(0, 100)])
    yield listed("paper", "P11 and an end above", file_of((100, ""), (98, "good 4")), [(98, 4)], [(0, 98)])


def open_and_closed():
    good = (2, "good 3")
    yield listed("open", "no segment is last", file_of(good), [(2, 3)], [(0, 2)])
    yield listed("open", "an open last segment is no end", file_of((9, "", LAST), good), [(2, 3)], [(0, 2), (5, 4)])
    yield listed("open", "an open last segment below the end", file_of((3, "", LAST), good), [(2, 3)], [(0, 2)])
    yield listed("open", "an open segment at the end", file_of(good, (5, "")), [(2, 3)], [(0, 2)])
    yield listed("open", "an open segment behind the end", file_of(good, (6, "")), [(2, 3)], [(0, 2), (5, 1)])
    yield listed("closed", "closed by a lost chunk", file_of(good, (5, "lost 2", LAST)), [(2, 3)], [(0, 2), (5, 2)])
    yield listed("closed", "closed by a good chunk", file_of((2, "good 3", LAST)), [(2, 3)], [(0, 2)])
    yield listed("closed", "closed by an empty chunk", file_of(good, (8, "good 0", LAST)), [(2, 3)], [(0, 2), (5, 3)])
    twice = file_of((0, "lost 6", LAST), good, (6, ""), (6, "lost 0", LAST))
    yield listed("closed", "closed twice, and an open one", twice, [(2, 3)], [(0, 2), (5, 1)])
    yield listed("empty", "described length 0, open", file_of((0, "")), [], [])
    yield listed("empty", "described length 0, open and last", file_of((0, "", LAST), (0, "")), [], [])
    yield listed("empty", "described length 0, closed", file_of((0, "lost 0", LAST)), [], [])
    yield listed("empty", "described length 0, chunks of each state", file_of((0, "good 0, damaged 0, lost 0, elsewhere 0, good 0")), [], [])


def of_size_0():
    yield listed("size 0", "between good ones", file_of((0, "good 2, good 0, lost 0, damaged 0, good 2")), [(0, 4)], [])
    yield listed("size 0", "between missing ones", file_of((0, "lost 2, good 0, damaged 2")), [], [(0, 4)])
    yield listed("size 0", "in front and behind", file_of((3, "good 0, good 2, good 0", LAST)), [(3, 2)], [(0, 3)])
    yield listed("size 0", "inside a good one", file_of((4, "good 0"), (0, "good 8, good 0")), [(0, 8)], [])
    yield listed("size 0", "inside a missing one", file_of((4, "good 0"), (0, "lost 8")), [], [(0, 8)])
    yield listed("size 0", "only, at 5", file_of((5, "good 0, damaged 0")), [], [(0, 5)])
    nowhere = box(b"pseg", pshd(3), ploc(1, 1, [entry(GOOD, 1, 0, 1, 127), entry(DAMAGED, 1, 0, 1, -128), entry(LOST, 1, 4)]))
    yield listed("size 0", "at no place", head() + nowhere, [], [(0, 7)])


def held_elsewhere():
    yield listed("elsewhere", "held elsewhere, alone", file_of((4, "elsewhere 6")), [], [(0, 10)])
    yield listed("elsewhere", "held elsewhere, alone and last", file_of((4, "elsewhere 6", LAST)), [], [(0, 10)])
    yield listed("elsewhere", "held elsewhere, between good ones", file_of((0, "good 2, elsewhere 3, good 2", LAST)), [(0, 2), (5, 2)], [(2, 3)])
    yield listed("elsewhere", "held elsewhere, beside each state", file_of((1, "elsewhere 2, lost 2, elsewhere 1, damaged 2, elsewhere 3, good 2, elsewhere 4")), [(11, 2)], [(0, 11), (13, 4)])
    yield listed("elsewhere", "held elsewhere, empty ones between good ones", file_of((0, "good 2, elsewhere 0, good 2, elsewhere 0")), [(0, 4)], [])
    yield listed("elsewhere", "held elsewhere, it reaches furthest", file_of((0, "good 4"), (2, "elsewhere 9")), [(0, 4)], [(4, 7)])
    yield listed("elsewhere", "held elsewhere, good in its middle, behind", file_of((0, "elsewhere 12", LAST), (4, "good 3")), [(4, 3)], [(0, 4), (7, 5)])
    yield listed("elsewhere", "held elsewhere, the same, turned", file_of((4, "good 3"), (0, "elsewhere 12", LAST)), [(4, 3)], [(0, 4), (7, 5)])
    yield listed("elsewhere", "held elsewhere, beside an open segment", file_of((3, "elsewhere 4"), (20, "")), [], [(0, 20)])
    yield refused("elsewhere", 25, "held elsewhere, past the known size", file_of((0, "good 4", LAST), (2, "elsewhere 3")))
    many = box(b"pseg", pshd(0), ploc(1, 8, [entry(ELSEWHERE, 1, 2) for _ in range(1024)]))
    yield listed("elsewhere", "held elsewhere, 1024 of them", head() + many, [], [(0, 2048)], positions=[0, 1, 1024, 2047, 2048])


def of_boxes():
    """Mixed files: boxes as chunks, which serve headers and all, overlapping, shared, and beside a pdat."""
    moof, data = Whole([box(b"moof", b"0123456789"), box(b"mdat", b"abcd", large=True)]), Data(b"abcdefgh")
    whole = Segment(0, [Entry(GOOD, 38, moof, 0), Entry(LOST, 4), Entry(DAMAGED, 8, data, 0)], LAST)
    yield listed("mixed", "two boxes", assembled([moof, data, whole], b"pmff"), [(0, 38)], [(38, 12)])
    late = Segment(20, [Entry(GOOD, 20, moof, 18), Entry(GOOD, 8, data, 0)])
    yield listed("mixed", "a box over boxes that came before", assembled([whole, late, data, moof], b"pmff"), [(0, 48)], [(48, 2)])
    yield listed("mixed", "the same, turned", assembled([late, moof, whole, data], b"pmff"), [(0, 48)], [(48, 2)])
    twice = Segment(0, [Entry(GOOD, 18, moof, 0), Entry(LOST, 1), Entry(GOOD, 18, moof, 0), Entry(GOOD, 20, moof, 18)])
    yield listed("mixed", "one box twice", assembled([moof, twice], b"pmff"), [(0, 18), (19, 38)], [(18, 1)])
    yield refused("mixed", 24, "the same, not mixed", assembled([moof, twice]))


def alternating(pairs, front, back):
    """One segment of so many pairs of chunks of one position, all good ones in one pdat."""
    data = Data(bytes(range(251)))
    entries = []
    for at in range(pairs):
        entries += [Entry(GOOD, 1, data, at % 251) if state == "good" else Entry(LOST, 1) for state in (front, back)]
    return assembled([data, Segment(0, entries)])


def singles(pairs):
    """The even positions and the odd ones, each a range of its own."""
    return [(2 * at, 1) for at in range(pairs)], [(2 * at + 1, 1) for at in range(pairs)]


def many_pairs():
    for pairs in (5, 40, 512):
        even, odd = singles(pairs)
        some = None if pairs == 5 else [0, 1, 2, 3, 2 * pairs - 2, 2 * pairs - 1, 2 * pairs]
        yield listed("many", f"{pairs} pairs, good first", alternating(pairs, "good", "lost"), even, odd, positions=some)
        yield listed("many", f"{pairs} pairs, lost first", alternating(pairs, "lost", "good"), odd, even, positions=some)
    yield listed("many", "512 pairs, all exact", alternating(512, "good", "lost"), *singles(512), (8, 6144, 1024, 1024), [1023])
    yield listed("many", "512 pairs, good alone", alternating(512, "good", "good"), [(0, 1024)], [], positions=[0, 511, 1023, 1024])


def many_segments():
    turned = [(4 * at + 1, "good 2") for at in reversed(range(64))]
    yield listed("many", "64 segments turned, with gaps", file_of(*turned), [(4 * at + 1, 2) for at in range(64)],
                 [(0, 1)] + [(4 * at + 3, 2) for at in range(63)], positions=[0, 1, 2, 3, 4, 5, 128, 129, 253, 254, 255])
    row = [(4 * at, "good 4") for at in reversed(range(64))]
    yield listed("many", "64 segments turned, touching", file_of(*row), [(0, 256)], [], positions=[0, 3, 4, 252, 255, 256])
    over = [(3 * at, "good 5") for at in range(64)]
    yield listed("many", "64 segments, each over the next", file_of(*over), [(0, 194)], [], positions=[0, 2, 3, 4, 5, 6, 191, 192, 193, 194])


def long_parts():
    yield listed("long", "500 in one chunk", file_of((0, "good 500")), [(0, 500)], [])
    yield listed("long", "300 and then 400 over them", file_of((0, "good 300"), (100, "good 400")), [(0, 500)], [])
    yield listed("long", "400 and a hole that is repaired", file_of((0, "good 100, lost 200, good 100"), (50, "good 300")), [(0, 400)], [])
    yield listed("long", "13 and 12", file_of((0, "good 13, lost 1, good 12")), [(0, 13), (14, 12)], [(13, 1)])


def places():
    data, other = Data(bytes(range(10, 20))), Data(bytes(range(80, 90)), large=True)
    shared = [Segment(0, [Entry(GOOD, 5, data, 5), Entry(DAMAGED, 4, other, 0), Entry(GOOD, 5, other, 5)]),
              Segment(3, [Entry(GOOD, 10, data, 0)])]
    for name, items in [("before", [data, other] + shared), ("behind", shared + [other, data]),
                        ("between", [shared[0], data, shared[1], Other(box(b"free", b"abc")), other])]:
        yield listed("places", f"shared data {name} the segments", assembled(items), [(0, 14)], [])
    same = [Segment(4 * at, [Entry(GOOD, 3, data, 2), Entry(LOST, 1)]) for at in range(3)]
    yield listed("places", "one place for three chunks", assembled([data] + same), [(0, 3), (4, 3), (8, 3)], [(3, 1), (7, 1), (11, 1)])


def with_index():
    """An index in pfil or in a segment changes neither list."""
    data = Data(bytes(range(10, 40)))
    entries = [Entry(GOOD, 12, data, 0), Entry(LOST, 8), Entry(DAMAGED, 4, data, 12), Entry(GOOD, 6, data, 20)]
    index = fidx(bidx(16, b"moov", bidx(8)), bidx(0))
    for where in ("pfil", "a segment", "an open segment"):
        film, later = Segment(0, entries, LAST), Segment(20, [])
        plan = Plan(ftyp(), [pfhd(), surl()], [data, film, later])
        {"pfil": plan.pfil_parts, "a segment": film.after, "an open segment": later.between}[where].append(fidx(bidx(10)) if where == "an open segment" else index)
        yield listed("index", f"an index in {where}", plan.assemble(), [(0, 12), (24, 6)], [(12, 12)])
    spoiled = Plan(ftyp(), [pfhd(), surl(), fidx(bidx(7))], [data, Segment(0, entries, LAST)])
    yield refused("index", 36, "an index with a size under its header", spoiled.assemble())


def limits():
    yield listed("limits", f"all lost, to {LIMIT}", head() + lost_segment(0, [LIMIT], flags=LAST), [], [(0, LIMIT)])
    yield listed("limits", f"open at {LIMIT}", head() + open_segment(LIMIT), [], [(0, LIMIT)])
    yield listed("limits", "the last position of all", file_of((LIMIT - 1, "good 1", LAST)), [(LIMIT - 1, 1)], [(0, LIMIT - 1)])
    yield listed("limits", "the first and the last", file_of((LIMIT - 3, "good 3", LAST), (0, "good 2")),
                 [(0, 2), (LIMIT - 3, 3)], [(2, LIMIT - 5)])
    yield listed("limits", f"all held elsewhere, to {LIMIT}", head() + lost_segment(0, [LIMIT], flags=LAST, flag_byte=ELSEWHERE), [], [(0, LIMIT)])
    yield listed("limits", f"an empty chunk at {LIMIT}", file_of((LIMIT, "good 0", LAST)), [], [(0, LIMIT)])
    yield refused("limits", 23, "the first position past all", file_of((LIMIT, "good 1", LAST)))


def far():
    """Ranges on both sides of 2^32 and across it, and a gap that is longer than it."""
    for name, first in [("below", WIDE - 6), ("to", WIDE - 4), ("across", WIDE - 2), ("from", WIDE), ("behind", WIDE + 3)]:
        yield listed("far", f"good 4, {name} 2^32", file_of((first, "good 4", LAST)), [(first, 4)], [(0, first)])
    yield listed("far", "two that touch at 2^32", file_of((WIDE, "good 3", LAST), (WIDE - 3, "good 3")), [(WIDE - 3, 6)], [(0, WIDE - 3)])
    yield listed("far", "the same places 2^32 apart", file_of((2, "good 3"), (WIDE + 2, "good 3, lost 2")), [(2, 3), (WIDE + 2, 3)], [(0, 2), (5, WIDE - 3), (WIDE + 5, 2)])
    yield listed("far", "a repair across 2^32", file_of((WIDE - 4, "good 2, lost 4, good 2", LAST), (WIDE - 3, "good 5")), [(WIDE - 4, 8)], [(0, WIDE - 4)])
    yield listed("far", "a gap longer than 2^32", file_of((1, f"good 2, lost {2 * WIDE}, good 2", LAST)), [(1, 2), (2 * WIDE + 3, 2)], [(0, 1), (3, 2 * WIDE)])
    yield listed("far", "held elsewhere across 2^32", file_of((WIDE - 4, "elsewhere 8"), (WIDE - 1, "good 2")), [(WIDE - 1, 2)], [(0, WIDE - 1), (WIDE + 1, 3)])
    yield listed("far", "open behind 2^32", file_of((WIDE + 9, ""), (WIDE - 1, "good 1")), [(WIDE - 1, 1)], [(0, WIDE - 1), (WIDE, 9)])


def records():
    for made in (of_the_paper, open_and_closed, of_size_0, many_pairs, many_segments, long_parts, places, held_elsewhere, of_boxes, with_index, limits, far):
        yield from made()
