"""Makes runs on chunks held elsewhere: what append writes of them, alone and beside others, what counts them, and the
map after repairs."""

from boxes import box, head, lost_segment
from foreign import LIMIT
from writes_mixed import DAMAGED, MDAT, MOOF, mixed
from writes_refusals import begun
from writes_run import LAST, add, given_list, outside, run

ELSEWHERE = ("elsewhere", 6)
TOP = 2 ** 64


def written():
    """Alone, beside each state and between, of each width, and without any data in a box of its own."""
    for name, words in [
            ("alone", "elsewhere 6"), ("two of them", "elsewhere 6, elsewhere 1"), ("before a good one", "elsewhere 6, good 3"), ("behind a good one", "good 3, elsewhere 6"),
            ("beside a damaged one", "damaged 2, elsewhere 6"), ("beside a lost one", "lost 4, elsewhere 6, lost 5"), ("beside all", "elsewhere 1, good 4, elsewhere 2, damaged 3, lost 5, elsewhere 6, good 1"),
            ("40 between good ones", ", ".join(["good 3", "elsewhere 9"] * 40))]:
        yield begun("elsewhere", name, [add(3, words, LAST, repair=TOP - 1)], [0])
    for size in (1, 255, 256, 65_535, 65_536, 2 ** 24 - 1, 2 ** 24, 2 ** 32 - 1, 2 ** 32, LIMIT):
        yield begun("elsewhere", f"of size {size}", [given_list(0, [size, 3])], [0])
    yield begun("elsewhere", "the widest size beside the widest offset", [add(0, "good 129, elsewhere 65536, damaged 2, elsewhere 1")], [0])
    yield begun("elsewhere", "no offset beside a large one", [add(0, "good 200"), add(200, "elsewhere 4"), add(204, "good 128")], [0, 0, 0])


def outside_beside():
    for name, chunks in [("before a box", [ELSEWHERE, MOOF]), ("behind a box", [MOOF, ELSEWHERE]), ("between boxes and damage", [MOOF, ELSEWHERE, DAMAGED, ("elsewhere", 1), MDAT])]:
        yield mixed("elsewhere", f"{name} outside", [outside(3, *chunks, flags=LAST)], [0])
    yield begun("elsewhere", "alone and asked outside, the file not mixed", [outside(9, ELSEWHERE)], [0])
    yield begun("elsewhere", "beside damage and asked outside, the file not mixed", [outside(9, DAMAGED, ELSEWHERE)], [0])
    yield mixed("elsewhere", "alone and asked outside, the file mixed", [outside(9, ELSEWHERE)], [0])
    yield mixed("elsewhere", "35 for the good one beside it", [outside(0, ELSEWHERE, MOOF[1:]), outside(0, ELSEWHERE, MOOF)], [35, 0], spare=99)


def counted():
    one = given_list(0, [1, 3])
    yield begun("22", "1024 held elsewhere, and no more", [given_list(0, [1, 3], count=2048), one, add(5, ""), one], [0, 22, 0, 22], spare=99)
    yield begun("22", "1025 held elsewhere in one list", [given_list(0, [1, 3], count=2050), one], [22, 0])
    yield begun("22", "1024 of all states", [given_list(0, [1, 3, 1, 2, 1, 0, 1, 1], bytes(range(256)) * 2, count=2048), one], [0, 22], spare=99)
    full = head() + 509 * box(b"free")
    yield run("6", "one held elsewhere to 512 boxes", [add(0, "elsewhere 1"), one], [0, 6], file=full, spare=99)
    yield run("6", "one held elsewhere and a good one to 513 boxes", [add(0, "elsewhere 1, good 1")], [6], file=full, spare=99)
    for name, offset, numbers in [("one over", LIMIT, [1, 3]), ("one over by the second", LIMIT - 3, [3, 3, 1, 3]), ("from 0, one over", 0, [LIMIT + 1, 3]), ("wraps", 1, [TOP - 1, 3]),
                                  ("twice 2^63", 0, [2 ** 63, 3, 2 ** 63, 3])]:
        yield begun("23", f"held elsewhere, {name}", [given_list(offset, numbers), one], [23, 0])
    yield begun("23", "held elsewhere to the limit", [add(1, f"elsewhere {LIMIT - 1}", LAST)], [0])


def repaired():
    """The size of the source, what is served first and what is repaired, with one held elsewhere on the same
    positions."""
    closed = add(0, "elsewhere 10", LAST)
    yield begun("25", "of a film held elsewhere", [closed, add(7, "elsewhere 4"), add(0, "elsewhere 9", LAST), add(4, "good 6"), add(0, "good 4")], [0, 25, 25, 0, 0], spare=99)
    yield begun("25", "held elsewhere past the known size", [add(0, "good 4, lost 6", LAST), add(9, "elsewhere 2"), add(4, "elsewhere 6")], [0, 25, 0], spare=99)
    yield begun("elsewhere", "over what is served, and repaired", [add(0, "good 4"), add(0, "elsewhere 9"), add(3, "good 6")], [0, 0, 0])
    yield begun("elsewhere", "beside an open segment", [add(4, "elsewhere 6"), add(10, ""), add(10, "elsewhere 1")], [0, 0, 0])
    yield run("elsewhere", "behind one of another writer", [add(4, "elsewhere 6, good 2")], [0], file=head() + lost_segment(0, [9, 0], flag_byte=0))


def runs():
    for part in (written, outside_beside, counted, repaired):
        yield from part()
