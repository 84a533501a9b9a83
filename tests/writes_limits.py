"""Makes runs on what append writes and where its limits lie: widths, flags, open segments, boxes, segments, chunks, the
source and its size."""

from boxes import box, head, lost_segment, open_segment
from foreign import LIMIT, WIDE
from writes_refusals import begun
from writes_run import LAST, add, begin, data_of, given_list, run

FREE = box(b"free")
TOP = 2 ** 64


# Widths.

def offset_widths():
    for size in (1, 127, 128, 129, 32_768, 32_769):
        yield begun("widths", f"data of {size}", [add(0, f"good {size}", LAST)], [0])
    yield begun("widths", "128 in two chunks", [add(0, "good 1, damaged 127")], [0])
    yield begun("widths", "129 in two chunks", [add(0, "good 1, damaged 128")], [0])
    yield begun("widths", "129 behind a lost chunk", [add(0, "lost 300, good 128, lost 1, good 1")], [0])
    yield begun("widths", "129, the last chunk in one byte", [add(0, "good 100, good 28, good 1, lost 5")], [0])
    yield begun("widths", "no offset beside a large one", [add(0, "good 200"), add(200, "lost 4"), add(204, "good 128")], [0, 0, 0])
    yield begun("widths", "40 chunks of 9", [add(0, ", ".join(["good 9", "lost 3", "damaged 1"] * 40))], [0])


def length_widths():
    for size in (1, 255, 256, 65_535, 65_536, 2 ** 24 - 1, 2 ** 24, WIDE - 1, WIDE, LIMIT):
        yield begun("widths", f"a lost chunk of {size}", [given_list(0, [size, 0], repair=size)], [0])
    yield begun("widths", "sizes of each width", [add(0, "lost 16777216, good 1, lost 65536, damaged 2, lost 256, lost 1", LAST)], [0])
    yield begun("widths", "the widest at last", [add(0, "good 3, lost 256"), add(259, "damaged 3, good 2, lost 65536")], [0, 0])
    yield begun("widths", "a size of five bytes beside an offset of two", [add(0, f"good 129, lost {WIDE}, damaged 1", LAST)], [0])
    for size in (LIMIT + 1, 2 ** 48, 2 ** 56, TOP - 1):
        yield begun("widths", f"wider than a source, {size}", [given_list(0, [size, 0])], [23])
    for repair in (0, 1, 2 ** 32, 2 ** 63, TOP - 1):
        yield begun("widths", f"repaired at {repair}", [add(3, "good 2", repair=repair)], [0])


# The header.

def flags():
    for bits in (0x000002, 0x000100, 0x01000000, 0x80000000, 0xFFFFFFFE):
        yield begun("flags", f"{bits:#010x}, not last", [add(0, "good 4", bits), add(0, "lost 9")], [0, 0])
    for bits in (0x000001, 0x000003, 0x01000001, 0x80000001, 0xFFFFFFFF):
        yield begun("flags", f"{bits:#010x}, last", [add(0, "good 4", bits), add(0, "lost 9")], [0, 25])


def open_segments():
    yield begun("open", "P11", [add(100, "")], [0])
    yield begun("open", "at 0", [add(0, ""), add(0, "", LAST)], [0, 0])
    yield begun("open", "open and last is no end", [add(100, "", LAST), add(98, "good 4"), add(200, "lost 9", LAST)], [0, 0, 0])
    yield begun("open", "open beside all states", [add(4, "lost 1, damaged 2, good 3"), add(10, ""), add(10, "good 2")], [0, 0, 0])
    ninth = add(0, "good 4, lost 6", LAST)
    yield begun("open", "P9", [ninth], [0])
    yield begun("open", "P10", [ninth, add(2, "good 5")], [0, 0])
    yield begun("open", "P10 and its last repair", [ninth, add(2, "good 5"), add(7, "damaged 3"), add(7, "good 3", LAST)], [0, 0, 0, 0])


# Boxes, segments and chunks.

def boxes():
    yield run("6", "to 512 boxes", [add(0, "good 4"), add(4, "good 1"), add(4, "lost 1"), add(5, "lost 1"), add(5, "")], [0, 6, 0, 6, 6],
              file=head() + 507 * FREE, spare=99)
    full = head() + 64 * open_segment(0) + 446 * FREE
    yield run("6", "6 before 13, 22 and 23", [given_list(TOP - 1, [1, 0], count=2050)], [6], file=full, spare=99)


def segments():
    calls = [add(at, "" if at % 3 == 0 else f"lost {at}") for at in range(64)]
    yield begun("13", "64 segments by append, and no 65th", [*calls, add(0, ""), add(0, "good 4"), add(0, "lost 1")], [0] * 64 + [13] * 3, spare=99)
    yield run("13", "the 64th and no more", [add(1, "good 2"), add(1, "good 2")], [0, 13], file=head() + 63 * open_segment(5), spare=99)
    many = head() + 63 * open_segment(0) + lost_segment(0, [0] * 1024, flags=LAST, width=1)
    yield run("13", "13 before 22, 23 and 25", [given_list(TOP - 1, [1, 0])], [13], file=many, spare=99)


def chunks():
    one = given_list(0, [1, 0])
    yield begun("22", "1024 lost, and no more", [given_list(0, [1, 0], count=2048), one, add(5, ""), one], [0, 22, 0, 22], spare=99)
    yield begun("22", "1024 good ones", [given_list(0, [1, 2], data_of(1024), count=2048)], [0])
    yield begun("22", "1025 in one list", [given_list(0, [1, 0], count=2050), one], [22, 0])
    yield begun("22", "1025 good in one list", [given_list(0, [1, 2], data_of(1025), count=2050)], [22], lent=5_000)
    yield begun("22", "1000 and then 24 or 25", [given_list(0, [1, 0], count=2000), given_list(0, [3, 0], count=50),
                                                 given_list(0, [3, 0], count=48), one], [0, 22, 0, 22], spare=99)
    some = given_list(0, [1, 0, 2, 2, 1, 1], data_of(33), count=66)
    rest = [add(0, "good 1, lost 9"), one, add(0, "good 1"), add(9, "")]
    yield begun("22", "1023 in 31 segments", [some] * 31 + rest, [0] * 31 + [22, 0, 22, 0], lent=9_000)
    for pairs in (1_026, 32_768, 65_000, 65_535, 65_536, 65_537):
        yield begun("22", f"{pairs} pairs", [given_list(0, [1, 0], count=2 * pairs), one], [22, 0], spare=99)
    yield begun("22", "65537 pairs that make 2^64", [given_list(0, [2 ** 48, 0], count=131_074)], [22], lent=200)
    yield begun("22", "22 before 23 and 33", [given_list(TOP - 1, [TOP - 1, 0], count=2050)], [22], lent=55)
    yield run("22", "22 before 25", [given_list(1, [1, 0])], [22], file=head() + lost_segment(0, [0] * 1024, flags=LAST, width=1))


# The source.

def source_limit():
    for name, call in [("open at the limit", add(LIMIT, "")), ("open and last at the limit", add(LIMIT, "", LAST)),
                       ("good to the limit", add(LIMIT - 5, "good 5", LAST)), ("lost to the limit", add(1, f"lost {LIMIT - 1}")),
                       ("in two to the limit", add(LIMIT - 2 ** 24 - 3, "good 3, lost 16777216")), ("lost from 2^32 to the limit", add(WIDE, f"lost {LIMIT - WIDE}"))]:
        yield begun("23", f"{name}, taken", [call], [0])
    for offset in (LIMIT + 1, LIMIT + 2, 2 ** 48, 2 ** 63, TOP - 1):
        yield begun("23", f"open at {offset}", [add(offset, "")], [23], spare=99)
        yield begun("23", f"good at {offset}", [add(offset, "good 4", LAST)], [23], spare=99)
    for name, offset, numbers in [("one over by a lost chunk", LIMIT, [1, 0]), ("one over by the second", LIMIT - 3, [3, 0, 1, 0]),
                                  ("one over by the first", LIMIT - 3, [4, 0, 1, 0]), ("from 0, one over", 0, [LIMIT + 1, 0]),
                                  ("from 1, one over", 1, [LIMIT, 0]), ("wraps from 1", 1, [TOP - 1, 0]), ("wraps from the largest", TOP - 1, [1, 0]),
                                  ("twice 2^63", 0, [2 ** 63, 0, 2 ** 63, 0]), ("twice 2^63 and 7", 0, [7, 0, 2 ** 63, 0, 2 ** 63, 0]),
                                  ("the largest, and 8", 0, [TOP - 1, 0, 8, 0]), ("twice 2^39", 0, [2 ** 39, 0, 2 ** 39, 0]),
                                  ("2^64 over 2^32", WIDE, [TOP - WIDE, 0])]:
        yield begun("23", name, [given_list(offset, numbers), add(0, "good 4")], [23, 0])
    yield begun("23", "one over by a good chunk", [add(LIMIT - 4, "good 5")], [23], spare=99)
    yield begun("23", "23 before 25", [add(0, "lost 4", LAST), add(LIMIT + 1, ""), add(LIMIT + 1, "lost 1", LAST), add(LIMIT, "")], [0, 23, 23, 25], spare=99)


def far_offsets():
    """Both forms of pshd: the 64-bit one exactly where 32 bits do not hold the source offset, whatever the end is."""
    for offset in (WIDE - 2, WIDE - 1, WIDE, WIDE + 1, 2 ** 39, LIMIT - 4):
        yield begun("far", f"open at {offset}", [add(offset, "", repair=TOP - 1)], [0], spare=0)
        yield begun("far", f"each state at {offset}", [add(offset, "good 1, lost 1, damaged 1, elsewhere 1", LAST)], [0], spare=0)
        exact = run("far", f"good at {offset}, exactly", [begin(), add(offset, "good 4")], [0, 0], spare=0)
        yield exact
        yield begun("far", f"good at {offset}, one byte short", [add(offset, "good 4"), add(0, "")], [33, 0], lent=exact.lent - 1)
    across = [add(WIDE - 3, "good 6"), add(WIDE, "lost 9"), add(WIDE - 1, "damaged 2"), add(WIDE + 3, "good 4, elsewhere 2", LAST), add(WIDE + 10, "")]
    yield begun("far", "a film across 2^32", across, [0, 0, 0, 0, 25], spare=99)
    yield begun("far", "sizes on both sides of 2^32", [add(0, f"lost {WIDE - 1}"), add(0, f"lost {WIDE}"), add(0, f"elsewhere {WIDE + 1}, good 2", LAST)], [0, 0, 0])
    yield begun("far", "many sizes that make 2^40", [given_list(0, [2 ** 30, 0], count=2048), given_list(0, [2 ** 30, 0], count=2046)], [23, 0], spare=99)


def source_size():
    closed = add(0, "good 4, lost 6", LAST)
    for name, call in [("another size below", add(0, "lost 9", LAST)), ("another size above", add(0, "lost 11", LAST)),
                       ("an end above", add(7, "good 4")), ("an open offset above", add(11, "")), ("an open last one above", add(11, "", LAST)),
                       ("far above", add(LIMIT, "")), ("2^32 above", add(WIDE + 10, "")), ("a size 2^32 above", add(WIDE, "lost 10", LAST)), ("a size of one", add(0, "good 1", LAST))]:
        yield begun("25", f"of a closed file, {name}", [closed, call, add(7, "good 3")], [0, 25, 0], spare=99)
    for name, call in [("the same size", add(3, "lost 7", LAST)), ("an end at it", add(9, "good 1")), ("an open offset at it", add(10, "")),
                       ("an open last one at it", add(10, "", LAST)), ("an open last one below", add(4, "", LAST))]:
        yield begun("25", f"of a closed file, {name}, taken", [closed, call], [0, 0])
    for name, call in [("a size below the end", add(0, "lost 9", LAST)), ("a size of one", add(0, "good 1", LAST))]:
        yield begun("25", f"of an end at 10, {name}", [add(0, "good 4, lost 6"), call, add(0, "lost 10", LAST)], [0, 25, 0], spare=99)
        yield begun("25", f"open at 10, {name}", [add(10, ""), call, add(0, "lost 10", LAST)], [0, 25, 0], spare=99)
    above = [add(0, "good 4, lost 6"), add(8, "good 4", LAST), add(11, "good 1"), add(11, "good 2")]
    yield begun("25", "a size above the end, taken", above, [0, 0, 0, 25], spare=99)


def runs():
    for part in (offset_widths, length_widths, flags, open_segments, boxes, segments, chunks, source_limit, far_offsets, source_size):
        yield from part()
