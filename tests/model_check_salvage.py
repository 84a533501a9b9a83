"""Checks the model on spoiled files whose salvage is worked out by hand: what is kept and where it goes, what is dropped
and with which number, and what is refused."""

import model
import model_salvage
from boxes import bare_head, bidx, box, entry, fidx, ftyp, full, head, lost_segment, open_segment, pfhd, ploc, pshd, sized, sized_large, surl
from expecting import expect

FREE = box(b"free")
GOOD, DAMAGED, LOST, ELSEWHERE = 0x40, 0xC0, 0x80, 0x00
LIMIT = 1_099_511_627_775
MIXED = head(brand=b"pmff")
ENOUGH = 2 ** 64 - 1


def refused(number):
    return ("refused", number)


def text_of(*lines):
    return b"".join(b"%d\t%d\n" % told for told in lines)


def expect_salvage(name, file, copy, *lines):
    """The copy byte for byte, with bytes behind it that stay, and the lines."""
    buffer = bytes(range(256)) * (len(file) // 256 + 1)
    expect(f"{name}: copy", model_salvage.salvage(file, buffer), (("length", len(copy)), copy + buffer[len(copy):]))
    expect(f"{name}: lines", model_salvage.salvage_text(file, ENOUGH), text_of(*lines))


def expect_refused(name, file, number):
    expect(f"{name}: refused", model_salvage.salvage(file, b"marks" + bytes(len(file))), (refused(number), b"marks" + bytes(len(file))))
    expect(f"{name}: line", model_salvage.salvage_text(file, ENOUGH), b"refused\t%d\n" % number)


def one_chunk(size, offset, flag_byte=GOOD, width=1, at=0, flags=0, parts=b"", front=b"", large=False):
    """A pseg of 52 bytes where the offset has one byte: one present chunk."""
    return box(b"pseg", pshd(at, flags), front, ploc(1, width, [entry(flag_byte, 1, size, width, offset)]), parts, large=large)


# What is kept, and where it goes. The head has 55 bytes, a pdat of four 12, and the pseg of one chunk 52.

def check_pulled_plug():
    whole = head() + box(b"pdat", b"abcd") + one_chunk(4, -4)
    next_one = box(b"pdat", b"EFG") + one_chunk(3, -3, at=4)
    expect("lengths", (len(head()), len(whole), len(next_one)), (55, 119, 63))
    expect_salvage("nothing wrong", whole + next_one, whole + next_one)
    for left in range(1, 63):
        place, number = (119, 2 if left < 8 else 5) if left < 11 else (130, 2 if left - 11 < 8 else 5)
        kept = whole + (next_one[:11] if left >= 11 else b"")
        lines = [] if left == 11 else [(place, number)]
        expect_salvage(f"cut after {left}", whole + next_one[:left], kept, *lines)
    for name, broken, number in [
            ("size 0", bytes(8) + next_one, 3), ("size 7", sized(7) + next_one, 4), ("large 0", sized_large(0) + next_one, 4), ("large 15", sized_large(15) + next_one, 4),
            ("a vendor's of 23", sized(23, b"uuid") + bytes(15), 4), ("a vendor's cut", sized(24, b"uuid") + bytes(15), 5), ("a large one cut", sized(1) + bytes(7), 2),
            ("pdat of size 0", sized(0, b"pdat") + b"data", 3), ("past the file", sized(ENOUGH % 2 ** 32) + next_one, 5)]:
        expect_salvage(f"nothing is kept behind {name}", whole + broken, whole, (119, number))
    expect_salvage("no segment", head() + b"\0", head(), (55, 2))
    expect("that copy", model.read(head()), refused(12))


def check_moved():
    """Offsets by the new places: data before its segment and behind it, with a dropped box in each gap."""
    data = box(b"pdat", b"abcd")
    expect_salvage("a box before both", head() + FREE + data + one_chunk(4, -4), head() + data + one_chunk(4, -4), (55, 0))
    expect_salvage("a box between", head() + data + FREE + one_chunk(4, -12), head() + data + one_chunk(4, -4), (67, 0))
    expect_salvage("a box behind", head() + data + one_chunk(4, -4) + FREE, head() + data + one_chunk(4, -4), (119, 0))
    expect_salvage("data behind, a box between", head() + one_chunk(4, 68) + FREE + data, head() + one_chunk(4, 60) + data, (107, 0))
    expect_salvage("data behind, a box before", head() + FREE + one_chunk(4, 60) + data, head() + one_chunk(4, 60) + data, (55, 0))
    expect_salvage("both sides", head() + data + FREE + one_chunk(4, -12) + FREE + one_chunk(2, 70, DAMAGED) + FREE + box(b"pdat", b"EFGH"),
                   head() + data + one_chunk(4, -4) + one_chunk(2, 62, DAMAGED) + box(b"pdat", b"EFGH"), (67, 0), (127, 0), (187, 0))
    expect_salvage("a part of it", head() + data + FREE + one_chunk(2, -11), head() + data + one_chunk(2, -3), (67, 0))
    expect_salvage("a segment between", head() + data + one_chunk(9, -4, at=7) + one_chunk(4, -56), head() + data + one_chunk(4, -4), (67, 24))
    expect_salvage("a vendor's box", head() + data + box(b"uuid", bytes(16)) + one_chunk(3, -28), head() + data + one_chunk(3, -4), (67, 0))
    gap = 31 * FREE
    for width in (2, 3, 7, 8):
        expect_salvage(f"a width of {width}", head() + data + gap + one_chunk(4, -252, width=width), head() + data + one_chunk(4, -4, width=width), *[(67 + 8 * at, 0)
                       for at in range(31)])
    spoiled, kept = [box(b"pseg", pshd(0), ploc(1, 2, [entry(GOOD, 1, 1, 2, -4), entry(LOST, 1, 9), entry(DAMAGED, 1, 2, 2, offset), entry(ELSEWHERE, 1, 5), entry(GOOD, 1, 4, 2,
    -4)])) for offset in (83, 75)]
    expect("the pseg of five chunks", len(spoiled), 65)
    expect_salvage("five chunks", head() + data + spoiled + FREE + box(b"pdat", b"xyEFzz"), head() + data + kept + box(b"pdat", b"xyEFzz"), (132, 0))


def check_empty_chunks():
    """The offset of a present chunk of size 0 is 0 in its width, whatever it was; others have none."""
    for width, junk in [(0, 0), (1, -77), (1, 0), (2, 300), (8, -2 ** 63), (8, 2 ** 63 - 1)]:
        for flag_byte in (GOOD, DAMAGED):
            expect_salvage(f"{junk} in {width}", head() + one_chunk(0, junk, flag_byte, width), head() + one_chunk(0, 0, flag_byte, width))
    expect_salvage("no width for sizes", head() + box(b"pseg", pshd(0), ploc(0, 1, [b"\x40\x7f", b"\x80", b"\x00", b"\xc0\x80"])),
                   head() + box(b"pseg", pshd(0), ploc(0, 1, [b"\x40\0", b"\x80", b"\x00", b"\xc0\0"])))
    empty = one_chunk(0, 12)
    expect_salvage("no place keeps a box", MIXED + empty + FREE, MIXED + one_chunk(0, 0), (107, 0))
    expect_salvage("an open segment", head() + open_segment(5) + FREE, head() + open_segment(5), (104, 0))
    expect_salvage("an open segment of wide fields", head() + box(b"pseg", pshd(0), ploc(8, 8, [])), head() + box(b"pseg", pshd(0), ploc(8, 8, [])))


def check_indexes():
    """Each fidx goes, and its container has its new size in the form that it had."""
    data, index = box(b"pdat", b"abcd"), fidx(bidx(8))
    expect("lengths", (len(index), len(fidx())), (24, 8))
    expect_salvage("in pfil", head(parts=index) + data + one_chunk(4, -4), head() + data + one_chunk(4, -4))
    expect("a pfil of 35 bytes", model_salvage.salvage(head(parts=index), bytes(99))[1][20:28], b"\0\0\0\x23pfil")
    expect_salvage("first in pfil, and twice", bare_head(index, surl(), fidx(), FREE), bare_head(surl(), FREE))
    expect_salvage("in a large pfil", ftyp() + box(b"pfil", pfhd(), index, surl(), large=True), ftyp() + box(b"pfil", pfhd(), surl(), large=True))
    expect_salvage("in a large form itself", ftyp() + box(b"pfil", pfhd(), surl(), box(b"fidx", large=True)), head())
    for name, front, parts, large, behind, moved in [
            ("before ploc", index, b"", False, 84, 60), ("behind it", b"", index, False, 84, 60), ("both", index, fidx(), False, 92, 60),
            ("in a large pseg", index, index, True, 116, 68)]:
        spoiled, kept = one_chunk(4, -4, front=front, parts=parts, large=large), one_chunk(4, -4, large=large)
        expect_salvage(f"{name}, data before", head() + data + spoiled, head() + data + kept)
        expect_salvage(f"{name}, data behind", head() + one_chunk(4, behind, front=front, parts=parts, large=large) + data, head() + one_chunk(4, moved, large=large) + data)
    expect_salvage("an index of its own size", head() + data + one_chunk(4, -4, parts=index) + one_chunk(4, -80, at=4), head() + data + one_chunk(4, -4) + one_chunk(4, -56, at=4))
    for number, parts in [(36, fidx(bidx(7))), (36, fidx() + fidx()), (36, fidx(b"\0")), (39, fidx(bidx(0)))]:
        file = head(parts=parts) + open_segment(3)
        expect(f"reading refuses with {number}", model.read(file), refused(number))
        expect_salvage(f"an index refused with {number}", file, head() + open_segment(3))
    both = head(parts=index) + data + one_chunk(4, -4, parts=index)
    expect("reading refuses with 38", model.read(both), refused(38))
    expect_salvage("indexes in both", both, head() + data + one_chunk(4, -4))
    covered = head(parts=box(b"free", index)) + open_segment(0, parts=box(b"free", index))
    expect_salvage("in a box that is not looked into", covered, covered)
    expect_salvage("of the file itself", head() + index, head(), (55, 0))
    expect_salvage("of a segment that is left out", head() + box(b"pseg", index), head(), (55, 14))


def check_all_else():
    """Byte for byte: flags, vendors' boxes, hints, large headers, texts, repair times, unused and empty pdat."""
    pfil = box(b"pfil", box(b"uuid", bytes(range(16))), pfhd(1), surl(b"a", b"m", large=True), surl(b"b"), box(b"ptle", b"title"), large=True)
    front = ftyp([b"isom", b"paff"], b"isom", 7, large=True) + pfil + box(b"pdat", b"") + box(b"pdat", b"abcdefgh", large=True)
    pseg = box(b"pseg", pshd(2 ** 33, 0xFFFFFE, 2 ** 64 - 1, 9, large=True), box(b"free", b"junk"), surl(b"v", b"n"),
               ploc(3, 5, [entry(DAMAGED, 3, 3, 5, -5), entry(GOOD, 3, 2, 5, -8)], large=True), box(b"uuid", bytes(16)), large=True)
    expect("it is acceptable", model.read(front + pseg)[0], "read")
    expect_salvage("a foreign file", front + pseg, front + pseg)
    located = ploc(1, 1, [entry(GOOD, 1, 0, 1, 77), entry(GOOD, 1, 4, 1, -9)])
    odd = bare_head(surl(), located, box(b"pseg", pshd(0), located, fidx())) + FREE + open_segment(0, parts=box(b"pseg", located))
    expect_salvage("a ploc in pfil and in boxes that are not looked into", odd, odd.replace(FREE, b""), (40 + 15 + 23 + 63, 0))
    expect_salvage("the same with a gap", front + FREE + pseg.replace(b"\xff\xff\xff\xff\xfb", b"\xff\xff\xff\xff\xf3").replace(b"\xff\xff\xff\xff\xf8", b"\xff\xff\xff\xff\xf0"),
                   front + pseg, (len(front), 0))


# What is dropped.

def check_numbers():
    """Each number by a segment that stands alone between two that stay; the pdat stays too."""
    data, first, last = box(b"pdat", b"abcd"), one_chunk(4, -4), open_segment(1)
    for name, pseg, number in [
            ("cut header inside", box(b"pseg", pshd(0), ploc(0, 0, []), b"\0"), 2), ("size 0 inside", box(b"pseg", pshd(0), ploc(0, 0, []), bytes(8)), 3),
            ("size 7 inside", box(b"pseg", sized(7)), 4), ("a box past it", box(b"pseg", pshd(0), sized(9)), 5),
            ("513 boxes inside", box(b"pseg", pshd(0), ploc(0, 0, []), 511 * FREE), 6), ("empty", box(b"pseg"), 14),
            ("pshd not first", box(b"pseg", ploc(0, 0, []), pshd(0)), 14), ("two pshd", box(b"pseg", pshd(0), pshd(0), ploc(0, 0, [])), 14),
            ("no ploc", box(b"pseg", pshd(0)), 15), ("two ploc", box(b"pseg", pshd(0), 2 * ploc(0, 0, [])), 15), ("bad surl", open_segment(0, parts=box(b"surl")), 16),
            ("ploc of 8", box(b"pseg", pshd(0), box(b"ploc", bytes(8))), 17), ("left over", box(b"pseg", pshd(0), ploc(1, 0, [b"\x80\x01", b"\0"], count=1)), 17),
            ("width of 9", box(b"pseg", pshd(0), ploc(9, 0, [])), 18), ("a reference", box(b"pseg", pshd(0), ploc(0, 0, [], reference=1)), 19),
            ("a reserved bit", box(b"pseg", pshd(0), ploc(1, 0, [b"\x81\x01"])), 20),
            ("1,024 chunks beside one", box(b"pseg", pshd(0), ploc(0, 0, 1_024 * [b"\x80"])), 22), ("past the limit", lost_segment(1, [LIMIT]), 23),
            ("an offset past it", open_segment(LIMIT + 1), 23), ("a chunk of the head", one_chunk(4, -55), 24), ("framing before 14", box(b"pseg", b"\0"), 2),
            ("14 before 15", box(b"pseg", FREE), 14), ("15 before 16", box(b"pseg", pshd(0), box(b"surl")), 15),
            ("16 before 17", box(b"pseg", pshd(0), box(b"ploc"), box(b"surl")), 16), ("24 before 25", one_chunk(9, -55, flags=1), 24)]:
        expect_salvage(name, head() + data + first + pseg + last, head() + data + first + last, (119, number))
    expect_salvage("1,023 chunks beside one", head() + data + first + box(b"pseg", pshd(0), ploc(0, 0, 1_023 * [b"\x80"])),
                   head() + data + first + box(b"pseg", pshd(0), ploc(0, 0, 1_023 * [b"\x80"])))
    expect_salvage("41", bare_head() + open_segment(3) + open_segment(4, parts=surl()), bare_head() + open_segment(4, parts=surl()), (40, 41))
    expect_salvage("16 before 41", bare_head() + open_segment(3, parts=box(b"surl")), bare_head(), (40, 16))
    expect_salvage("41 before 17", bare_head() + box(b"pseg", pshd(0), box(b"ploc")), bare_head(), (40, 41))
    expect_salvage("later heads", head() + ftyp() + open_segment(1) + head()[20:] + ftyp([], large=True) + box(b"pfil"), head() + open_segment(1), (55, 7), (124, 9), (159, 7), (183, 9))


def check_sizes():
    """25 beside the segments that are kept, in file order, and beside no other."""
    closed, longer, shorter = lost_segment(0, [9], flags=1), lost_segment(0, [10], flags=1), lost_segment(0, [8], flags=1)
    size = len(closed)
    expect("the length of each", size, 54)
    expect_salvage("the first size wins", head() + longer + closed + shorter + closed, head() + longer, (109, 25), (163, 25), (217, 25))
    expect_salvage("an end above it", head() + closed + lost_segment(9, [1]) + lost_segment(8, [1]) + open_segment(10) + open_segment(9),
                   head() + closed + lost_segment(8, [1]) + open_segment(9), (109, 25), (217, 25))
    expect_salvage("a size below an end", head() + lost_segment(8, [2]) + closed + longer + closed, head() + lost_segment(8, [2]) + longer, (109, 25), (217, 25))
    expect_salvage("a size below an open offset", head() + open_segment(10) + closed + longer, head() + open_segment(10) + longer, (104, 25))
    expect_salvage("an open last segment above it", head() + closed + open_segment(10, flags=1), head() + closed, (109, 25))
    expect_salvage("an open last segment says no size", head() + open_segment(3, flags=1) + closed, head() + open_segment(3, flags=1) + closed)
    left_out = box(b"pseg", pshd(0, 1), ploc(4, 0, [entry(LOST, 4, 10), b"\0"], count=1))
    expect_salvage("one left out contradicts nobody", head() + left_out + closed, head() + closed, (55, 17))
    expect_salvage("one left out by 25 contradicts nobody", head() + closed + longer + closed, head() + 2 * closed, (109, 25))
    other = lost_segment(0, [10], flags=1, parts=surl(b"v"))
    expect_salvage("another source", head() + closed + other + closed + lost_segment(10, [1], parts=surl(b"v")), head() + closed + other + closed,
                   (len(head() + closed + other + closed), 25))
    gone = head() + lost_segment(0, [10], flags=1) + b"\0" + closed
    expect_salvage("what stands behind the framing error is not there", gone, gone[:109], (109, 3))


def of_source(url, size=1):
    return lost_segment(0, [size], flags=1, parts=surl(url))


def check_sources():
    """40 for a ninth source beside eight that are kept; those that are left out have none."""
    eight = b"".join(of_source(bytes([url])) for url in b"12345678")
    length = len(of_source(b"1"))
    expect("the length of each", length, 69)
    expect_salvage("a ninth", head() + eight + of_source(b"9") + of_source(b"3"), head() + eight + of_source(b"3"), (55 + 8 * 69, 40))
    expect_salvage("that of pfil as a ninth", head() + eight + open_segment(0), head() + eight, (55 + 8 * 69, 40))
    expect_salvage("that of pfil as the eighth", head() + eight[69:] + open_segment(0) + of_source(b"9"), head() + eight[69:] + open_segment(0), (55 + 7 * 69 + 49, 40))
    seven, bad = eight[:7 * 69], lost_segment(0, [LIMIT + 1], parts=surl(b"8"))
    expect_salvage("one left out has no source", head() + bad + seven + of_source(b"9") + of_source(b"8"), head() + seven + of_source(b"9"), (55, 23), (55 + len(bad) + 8 * 69, 40))
    expect_salvage("25 and not 40", head() + eight + of_source(b"3", 2), head() + eight, (55 + 8 * 69, 25))


def check_many():
    """13 beside 64 that are kept, before all else; 22 by the chunks of those that are kept; 6 for a 513th box."""
    one = open_segment(0)
    expect_salvage("65", head() + 65 * one, head() + 64 * one, (55 + 64 * 49, 13))
    expect_salvage("65th broken inside", head() + 64 * one + box(b"pseg", b"\0") + one, head() + 64 * one, (55 + 64 * 49, 13), (55 + 64 * 49 + 9, 13))
    expect_salvage("one of the first 64 left out", head() + 3 * one + box(b"pseg") + 61 * one + one, head() + 64 * one, (55 + 3 * 49, 14), (55 + 64 * 49 + 8, 13))
    expect_salvage("one of the first 64 left out, and no more", head() + box(b"pseg", b"\0") + 64 * one, head() + 64 * one, (55, 2))
    many, left_out = lost_segment(0, 1_000 * [1]), lost_segment(0, 1_000 * [1] + [LIMIT])
    expect_salvage("chunks of one left out do not count", head() + left_out + many, head() + many, (55, 23))
    expect_salvage("1,000 and 25", head() + many + lost_segment(0, 25 * [1]) + lost_segment(0, 24 * [1]), head() + many + lost_segment(0, 24 * [1]), (55 + len(many), 22))
    full_up = head() + 510 * FREE
    lines = [(55 + 8 * at, 0) for at in range(510)]
    expect_salvage("512 boxes", full_up, head(), *lines)
    for name, more in [("a 513th", FREE), ("a 513th of size 0", bytes(8)), ("a cut 513th", b"\0"), ("many more", 99 * FREE)]:
        expect_salvage(name, full_up + more, head(), *lines, (55 + 510 * 8, 6))
    data, behind = box(b"pdat", b"abcd"), one_chunk(4, -4)
    expect_salvage("a segment as the 512th box", head() + 508 * FREE + data + behind + FREE, head() + data + behind, *lines[:508], (55 + 508 * 8 + 64, 6))
    expect_salvage("a segment as the 513th", head() + 509 * FREE + data + behind, head() + data, *lines[:509], (55 + 509 * 8 + 12, 6))


def check_places():
    """24 by the whole boxes of the old file before its framing error."""
    data = box(b"pdat", b"abcd")
    expect_salvage("data in the cut box", head() + data + box(b"pseg", pshd(0), ploc(1, 1, [entry(GOOD, 1, 4, 1, -4), entry(GOOD, 1, 2, 1, 63)])) + data[:-1], head() + data,
                   (67, 24), (122, 5))
    expect_salvage("data in a pdat behind, and an error", head() + one_chunk(4, 60) + data + b"\0", head() + one_chunk(4, 60) + data, (119, 2))
    expect_salvage("data in a pdat behind the error", head() + one_chunk(4, 69) + bytes(9) + data, head(), (55, 24), (107, 3))
    lines = [(108 + 8 * at, 0) for at in range(509)]
    expect_salvage("data as the 512th box", head() + one_chunk(4, 4_125, width=2) + 508 * FREE + data, head() + one_chunk(4, 61, width=2) + data, *lines[:508])
    expect_salvage("data as the 513th box", head() + one_chunk(4, 4_133, width=2) + 509 * FREE + data, head(), (55, 24), *lines, (108 + 509 * 8, 6))
    for name, offset in [("a header", -5), ("the byte behind", -3), ("before the file", -128), ("the pseg", 0)]:
        expect_salvage(f"a chunk over {name}", head() + data + one_chunk(4, offset), head() + data, (67, 24))
    expect_salvage("in a box that no chunk may lie in", head() + box(b"mdat", b"abcd") + one_chunk(4, -4), head(), (55, 0), (67, 24))


# Mixed files.

def check_mixed():
    whole = box(b"moof", b"abcd")
    good = one_chunk(12, -12)
    expect_salvage("a box", MIXED + whole + good, MIXED + whole + good)
    expect_salvage("a box in a file that is not mixed", head() + whole + good, head(), (55, 0), (67, 24))
    expect_salvage("a box that is damaged", MIXED + whole + one_chunk(12, -12, DAMAGED), MIXED, (55, 0), (67, 24))
    expect_salvage("damage does not keep a box that others do", MIXED + whole + one_chunk(12, -12, DAMAGED) + one_chunk(12, -64), MIXED + whole + one_chunk(12, -12), (67, 24))
    expect_salvage("a run, and beside it others", MIXED + FREE + whole + box(b"mdat", b"efgh") + FREE + one_chunk(24, -32) + FREE,
                   MIXED + whole + box(b"mdat", b"efgh") + one_chunk(24, -24), (55, 0), (87, 0), (147, 0))
    expect_salvage("behind its segment", MIXED + one_chunk(12, 60) + FREE + whole + FREE, MIXED + one_chunk(12, 52) + whole, (107, 0), (127, 0))
    expect_salvage("of no segment", MIXED + whole + lost_segment(0, [3], flags=1) + good, MIXED + lost_segment(0, [3], flags=1), (55, 0), (121, 24))
    expect_salvage("of one left out by 25", MIXED + lost_segment(0, [3], flags=1) + whole + good, MIXED + lost_segment(0, [3], flags=1), (109, 0), (121, 25))
    expect_salvage("not the whole of a box", MIXED + whole + one_chunk(4, -4), MIXED, (55, 0), (67, 24))
    expect_salvage("over a later pfil", MIXED + whole + box(b"pfil") + one_chunk(20, -20), MIXED, (55, 0), (67, 9), (75, 24))
    expect_salvage("a fidx of the file", MIXED + fidx() + one_chunk(8, -8), MIXED + fidx() + one_chunk(8, -8))
    expect_salvage("a vendor's box", MIXED + box(b"uuid", bytes(16)) + FREE + one_chunk(24, -32), MIXED + box(b"uuid", bytes(16)) + one_chunk(24, -24), (79, 0))
    expect_salvage("two chunks on a box", MIXED + whole + FREE + one_chunk(12, -20) + one_chunk(20, -72), MIXED + whole + FREE + one_chunk(12, -20) + one_chunk(20, -72))
    expect_salvage("in pdat beside", MIXED + whole + box(b"pdat", b"abcd") + one_chunk(4, -4), MIXED + box(b"pdat", b"abcd") + one_chunk(4, -4), (55, 0))
    expect_salvage("a run up to the error", MIXED + one_chunk(20, 52) + whole + FREE + b"\0", MIXED + one_chunk(20, 52) + whole + FREE, (127, 2))
    expect_salvage("a run over the error", MIXED + one_chunk(20, 52) + whole + FREE[:-1], MIXED, (55, 24), (107, 0), (119, 2))
    for flag_byte in (LOST, ELSEWHERE):
        far = lost_segment(0, [9_999], flag_byte=flag_byte)
        expect_salvage(f"chunks that are not present ({flag_byte}) lie nowhere", MIXED + far + whole, MIXED + far, (109, 0))
    both = ftyp([b"paff", b"pmff"]) + MIXED[20:]
    expect_salvage("both brands", both + whole + one_chunk(12, -12), both + whole + one_chunk(12, -12))


# Refusals.

def check_first_two():
    """2 to 11 of the first two boxes alone."""
    bad, right = box(b"free"), head()
    pfil = right[20:]
    for name, file, number in [
            ("nothing", b"", 7), ("one byte", b"\0", 2), ("ftyp alone", ftyp(), 9), ("ftyp twice", ftyp() + ftyp(), 7), ("pfil first", pfil + ftyp(), 7),
            ("another first", bad + pfil, 7), ("another first, alone", bad, 7), ("a cut first", ftyp()[:-1], 5), ("a cut second", right[:-1], 5),
            ("a wrong first and a cut second", bad + pfil[:-1], 5), ("a wrong first and size 0", bad + bytes(8), 3), ("no brand and a cut second", ftyp([]) + b"\0", 2),
            ("ftyp of 4", box(b"ftyp", b"paff") + pfil, 7), ("ftyp of 13", box(b"ftyp", bytes(8), b"paff\0") + pfil, 7), ("no brand", ftyp([]) + pfil, 8),
            ("no brand, alone", ftyp([]), 8), ("no brand, and another second", ftyp([]) + bad, 8), ("another second", ftyp() + bad + pfil, 9),
            ("pfil third", ftyp() + open_segment(0) + pfil, 9), ("cut inside pfil", ftyp() + box(b"pfil", pfhd(), surl(), b"\0"), 2),
            ("size 0 in pfil", ftyp() + box(b"pfil", bytes(8)), 3), ("size 7 in pfil", ftyp() + box(b"pfil", sized(7)), 4),
            ("past pfil", ftyp() + box(b"pfil", sized(9)), 5), ("513 in pfil", ftyp() + box(b"pfil", pfhd(), surl(), 511 * FREE), 6),
            ("no pfhd", ftyp() + box(b"pfil", surl()), 10), ("two pfhd", bare_head(pfhd(), surl()), 10),
            ("pfhd of version 1", ftyp() + box(b"pfil", box(b"pfhd", full(1)), surl()), 10), ("10 before 11", ftyp() + box(b"pfil", box(b"surl")), 10),
            ("a bad surl", bare_head(box(b"surl")), 11), ("a bad surl and an error behind", bare_head(surl(), box(b"surl")) + b"\0", 11),
            ("framing of pfil before 10", ftyp() + box(b"pfil", surl(), b"\0"), 2), ("a large size cut", ftyp() + sized(1, b"pfil") + bytes(7), 2),
            ("a vendor's first", sized(20, b"uuid") + bytes(12) + pfil, 4)]:
        expect_refused(name, file, number)
    expect_salvage("no surl in pfil", bare_head(), bare_head())
    expect_salvage("512 boxes in pfil", bare_head(surl(), 510 * FREE), bare_head(surl(), 510 * FREE))
    expect_salvage("faults of later ones refuse nothing", right + ftyp([]) + ftyp()[:-1], right, (55, 7), (71, 5))


def check_rooms():
    """33 after all others, and a limit for the program's input before."""
    file, copy = head() + FREE + open_segment(1), head() + open_segment(1)
    for room in (0, 1, 55, 103):
        expect(f"a buffer of {room}", model_salvage.salvage(file, b"x" * room), (refused(33), b"x" * room))
    for room in (104, 105, 112, 999):
        expect(f"a buffer of {room}", model_salvage.salvage(file, b"x" * room), (("length", 104), copy + b"x" * (room - 104)))
    expect("no buffer for a file that is refused", model_salvage.salvage(ftyp(), b""), (refused(9), b""))
    for most, wanted in [(112, b"55\t0\n"), (111, b"refused\t27\n"), (0, b"refused\t27\n"), (ENOUGH, b"55\t0\n")]:
        expect(f"at most {most}", model_salvage.salvage_text(file, most), wanted)
    expect("27 before all others", model_salvage.salvage_text(b"\0", 0), b"refused\t27\n")
    expect("an empty input", model_salvage.salvage_text(b"", 0), b"refused\t7\n")
    expect("nothing dropped", model_salvage.salvage_text(copy), b"")
    long = head() + box(b"pdat", bytes(65_536 - 63)) + FREE
    expect("the program's limit", [model_salvage.salvage_text(long[:-8]), model_salvage.salvage_text(long)], [b"", b"refused\t27\n"])


def check_largest():
    """A file over its limit, and the longest text that there is: 510 segments left out behind ten digits, and a 513th
    box."""
    zeros = bytes(1_073_741_825)
    expect("a file over its limit", model_salvage.salvage(zeros, b"x"), (refused(1), b"x"))
    expect("its line", [model_salvage.salvage_text(zeros, ENOUGH), model_salvage.salvage_text(zeros)], [b"refused\t1\n", b"refused\t27\n"])
    expect("a file at its limit", model_salvage.salvage(zeros[:-1], b"x"), (refused(3), b"x"))
    del zeros
    free = sized(10 ** 9 - 55) + bytes(10 ** 9 - 63)
    pfil = sized(10 ** 9 - 20, b"pfil") + pfhd() + surl() + free
    text = model_salvage.salvage_text(ftyp() + pfil + 510 * box(b"pseg") + b"\0", ENOUGH)
    expect("the longest text", (len(text), text[:14], text[-27:]), (7_153, b"1000000000\t14\n", b"1000004072\t14\n1000004080\t6\n"))


def check():
    for step in (check_pulled_plug, check_moved, check_empty_chunks, check_indexes, check_all_else, check_numbers, check_sizes, check_sources, check_many, check_places, check_mixed,
                 check_first_two, check_rooms, check_largest):
        step()
