"""Checks the model on the paper's own numbers, and its writer against its reader."""

import os
import random

import model
import model_check_index
import model_check_salvage
import model_check_sources
import salvage_properties
from boxes import box, entry, ftyp, full, head, lost_segment, open_segment, pfhd, ploc, pshd, surl
from expecting import close, expect
from model import PAFF, PMFF

LIMIT = 1_099_511_627_775
WIDE = 4_294_967_296
P1 = bytes.fromhex("00 00 00 14 70 6c 6f 63 00 00 00 00 11 00 00 00 01 40 05 fb")
P2 = bytes.fromhex("00 00 00 14 70 6c 6f 63 00 00 00 00 20 00 00 00 01 80 01 2c")


def refused(number):
    return ("refused", number)


def begun(url=b"a", mime=b"", brand=PAFF):
    answer, file = model.begin(bytes(54 + len(url) + len(mime)), brand, url, mime)
    return file


def appended(file, source_offset, chunk_list, data, last=False, repair_time=0, outside=False, texts=b"", lengths=()):
    """The file after an append with room to spare, cut to its new length."""
    buffer = file + bytes(200 + 20 * len(chunk_list) + len(data) + len(texts) + 14 * len(lengths))
    answer, buffer = model.append(
        buffer, len(file), source_offset, repair_time, last, outside, chunk_list, data, texts, lengths)
    assert answer[0] == "length", answer
    return buffer[:answer[1]]


def segment_of(ploc_bytes, data, offset=0, flags=0):
    """A file with its data in one pdat that ends where its pseg begins."""
    pdat = box(b"pdat", data) if data else b""
    return head() + pdat + box(b"pseg", pshd(offset, flags), ploc_bytes)


def place_of_pseg(data):
    return len(head()) + (8 + len(data) if data else 0)


def texts_of(file):
    """The map, and the one that does not name damage."""
    return [model.map_text(file), model.missmap_text(file)]


# The paper's numbers.

def check_p1_to_p7():
    expect("P1", model.read(segment_of(P1, b"abcde"))[2],
           [(0, 0, 0, 5, 2, place_of_pseg(b"abcde") - 5)])
    expect("P1 served", model.serve(segment_of(P1, b"abcde"), 0), (len(head()) + 8, 5))
    expect("P2", model.read(segment_of(P2, b""))[2], [(0, 0, 0, 300, 0, 0)])
    expect("P3", model.signed(bytes.fromhex("80"), 0, 1), -128)
    expect("P4", model.signed(bytes.fromhex("7f"), 0, 1), 127)
    expect("P5", model.signed(bytes.fromhex("ff7f"), 0, 2), -129)
    expect("P6", model.least_signed_width(-128), 1)
    expect("P7", model.least_signed_width(-129), 2)
    for length, entry_length, widths in [(128, 3, 0x11), (129, 4, 0x12)]:
        file = appended(begun(), 0, [length, 2], bytes(length))
        expect(f"widths for an offset of -{length}", file[-5 - entry_length], widths)


def check_p8():
    answer, file = model.begin(bytes(60), PAFF, b"a", b"")
    expect("P8 length", answer, ("length", 55))
    expect("P8 end", file[40:55].hex(" "), "00 00 00 0f 73 75 72 6c 00 00 00 00 61 00 00")
    expect("P8 past the end", file[55:], bytes(5))
    expect("P8 front", file[:40], ftyp() + bytes.fromhex("00000023") + b"pfil" + pfhd())


def check_p9_and_p10():
    p9 = appended(begun(), 0, [4, 2, 6, 0], b"abcd", last=True)
    expect("P9", model.lists(p9), ("lists", [(0, 4)], [(4, 6)], 4, 6))
    p10 = appended(p9, 2, [5, 2], b"CDEFG")
    expect("P10 lists", model.lists(p10), ("lists", [(0, 7)], [(7, 3)], 7, 3))
    place, length = model.serve(p10, 2)
    expect("P10 2 and 3 from the first", p10[place:place + length], b"cd")
    place, length = model.serve(p10, 4)
    expect("P10 4 to 6 from the second", p10[place:place + length], b"EFG")
    expect("P10 asked", [model.ask(p10, p) for p in (0, 4, 7, 9, 10)],
           [("served", 4), ("served", 3), ("missing", 3), ("missing", 1), ("beyond",)])
    expect("P10 map", model.missmap_text(p10),
           b"source\t10\tclosed\nhave\t0\t7\nmiss\t7\t3\ntotal\t7\t3\n")
    expect("P10 map with names", model.map_text(p10),
           b"source\t10\tclosed\nhave\t0\t7\nlost\t7\t3\ntotal\t7\t0\t3\n")


def sample(name):
    path = os.path.join(os.path.dirname(os.path.abspath(__file__)), "..", "samples", name)
    with open(path, "rb") as file:
        return file.read()


def check_lesson():
    """The first sample of the repository is P10's file, with data that tell the two segments apart."""
    first = appended(begun(), 0, [4, 2, 6, 0], bytes([11, 12, 13, 14]), last=True)
    expect("lesson.paff", sample("lesson.paff"), appended(first, 2, [5, 2], bytes([21, 22, 23, 24, 25])))


def check_damaged():
    """The second one, by hand: chunks of each state, then damage over good bytes and beside them, good bytes over
    damage and lost ones, and damage over lost ones."""
    first = [entry(0x40, 1, 6, 1, -14), entry(0xC0, 1, 5, 1, -8), entry(0x80, 1, 4), entry(0x00, 1, 2), entry(0x40, 1, 3, 1, -3)]
    file = head(b"a") + box(b"pdat", bytes(range(11, 25))) + box(b"pseg", pshd(0, 1), ploc(1, 1, first))
    for offset, flag_byte, size, data in [(4, 0xC0, 4, 31), (9, 0x40, 3, 41), (13, 0xC0, 2, 51)]:
        file += box(b"pdat", bytes(range(data, data + size))) + box(b"pseg", pshd(offset), ploc(1, 1, [entry(flag_byte, 1, size, 1, -size)]))
    expect("damaged.paff", sample("damaged.paff"), file)
    written = appended(begun(), 0, [6, 2, 5, 1, 4, 0, 2, 3, 3, 2], bytes(range(11, 25)), last=True)
    for offset, state, size, data in [(4, 1, 4, 31), (9, 2, 3, 41), (13, 1, 2, 51)]:
        written = appended(written, offset, [size, state], bytes(range(data, data + size)))
    expect("damaged.paff by append", written, file)


def check_p11_and_p12():
    file = head() + open_segment(100)
    expect("P11 length", model.length(file), ("length", 100, False))
    expect("P11 missing", model.lists(file), ("lists", [], [(0, 100)], 0, 100))
    expect("P11 appended", appended(head(), 100, [], b""), file)
    expect("P12", model.read(b""), refused(7))
    expect("P12 maps", texts_of(b""), 2 * [b"refused\t7\n"])


def check_limits():
    expect("end at the limit", model.length(head() + lost_segment(0, [LIMIT])),
           ("length", LIMIT, False))
    for offset, sizes in [(0, [LIMIT, 1]), (1, [LIMIT]), (LIMIT, [1])]:
        expect(f"end past the limit from {offset}",
               model.read(head() + lost_segment(offset, sizes)), refused(23))
    expect("offset at the limit", model.length(head() + open_segment(LIMIT)),
           ("length", LIMIT, False))
    expect("offset past the limit", model.read(head() + open_segment(LIMIT + 1)), refused(23))
    expect("64 segments", len(model.read(head() + 64 * open_segment(0))[1]), 64)
    expect("65 segments", model.read(head() + 65 * open_segment(0)), refused(13))
    expect("1,024 chunks", len(model.read(head() + lost_segment(0, 1024 * [1]))[2]), 1024)
    expect("1,025 chunks", model.read(head() + lost_segment(0, 1025 * [1])), refused(22))
    expect("file over its limit", model.read(bytes(1_073_741_825)), refused(1))
    expect("file at its limit", model.read(bytes(1_073_741_824)), refused(3))
    expect("input over its limit", texts_of(bytes(65_537)), 2 * [b"refused\t27\n"])
    expect("input at its limit", texts_of(bytes(65_536)), 2 * [b"refused\t3\n"])


def check_box_counts():
    free = box(b"free")
    in_file = head() + open_segment(7)
    expect("512 boxes in the file", model.length(in_file + 509 * free), ("length", 7, False))
    expect("513 boxes in the file", model.length(in_file + 510 * free), refused(6))
    for count, wanted in [(510, ("length", 7, False)), (511, refused(6))]:
        pfil = box(b"pfil", pfhd(), surl(), count * free)
        expect(f"{count + 2} boxes in pfil",
               model.length(ftyp() + pfil + open_segment(7)), wanted)
        pseg = box(b"pseg", pshd(7), ploc(0, 0, []), count * free)
        expect(f"{count + 2} boxes in pseg", model.length(head() + pseg), wanted)


# Order of refusals, and the errors this trade makes.

def expect_at_each_end(name, tail, number):
    """The same bytes at the end of the file, of pfil and of a pseg."""
    expect(f"{name} in the file", model.read(tail), refused(number))
    pfil = box(b"pfil", tail)
    expect(f"{name} in pfil", model.read(ftyp() + pfil), refused(number))
    pseg = box(b"pseg", tail)
    expect(f"{name} in pseg", model.read(head() + pseg), refused(number))


def check_framing_order():
    for name, tail, number in [
            ("one byte", b"\0", 2), ("seven bytes", bytes(7), 2), ("size 0", bytes(8), 3),
            ("large size cut", bytes.fromhex("00000001") + b"free" + bytes(7), 2),
            ("large size 0", bytes.fromhex("00000001") + b"free" + bytes(8), 4),
            ("large size 15", bytes.fromhex("00000001") + b"free" + bytes(7) + b"\x0f", 4),
            ("size 7", bytes.fromhex("00000007") + b"free", 4),
            ("size 9 of 8", bytes.fromhex("00000009") + b"free", 5)]:
        expect_at_each_end(name, tail, number)
    expect("513th box cut short", model.read(512 * box(b"free") + b"\0"), refused(6))


def check_entry_order():
    for name, ploc_bytes, number in [
            ("18 before 19", ploc(9, 0, [], reference=1), 18),
            ("19 before 22", ploc(0, 0, [], count=1025, reference=1), 19),
            ("22 before 17", ploc(0, 0, [], count=1025), 22),
            ("17 for the flag byte", ploc(1, 0, [], count=1), 17),
            ("20 before 17, neither bit", ploc(1, 0, [b"\x01"]), 20),
            ("20 before 17", ploc(1, 0, [b"\x81"]), 20),
            ("17 for the rest", ploc(8, 0, [b"\x80" + b"\xff" * 7]), 17),
            ("17 for the rest, held elsewhere", ploc(1, 0, [b"\x00"]), 17),
            ("17 before 23, held elsewhere", ploc(8, 0, [b"\x00" + b"\xff" * 7]), 17),
            ("23, held elsewhere", ploc(8, 8, [b"\x00" + b"\xff" * 8]), 23),
            ("23 before 24", ploc(8, 1, [b"\x40" + b"\xff" * 9]), 23),
            ("24 before left over", ploc(1, 1, [entry(0x40, 1, 1, 1, 0), b"\0"], count=1), 24),
            ("left over", ploc(1, 1, [entry(0x80, 1, 1), b"\0"], count=1), 17),
            ("left over, open", ploc(0, 0, [b"\0"], count=0), 17)]:
        expect(name, model.read(segment_of(ploc_bytes, b"abc")), refused(number))


def check_errors_of_the_trade():
    data = b"abcdef"
    for offset, wanted in [(-6, "read"), (-7, "refused"), (-5, "refused"), (6, "refused")]:
        located = ploc(1, 1, [entry(0x40, 1, 6, 1, offset)])
        expect(f"6 bytes at {offset}", model.read(segment_of(located, data))[0], wanted)
    damaged = segment_of(ploc(1, 1, [entry(0xC0, 1, 6, 1, -6)]), data)
    expect("damaged is missing", model.lists(damaged), ("lists", [], [(0, 6)], 0, 6))
    expect("open last segment is no end",
           model.length(head() + open_segment(5, flags=1) + lost_segment(0, [9])),
           ("length", 9, False))
    expect("open offset above the known size",
           model.length(head() + open_segment(10) + lost_segment(0, [9], flags=1)), refused(25))
    wild = segment_of(ploc(1, 8, [entry(0x40, 1, 0, 8, -2 ** 63)]), b"")
    expect("size 0 has no place", model.read(wild)[2], [(0, 0, 0, 0, 2, 0)])
    two = box(b"pfil", pfhd(), box(b"pfhd", full(1)), surl())
    expect("two pfhd, one ill-formed", model.read(ftyp() + two), refused(10))


def check_rooms():
    p9 = appended(begun(), 0, [4, 2, 6, 0], b"abcd", last=True)
    expect("tables that just hold", model.read(p9, 8, 12)[0], "read")
    expect("segment table too short", model.read(p9, 7, 12), refused(26))
    expect("chunk table too short", model.read(p9, 8, 11), refused(26))
    expect("had list too short", model.lists(p9, 8, 12, 1, 2), refused(26))
    expect("missing list too short", model.lists(p9, 8, 12, 2, 1), refused(26))
    expect("lists that just hold", model.lists(p9, 8, 12, 2, 2)[0], "lists")
    expect("not served", model.serve(p9, 0, 7, 12), (0, 0))
    expect("asked", model.ask(p9, 0, 7, 12), refused(26))


def check_append_order():
    file = begun()
    closed = appended(file, 0, [4, 2], b"abcd", last=True)
    for name, given, number in [
            ("30", (file, 56, 0, 0, False, False, [1], b""), 30),
            ("own refusal", (file, 54, 0, 0, False, False, [1], b""), 5),
            ("31 odd", (file, 55, 0, 0, False, False, [1], b"x"), 31),
            ("31 size 0", (file, 55, 0, 0, False, False, [0, 0], b"x"), 31),
            ("31 state 4", (file, 55, 0, 0, False, False, [1, 4], b"x"), 31),
            ("31 size 0, held elsewhere", (file, 55, 0, 0, False, False, [0, 3], b""), 31),
            ("31 state 4 behind state 3", (file, 55, 0, 0, False, False, [1, 3, 1, 4], b""), 31),
            ("32, held elsewhere", (file, 55, 0, 0, False, False, [1, 3], b"x"), 32),
            ("32", (file, 55, LIMIT + 1, 0, False, False, [1, 0], b"x"), 32),
            ("32, open", (file, 55, 0, 0, False, False, [], b"x"), 32),
            ("22 before 23", (file, 55, LIMIT + 1, 0, False, False, 1025 * [1, 0], b""), 22),
            ("22 past 16 bits", (file, 55, 0, 0, False, False, 65_536 * [1, 0], b""), 22),
            ("23 offset", (file, 55, 2 ** 64 - 1, 0, False, False, [], b""), 23),
            ("23 size", (file, 55, 0, 0, False, False, [2 ** 64 - 1, 0], b""), 23),
            ("25 end", (closed, len(closed), 1, 0, False, False, [4, 0], b""), 25),
            ("25 open", (closed, len(closed), 5, 0, True, False, [], b""), 25),
            ("25 differ", (closed, len(closed), 1, 0, True, False, [2, 0], b""), 25),
            ("33", (file, 55, 0, 0, False, False, [], b""), 33)]:
        expect(name, model.append(*given), (refused(number), given[0]))
    full_of_boxes = file + 456 * box(b"free") + 52 * box(b"pdat")
    expect("511 boxes and two more", model.append(
        full_of_boxes + box(b"free"), len(full_of_boxes) + 8, 0, 0, False, False, [1, 2], b"x")[0],
        refused(6))
    expect("511 boxes and one more", model.append(
        full_of_boxes + box(b"free") + bytes(49), len(full_of_boxes) + 8, 0, 0, False, False, [], b"")[0],
        ("length", len(full_of_boxes) + 8 + 49))
    many = file + 64 * open_segment(0)
    expect("a 65th segment", model.append(many, len(many), 0, 0, False, False, [], b"")[0], refused(13))
    expect("34 before 33", model.begin(b"", PAFF, b"a\0", b""), (refused(34), b""))
    expect("begin 33", model.begin(bytes(54), PAFF, b"a", b""), (refused(33), bytes(54)))


def check_lowered_file_limit():
    """The order of 1 in begin and append, with a limit that a short file passes."""
    held = model.LIMITS["file"]
    model.LIMITS["file"] = 104
    expect("begin 34 before 1", model.begin(b"", PAFF, 99 * b"\0", b"")[0], refused(34))
    expect("begin 1 before 33", model.begin(b"", PAFF, 51 * b"a", b"")[0], refused(1))
    expect("begin at the limit", model.begin(bytes(104), PAFF, 50 * b"a", b"")[0], ("length", 104))
    file = begun()
    expect("append at the limit", model.append(
        file + bytes(49), 55, 0, 0, False, False, [], b"")[0], ("length", 104))
    expect("32 before 1", model.append(file, 55, 0, 0, False, False, [9, 0], b"x")[0], refused(32))
    expect("1 before 22, 23 and 33", model.append(
        file, 55, LIMIT + 1, 0, False, False, 1025 * [1, 0], b"")[0], refused(1))
    expect("the file's own 1", model.append(
        bytes(105), 105, 0, 0, False, False, [1], b"")[0], refused(1))
    model.LIMITS["file"] = held


# Vendor boxes, and the list of boxes.

def check_vendor_framing():
    """4 below 24, or below 32 in the large form, however much is left; 5 where the container ends in the user type."""
    for size, left, number in [
            (0, 24, 3), (2, 8, 4), (7, 24, 4), (8, 8, 4), (8, 24, 4), (9, 9, 4), (16, 16, 4), (17, 40, 4), (20, 8, 4), (20, 19, 4), (20, 20, 4), (20, 40, 4),
            (23, 8, 4), (23, 23, 4), (23, 24, 4), (24, 8, 5), (24, 9, 5), (24, 23, 5), (25, 24, 5), (31, 30, 5), (2 ** 32 - 1, 24, 5), (24, 7, 2)]:
        tail = size.to_bytes(4, "big") + b"uuid" + 40 * b"\x08"
        expect_at_each_end(f"uuid of size {size} with {left} bytes left", tail[:left], number)
    for size, left, number in [
            (32, 8, 2), (0, 15, 2), (0, 32, 4), (15, 16, 4), (16, 16, 4), (24, 24, 4), (31, 16, 4), (31, 31, 4), (31, 56, 4), (32, 16, 5), (32, 17, 5),
            (32, 31, 5), (33, 32, 5), (2 ** 64 - 1, 32, 5)]:
        tail = bytes([0, 0, 0, 1]) + b"uuid" + size.to_bytes(8, "big") + 40 * b"\x08"
        expect_at_each_end(f"uuid of large size {size} with {left} bytes left", tail[:left], number)


def check_vendor_boxes():
    """The user type is header, other boxes have none, and a vendor's box is a box but of no kind that is known."""
    known = b"pseg" + bytes.fromhex("00110010800000aa00389b71")
    for name, vendor, body in [
            ("24 bytes", box(b"uuid", known), 24), ("25 bytes", box(b"uuid", known, b"x"), 24),
            ("32 bytes, large", box(b"uuid", known, large=True), 32), ("40 bytes, large", box(b"uuid", known, bytes(8), large=True), 32)]:
        expect(f"uuid of {name}", model.frame(vendor, 0, len(vendor)), [(b"uuid", 0, known, body, len(vendor))])
        for container, file in [
                ("the file", head() + vendor + open_segment(7)), ("pfil", ftyp() + box(b"pfil", pfhd(), vendor, surl()) + open_segment(7)),
                ("a pseg", head() + box(b"pseg", pshd(7), vendor, ploc(0, 0, [])))]:
            expect(f"uuid of {name} in {container}", model.length(file), ("length", 7, False))
        expect(f"uuid of {name} and no pseg", model.read(head() + vendor), refused(12))
        expect(f"uuid of {name} before pshd", model.read(head() + box(b"pseg", vendor, pshd(7))), refused(14))
    expect("user type of another box", model.frame(box(b"free", known), 0, 24), [(b"free", 0, b"", 8, 24)])
    vendors = 510 * box(b"uuid", known)
    expect("512 boxes, 509 of them a vendor's", model.length(head() + open_segment(7) + vendors[24:]), ("length", 7, False))
    expect("513 boxes, 510 of them a vendor's", model.length(head() + open_segment(7) + vendors), refused(6))


def check_boxes_text():
    """By hand: place, size, type and user type, and where the framing breaks off its place and the number."""
    begun_lines = b"0\t20\tftyp\n20\t35\tpfil\n"
    expect("boxes of nothing", model.boxes_text(b""), b"")
    expect("boxes of a file begun", model.boxes_text(begun()), begun_lines)
    vendors = box(b"uuid", bytes(range(16))) + box(b"uuid", bytes(range(240, 256)), b"x", large=True)
    vendor_lines = b"55\t24\tuuid\t000102030405060708090a0b0c0d0e0f\n79\t33\tuuid\tf0f1f2f3f4f5f6f7f8f9fafbfcfdfeff\n"
    expect("boxes of vendors", model.boxes_text(begun() + vendors), begun_lines + vendor_lines)
    for kind, shown in [(b"\x1f ~\x7f", rb"\x1f ~\x7f"), (rb"\x41", rb"\x41"), (b"\t\n\r\0", rb"\x09\x0a\x0d\x00"), (b"\xa9nam", rb"\xa9nam"),
                        (b"\xff\x80ZZ", rb"\xff\x80ZZ"), (b"UUID", b"UUID"), (b"uui\0", rb"uui\x00")]:
        expect(f"boxes of type {kind}", model.boxes_text(box(kind, bytes(16))), b"0\t24\t" + shown + b"\n")
    free = box(b"free")
    for tail, number in [
            (b"\0", 2), (bytes(8) + free, 3), (bytes([0, 0, 0, 20]) + b"uuid" + bytes(12) + free, 4), (bytes([0, 0, 0, 24]) + b"uuid" + free, 5)]:
        expect(f"boxes before {number}", model.boxes_text(begun() + tail), begun_lines + b"55\t%d\n" % number)
    lines = b"".join(b"%d\t8\tfree\n" % (8 * at) for at in range(512))
    expect("512 boxes listed", model.boxes_text(512 * free), lines)
    for name, more in [("513th box", free), ("513th box cut short", b"\0")]:
        expect(f"{name} listed", model.boxes_text(512 * free + more), lines + b"4096\t6\n")
    expect("no other fault", model.boxes_text(box(b"pfil", b"\0") + box(b"ftyp")), b"0\t9\tpfil\n9\t8\tftyp\n")


def check_boxes_limits():
    expect("boxes of an input over its limit", model.boxes_text(bytes(65_537)), b"refused\t27\n")
    expect("boxes of an input at its limit", model.boxes_text(bytes(65_536)), b"0\t3\n")
    expect("boxes of 55 bytes of 54", model.boxes_text(begun(), 54), b"refused\t27\n")
    expect("boxes of 55 bytes of 55", model.boxes_text(begun(), 55), b"0\t20\tftyp\n20\t35\tpfil\n")
    over = bytes(1_073_741_825)
    expect("boxes of a file over its limit", model.boxes_text(over, 2 ** 64 - 1), b"refused\t1\n")
    expect("27 before 1", model.boxes_text(over, 1_073_741_824), b"refused\t27\n")


# Mixed files.

MIXED_FTYP = ftyp([PMFF], PMFF)
MOOF, MDAT = box(b"moof", b"0123456789"), box(b"mdat", b"abcd", large=True)


def behind_boxes(boxes, size, offset, flag_byte=0x40, brands=(PMFF,)):
    """A file of one chunk, with these boxes in front of its segment."""
    segment = box(b"pseg", pshd(0), ploc(2, 2, [entry(flag_byte, 2, size, 2, offset)]))
    return ftyp(brands) + box(b"pfil", pfhd(), surl()) + boxes + segment


def check_brands():
    """8 only if neither brand is there, and the major brand is none of them; with both the mixed rules hold."""
    outside = (MOOF, 18, -18)
    for name, brands, number in [("pmff", [PMFF], 0), ("paff", [PAFF], 24), ("none", [], 8), ("isom", [b"isom"], 8), ("pmff across two", [b"\0\0pm", b"ff\0\0"], 8),
                                 ("Pmff", [b"Pmff"], 8), ("both", [PAFF, PMFF], 0), ("both, turned", [PMFF, b"isom", PAFF], 0), ("third", [b"isom", b"iso6", PMFF], 0)]:
        answer = model.read(behind_boxes(*outside, brands=brands))
        expect(f"brands {name}", answer[1] if answer[0] == "refused" else 0, number)
    major = ftyp([PAFF], major=PMFF) + behind_boxes(*outside)[20:]
    expect("pmff the major brand alone", model.read(major), refused(24))


def check_outside_places():
    """By hand: which stretches of MOOF (18 bytes), MDAT (20 bytes, large) and the boxes beside them a good chunk may
    be."""
    pdat = box(b"pdat", MOOF)
    four = MOOF + pdat + MDAT + MOOF
    for name, boxes, size, offset, wanted in [
            ("one box", MOOF, 18, -18, True), ("the first of two", MOOF + MDAT, 18, -38, True), ("the second of two", MOOF + MDAT, 20, -20, True),
            ("two boxes", MOOF + MDAT, 38, -38, True), ("one and a half", MOOF + MDAT, 28, -38, False), ("a half and one", MOOF + MDAT, 30, -30, False),
            ("one byte more", MOOF + MDAT, 19, -38, False), ("one byte less", MOOF, 17, -18, False), ("without its first byte", MOOF, 17, -17, False),
            ("its header", MOOF, 8, -18, False), ("its body", MOOF, 10, -10, False), ("to the pseg and over its header", MOOF, 26, -18, False),
            ("nothing of a box", MOOF, 1, -19, False), ("a pdat in the run", four, 82, -82, False), ("a pdat at the front of the run", four, 64, -64, False),
            ("a pdat at the end of the run", four, 44, -82, False), ("beside a pdat", four, 38, -38, True), ("before a pdat", four, 18, -82, True),
            ("a whole pdat", pdat, 26, -26, False), ("a box in a pdat", pdat, 18, -18, True), ("a part of a box in a pdat", pdat, 9, -12, True),
            ("a box in a box", box(b"free", MOOF), 18, -18, False), ("a box of 8 bytes", box(b"free"), 8, -8, True),
            ("a box of 16 bytes, large", box(b"free", large=True), 16, -16, True)]:
        expect(f"a good chunk as {name}", model.read(behind_boxes(boxes, size, offset))[0], "read" if wanted else "refused")
        damaged = model.read(behind_boxes(boxes, size, offset, 0xC0))
        inside = "in a pdat" in name
        expect(f"a damaged chunk as {name}", damaged[0] if inside else damaged, "read" if inside else refused(24))
        expect(f"without the brand, {name}", model.read(behind_boxes(boxes, size, offset, brands=[PAFF]))[0], "read" if inside else "refused")


def check_outside_kinds():
    """Every type but four, boxes behind the segment, and chunks that share boxes."""
    for kind in (b"free", b"uuid", b"surl", b"ploc", b"pshd", b"pfhd", b"fidx", b"dref", b"FTYP", bytes(4)):
        content = box(kind, bytes(16))
        expect(f"a good chunk of type {kind}", model.read(behind_boxes(content, 24, -24))[0], "read")
    for place, size, kind in [(0, 20, "ftyp"), (20, 35, "pfil"), (0, 55, "ftyp and pfil"), (20, 53, "pfil and a box"), (73, 54, "its own pseg")]:
        found = model.read(behind_boxes(MOOF, size, place - 73))
        expect(f"a good chunk that is {kind}", found, refused(24))
    entries = [entry(0x40, 1, 18, 1, -38), entry(0x40, 1, 38, 1, -38), entry(0xC0, 1, 0, 1, 0), entry(0x40, 1, 20, 1, 61)]
    segment = box(b"pseg", pshd(0), ploc(1, 1, entries))
    expect("the segment's length", len(segment), 61)
    file = MIXED_FTYP + box(b"pfil", pfhd(), surl()) + MOOF + MDAT + segment + MDAT
    expect("shared boxes, and one behind", model.read(file)[2],
           [(0, 0, 0, 18, 2, 55), (0, 1, 18, 38, 2, 55), (0, 2, 56, 0, 1, 0), (0, 3, 56, 20, 2, 154)])
    expect("served from a box", model.serve(file, 20), (57, 36))
    expect("1 byte served at its end", model.serve(file, 75), (173, 1))


def check_mixed_writer():
    """By hand: what begin and append write of a mixed file, and that nothing changes without the argument."""
    expect("begun mixed", begun(brand=PMFF), MIXED_FTYP + begun()[20:])
    expect("begun mixed, refused", [model.begin(bytes(room), PMFF, url, b"")[0] for room, url in [(54, b"a"), (54, b"a\0"), (55, b"a")]],
           [refused(33), refused(34), ("length", 55)])
    chunk_list, data = [20, 2, 3, 1, 7, 0, 18, 2, 2, 1], MDAT + b"xyz" + MOOF + b"pq"
    entries = [entry(0x40, 1, 20, 1, -38), entry(0xC0, 1, 3, 1, -43), entry(0x80, 1, 7), entry(0x40, 1, 18, 1, -18), entry(0xC0, 1, 2, 1, -40)]
    wanted = begun(brand=PMFF) + box(b"pdat", b"xyzpq") + MDAT + MOOF + box(b"pseg", pshd(4, 1, 9), ploc(1, 1, entries))
    expect("all states outside", appended(begun(brand=PMFF), 4, chunk_list, data, True, 9, outside=True), wanted)
    expect("none damaged", appended(begun(brand=PMFF), 0, [18, 2, 20, 2], MOOF + MDAT, outside=True),
           begun(brand=PMFF) + MOOF + MDAT + box(b"pseg", pshd(0), ploc(1, 1, [entry(0x40, 1, 18, 1, -38), entry(0x40, 1, 20, 1, -20)])))
    for size, width in [(128, 1), (129, 2)]:
        file = appended(begun(brand=PMFF), 0, [size, 2], box(b"free", bytes(size - 8)), outside=True)
        expect(f"widths for {size} bytes outside", file[-7 - width], 0x10 + width)
    for outside in (False, True):
        for chunk_list, data in [([], b""), ([5, 0], b""), ([3, 1, 4, 0], b"abc")]:
            expect(f"no good chunk, {chunk_list} {outside}", appended(begun(), 1, chunk_list, data, outside=outside), appended(begun(), 1, chunk_list, data))
    for brand in (PAFF, PMFF):
        inside = appended(begun(), 0, [18, 2, 1, 1], MOOF + b"x")[55:]
        expect(f"inside, begun with {brand}", appended(begun(brand=brand), 0, [18, 2, 1, 1], MOOF + b"x"), begun(brand=brand) + inside)


def check_35():
    """What may not go outside, and the order of 35."""
    mixed, plain = begun(brand=PMFF), begun()
    closed = appended(mixed, 0, [4, 0], b"", last=True)
    for name, part in [
            ("size 0", bytes(4) + b"mdat" + bytes(8)), ("size 0 at last", MOOF + bytes(4) + b"mdat"), ("one byte", b"x"), ("a cut header", MOOF + MOOF[:7]), ("a cut box", MOOF[:-1]),
            ("a byte left over", MOOF + b"\0"), ("size 7", bytes([0, 0, 0, 7]) + b"free"), ("a cut large size", bytes([0, 0, 0, 1]) + b"free" + bytes(7)),
            ("a uuid without its user type", box(b"uuid")), ("a uuid cut in its user type", box(b"uuid", bytes(15))), ("a large uuid cut in it", box(b"uuid", bytes(15), large=True)),
            ("a uuid cut by the chunk", bytes([0, 0, 0, 24]) + b"uuid" + bytes(15)),
            *[(f"a {kind.decode()}", MOOF + box(kind)) for kind in (b"ftyp", b"pfil", b"pseg", b"pdat")], ("a pdat first", box(b"pdat", b"abc") + MOOF)]:
        room = bytes(500)
        for where, chunk_list, data in [("alone", [len(part), 2], part), ("behind a good one", [18, 2, 4, 0, len(part), 2], MOOF + part),
                                        ("before one, behind damaged", [3, 1, len(part), 2, 18, 2], b"abc" + part + MOOF)]:
            given = (mixed + room, 55, 0, 0, False, True, chunk_list, data)
            expect(f"35 for {name}, {where}", model.append(*given), (refused(35), given[0]))
            expect(f"{name}, {where}, inside", model.append(mixed + room, 55, 0, 0, False, False, chunk_list, data)[0][0], "length")
        expect(f"{name}, damaged", model.append(mixed + room, 55, 0, 0, False, True, [len(part), 1, 18, 2], part + MOOF)[0][0], "length")
    for name, part in [("a uuid", box(b"uuid", bytes(16))), ("a large uuid", box(b"uuid", bytes(16), large=True)), ("a ploc", box(b"ploc")), ("two boxes", MOOF + MDAT)]:
        expect(f"{name} goes outside", model.append(mixed + bytes(200), 55, 0, 0, False, True, [len(part), 2], part)[0][0], "length")
        expect(f"{name} of a file that is not mixed", model.append(plain + bytes(200), 55, 0, 0, False, True, [len(part), 2], part)[0], refused(35))
    expect("a chunk cut across two boxes", model.append(mixed + bytes(200), 55, 0, 0, False, True, [17, 2, 1, 2], MOOF)[0], refused(35))
    for name, given, number in [
            ("31 before 35", (plain, 55, 0, 0, False, True, [18, 2, 0, 0], MOOF), 31), ("32 before 35", (plain, 55, 0, 0, False, True, [18, 2], MOOF + b"x"), 32),
            ("35 before 22, 23 and 33", (plain, 55, LIMIT + 1, 0, False, True, [1, 2] + 1024 * [1, 0], b"x"), 35),
            ("35 before 25 and 33", (closed, len(closed), 4, 0, False, True, [18, 2], MOOF[1:] + b"x"), 35),
            ("25 before 33", (closed, len(closed), 4, 0, False, True, [18, 2], MOOF), 25),
            ("33", (mixed, 55, 4, 0, False, True, [18, 2], MOOF), 33)]:
        expect(name, model.append(*given)[0], refused(number))


def check_6_outside():
    """Each box outside counts: 2 boxes of the file begun, the pdat where there is one, and the pseg."""
    mixed, free = begun(brand=PMFF), box(b"free")
    for name, chunk_list, data, taken in [
            ("509 boxes", [8 * 509, 2], 509 * free, True), ("510 boxes", [8 * 510, 2], 510 * free, False), ("600 boxes", [8 * 600, 2], 600 * free, False),
            ("508 boxes and a pdat", [8 * 508, 2, 1, 1], 508 * free + b"x", True), ("509 boxes and a pdat", [1, 1, 8 * 509, 2], b"x" + 509 * free, False),
            ("509 boxes in two chunks", [8 * 500, 2, 72, 2], 509 * free, True), ("510 boxes in two chunks", [8 * 500, 2, 80, 2], 510 * free, False)]:
        answer = model.append(mixed + bytes(6_000), 55, 0, 0, False, True, chunk_list, data)[0]
        expect(f"{name} outside", answer[0] if taken else answer, "length" if taken else refused(6))
    expect("600 boxes inside", model.append(mixed + bytes(6_000), 55, 0, 0, False, False, [4800, 2], 600 * free)[0][0], "length")
    expect("6 before 13", model.append(mixed + 64 * open_segment(0) + bytes(6_000), 55 + 64 * 49, 0, 0, False, True, [4800, 2], 600 * free)[0], refused(6))


# Chunks held elsewhere.

def check_flag_bytes():
    """Each flag byte: its state where no reserved bit is set, and else 20; none is refused for its two other bits."""
    states = {0x00: 3, 0x40: 2, 0x80: 0, 0xC0: 1}
    for flag_byte in range(256):
        located = ploc(1, 1, [bytes([flag_byte, 5]) + (b"\xfb" if flag_byte & 0x40 else b"")])
        answer = model.read(segment_of(located, b"abcde"))
        expect(f"flag byte {flag_byte:#04x}", answer if answer[0] == "refused" else answer[2][0][4], states.get(flag_byte, refused(20)))


def check_elsewhere_read():
    """By hand: what a chunk held elsewhere covers, and that it supplies nothing, whatever stands beside it."""
    data = b"abcdef"
    entries = [entry(0x40, 1, 2, 1, -6), entry(0x00, 1, 5), entry(0xC0, 1, 4, 1, -4), entry(0x00, 1, 0), entry(0x80, 1, 1)]
    file = segment_of(ploc(1, 1, entries), data, 3, 1)
    place = place_of_pseg(data)
    expect("rows of each state", model.read(file)[2],
           [(0, 0, 3, 2, 2, place - 6), (0, 1, 5, 5, 3, 0), (0, 2, 10, 4, 1, place - 4), (0, 3, 14, 0, 3, 0), (0, 4, 14, 1, 0, 0)])
    expect("length of each state", model.length(file), ("length", 15, True))
    expect("lists of each state", model.lists(file), ("lists", [(3, 2)], [(0, 3), (5, 10)], 2, 13))
    expect("maps of each state", texts_of(file),
           [b"source\t15\tclosed\nlost\t0\t3\nhave\t3\t2\nlost\t5\t5\nheld\t10\t4\nlost\t14\t1\ntotal\t2\t4\t9\n",
            b"source\t15\tclosed\nmiss\t0\t3\nhave\t3\t2\nmiss\t5\t10\ntotal\t2\t13\n"])
    expect("asked of each state", [model.ask(file, p) for p in (2, 4, 5, 9, 14, 15)],
           [("missing", 1), ("served", 1), ("missing", 10), ("missing", 6), ("missing", 1), ("beyond",)])
    expect("not served", [model.serve(file, p) for p in (5, 9)], 2 * [(0, 0)])
    alone = head() + lost_segment(4, [6], flag_byte=0)
    expect("alone", (model.length(alone), model.lists(alone)), (("length", 10, False), ("lists", [], [(0, 10)], 0, 10)))
    closed = head() + lost_segment(4, [6], flags=1, flag_byte=0)
    expect("the last segment", model.length(closed), ("length", 10, True))
    expect("an end above it", model.length(closed + lost_segment(10, [1], flag_byte=0)), refused(25))
    for name, two in [("before", alone + lost_segment(5, [2])), ("behind", head() + lost_segment(5, [2]) + alone[55:])]:
        expect(f"lost {name} it", model.lists(two), ("lists", [], [(0, 10)], 0, 10))
    expect("as many as a file takes", len(model.read(head() + lost_segment(0, 1024 * [1], flag_byte=0))[2]), 1024)
    expect("one more", model.read(head() + lost_segment(0, 1025 * [1], flag_byte=0)), refused(22))
    expect("to the limit", model.length(head() + lost_segment(1, [LIMIT - 1], flag_byte=0)), ("length", LIMIT, False))
    expect("past the limit", model.length(head() + lost_segment(1, [LIMIT], flag_byte=0)), refused(23))
    for offset_size in range(9):
        located = ploc(2, offset_size, [entry(0x00, 2, 300), entry(0x00, 2, 7)])
        expect(f"no offset of {offset_size}", model.read(segment_of(located, b""))[2], [(0, 0, 0, 300, 3, 0), (0, 1, 300, 7, 3, 0)])
    expect("an offset left over", model.read(segment_of(ploc(1, 1, [entry(0x00, 1, 5, 1, -5)]), b"abcde")), refused(17))


def check_elsewhere_written():
    """By hand: what append writes of a chunk held elsewhere, which has no data and stands between the others as it is
    named."""
    entries = [entry(0x00, 2, 300), entry(0x40, 2, 2, 1, -5), entry(0x00, 2, 1), entry(0xC0, 2, 3, 1, -3), entry(0x80, 2, 9), entry(0x00, 2, 7)]
    wanted = begun() + box(b"pdat", b"abcde") + box(b"pseg", pshd(4, 1, 6), ploc(2, 1, entries))
    expect("each state", appended(begun(), 4, [300, 3, 2, 2, 1, 3, 3, 1, 9, 0, 7, 3], b"abcde", True, 6), wanted)
    alone = begun() + box(b"pseg", pshd(4), ploc(1, 0, [entry(0x00, 1, 6)]))
    expect("alone", appended(begun(), 4, [6, 3], b""), alone)
    for brand in (PAFF, PMFF):
        expect(f"alone, asked outside of {brand}", appended(begun(brand=brand), 4, [6, 3], b"", outside=True), begun(brand=brand) + alone[55:])
    entries = [entry(0x00, 1, 6), entry(0x40, 1, 18, 1, -18), entry(0x00, 1, 9)]
    wanted = begun(brand=PMFF) + MOOF + box(b"pseg", pshd(0), ploc(1, 1, entries))
    expect("beside a box outside", appended(begun(brand=PMFF), 0, [6, 3, 18, 2, 9, 3], MOOF, outside=True), wanted)
    served = appended(appended(begun(), 0, [4, 2], b"abcd"), 0, [9, 3], b"", last=True)
    expect("over what is served", texts_of(served),
           [b"source\t9\tclosed\nhave\t0\t4\nlost\t4\t5\ntotal\t4\t0\t5\n", b"source\t9\tclosed\nhave\t0\t4\nmiss\t4\t5\ntotal\t4\t5\n"])
    mended = appended(served, 3, [6, 2], b"DEFGHI")
    place, length = model.serve(mended, 4)
    expect("good behind it", (model.lists(mended), mended[place:place + length]), (("lists", [(0, 9)], [], 9, 0), b"EFGHI"))
    for name, given, number in [
            ("22", (begun(), 55, 0, 0, False, False, 1025 * [1, 3], b""), 22), ("23", (begun(), 55, 1, 0, False, False, [LIMIT, 3], b""), 23),
            ("25", (served, len(served), 9, 0, False, False, [1, 3], b""), 25), ("33", (begun(), 55, 0, 0, False, False, [6, 3], b""), 33),
            ("35 of the good one", (begun(), 55, 0, 0, False, True, [6, 3, 18, 2], MOOF), 35)]:
        expect(f"held elsewhere, {name}", model.append(*given), (refused(number), given[0]))


# Longer recordings.

def check_far_read():
    """Offsets and ends on both sides of 2^32, in both forms of pshd, and at the limit."""
    for offset in (WIDE - 1, WIDE, WIDE + 1, 2 ** 39, LIMIT - 1, LIMIT):
        for version in (0, 1, 255) if offset < WIDE else (1, 255):
            expect(f"open at {offset}, version {version}", model.length(head() + open_segment(offset, version=version)), ("length", offset, False))
    for offset, sizes in [(WIDE - 3, [2, 1]), (WIDE - 3, [2, 2]), (0, [WIDE]), (1, [WIDE - 1, 1]), (WIDE, [LIMIT - WIDE]), (LIMIT - 7, [3, 0, 4]), (0, [LIMIT]), (LIMIT, [0])]:
        end = offset + sum(sizes)
        file = head() + lost_segment(offset, sizes, flags=1)
        expect(f"{sizes} from {offset}", (model.length(file), model.lists(file)), (("length", end, True), ("lists", [], [(0, end)], 0, end)))
        past = model.read(head() + lost_segment(offset, [*sizes, LIMIT + 1 - end]))
        expect(f"{sizes} from {offset}, and one past the limit", past, refused(23))
    served = segment_of(ploc(1, 1, [entry(0x40, 1, 6, 1, -6)]), b"abcdef", WIDE - 2, 1)
    expect("served across 2^32", [model.serve(served, WIDE - 2 + at) for at in range(7)], [(len(head()) + 8 + at, 6 - at) for at in range(6)] + [(0, 0)])
    expect("the map across 2^32", model.map_text(served), b"source\t4294967300\tclosed\nlost\t0\t4294967294\nhave\t4294967294\t6\ntotal\t6\t0\t4294967294\n")
    last = segment_of(ploc(1, 1, [entry(0x40, 1, 1, 1, -1)]), b"z", LIMIT - 1, 1)
    expect("the last position of all", model.lists(last), ("lists", [(LIMIT - 1, 1)], [(0, LIMIT - 1)], 1, LIMIT - 1))


def check_far_written():
    """By hand: version 0 up to 2^32 - 1, version 1 from 2^32 on, whatever the end; and sizes wider than 32 bits."""
    for offset, front in [(WIDE - 1, "00000018 70736864 00000000 ffffffff"), (WIDE, "0000001c 70736864 01000000 0000000100000000"), (LIMIT, "0000001c 70736864 01000000 000000ffffffffff")]:
        expect(f"open at {offset}", appended(begun(), offset, [], b"")[63:-25].hex(), front.replace(" ", ""))
    crossing = begun() + box(b"pdat", b"abc") + box(b"pseg", pshd(WIDE - 2, 1), ploc(1, 1, [entry(0x40, 1, 3, 1, -3)]))
    expect("across 2^32", appended(begun(), WIDE - 2, [3, 2], b"abc", last=True), crossing)
    behind = begun() + box(b"pdat", b"abc") + box(b"pseg", pshd(WIDE, 1, 7, 1), ploc(1, 1, [entry(0x40, 1, 3, 1, -3)]))
    expect("at 2^32", appended(begun(), WIDE, [3, 2], b"abc", True, 7), behind)
    for size, width in [(WIDE - 1, 4), (WIDE, 5), (LIMIT, 5)]:
        wanted = begun() + box(b"pseg", pshd(0), ploc(width, 0, [entry(0x80, width, size)]))
        expect(f"a lost chunk of {size}", appended(begun(), 0, [size, 0], b""), wanted)
    for offset, size in [(WIDE, LIMIT - WIDE), (LIMIT - 1, 1), (0, LIMIT)]:
        buffer = begun() + bytes(99)
        expect(f"to the limit from {offset}", model.append(buffer, 55, offset, 0, False, False, [size, 3], b"")[0][0], "length")
        expect(f"one past the limit from {offset}", model.append(buffer, 55, offset, 0, False, False, [size + 1, 3], b"")[0], refused(23))


# Damage by its name.

def claim_maps(name, file, named, missing):
    """Both maps, the lines of each in words."""
    wanted = [words.replace(" ", "\t").replace(",\t", "\n").encode("ascii") + b"\n" for words in (named, missing)]
    expect(f"maps of {name}", texts_of(file), wanted)


def check_held_and_lost():
    """By hand: what some damaged chunk covers is held, wherever that one stands; what is had stays so; neither other
    state is damaged."""
    claim_maps("one damaged", appended(begun(), 2, [5, 1], b"abcde"), "source 7 open, lost 0 2, held 2 5, total 0 5 2", "source 7 open, miss 0 7, total 0 7")
    claim_maps("an open segment", head() + open_segment(7), "source 7 open, lost 0 7, total 0 0 7", "source 7 open, miss 0 7, total 0 7")
    claim_maps("no length", head() + open_segment(0), "source 0 open, total 0 0 0", "source 0 open, total 0 0")
    claim_maps("all good", appended(begun(), 0, [5, 2], b"abcde", True), "source 5 closed, have 0 5, total 5 0 0", "source 5 closed, have 0 5, total 5 0")
    damage, repair = (2, [5, 1], b"abcde"), (4, [2, 2], b"xy")
    for state in (0, 3):
        absent = (0, [9, state], b"", True)
        for order in [(damage, repair, absent), (absent, repair, damage), (repair, absent, damage), (damage, absent, repair)]:
            file = begun()
            for addition in order:
                file = appended(file, *addition)
            claim_maps(f"state {state} in the order {order}", file, "source 9 closed, lost 0 2, held 2 2, have 4 2, held 6 1, lost 7 2, total 2 3 4",
                       "source 9 closed, miss 0 4, have 4 2, miss 6 3, total 2 7")


def check_ranges_of_names():
    """By hand: a range goes as far as its name, over chunks and segments, and an empty chunk covers nothing."""
    chunks = [2, 1, 3, 1, 1, 0, 2, 3, 4, 0, 1, 2]
    file = appended(appended(begun(), 0, chunks, b"abcdex"), 13, [2, 1, 1, 0], b"yz", True)
    claim_maps("neighbours", file, "source 16 closed, held 0 5, lost 5 7, have 12 1, held 13 2, lost 15 1, total 1 7 8", "source 16 closed, miss 0 12, have 12 1, miss 13 3, total 1 15")
    file = appended(appended(appended(begun(), 3, [4, 1], b"abcd"), 0, [5, 1], b"efghi"), 6, [3, 1], b"jkl")
    claim_maps("overlaps, turned", file, "source 9 open, held 0 9, total 0 9 0", "source 9 open, miss 0 9, total 0 9")
    file = appended(appended(begun(), 0, [9, 2], b"abcdefghi"), 0, [20, 1], bytes(20))
    claim_maps("damage under good and past it", file, "source 20 open, have 0 9, held 9 11, total 9 11 0", "source 20 open, have 0 9, miss 9 11, total 9 11")
    empty = segment_of(ploc(1, 1, [entry(0x80, 1, 4), entry(0xC0, 1, 0, 1, 99), entry(0x80, 1, 4)]), b"")
    claim_maps("an empty damaged chunk", empty, "source 8 open, lost 0 8, total 0 0 8", "source 8 open, miss 0 8, total 0 8")
    expect("lists beside names", model.lists(file), ("lists", [(0, 9)], [(9, 11)], 9, 11))


# The writer against the reader, over random runs.

def random_chunks(rng, room, outside):
    """A chunk list of at most `room` positions, and its data; good ones that go outside are whole boxes."""
    chunk_list, data = [], b""
    for _ in range(rng.choice([0, 1, 1, 2, 3, 5])):
        size = rng.choice([1, 2, 7, rng.randint(1, 40), rng.randint(1, 400)])
        state = rng.randint(0, 3)
        content = rng.randbytes(size if state in (1, 2) else 0)
        if outside and state == 2:
            content = b"".join(box(rng.choice([b"moof", b"mdat"]), rng.randbytes(rng.randint(0, 99))) for _ in range(rng.randint(1, 3)))
            size = len(content)
        if size <= room:
            room -= size
            chunk_list += [size, state]
            data += content
    return chunk_list, data


def chunk_bytes(file, rows):
    """The bytes of the present chunks, in order."""
    return b"".join(file[row[5]:row[5] + row[3]] for row in rows if row[4] in (1, 2))


def random_texts(rng, file):
    """The texts of an addition: none, those of an earlier segment, or new ones."""
    rows = model.read(file)[1] if model.read(file)[0] == "read" else []
    if rows and rng.random() < 0.3:
        return model.texts(file, rng.randrange(len(rows)))[1:]
    parts = [bytes(rng.choices(b"ab", k=rng.randint(0, 3))) for _ in range(2 * rng.choice([0, 0, 0, 1, 2]))]
    return b"".join(parts), [len(part) for part in parts]


def said_of(file, texts, lengths):
    """The described length of the source of these texts, and whether it is the known size."""
    number, reading = model.attempt(model.accept, file)
    urls = [url for url, mime in model.surls_of(texts, lengths)]
    for source in [] if number else reading.sources:
        if model.urls_of(file, source.surls) == (urls or model.urls_of(file, reading.surls)):
            return source.described, source.closed
    return 0, False


def check_one_append(rng, file, mixed):
    """Appends a random segment; gives the file after it."""
    texts, lengths = random_texts(rng, file)
    described, closed = said_of(file, texts, lengths)
    limit = described if closed else rng.choice([500, WIDE + 20, LIMIT])
    offset = rng.choice([0, rng.randint(0, min(limit, 99)), rng.randint(0, limit), max(0, limit - rng.randint(0, 40))])
    outside = mixed and rng.random() < 0.6
    chunk_list, data = random_chunks(rng, limit - offset, outside)
    last = not closed and offset + sum(chunk_list[0::2]) >= described and rng.random() < 0.3
    repair_time = rng.getrandbits(64)
    given = (len(file), offset, repair_time, last, outside, chunk_list, data, texts, lengths)
    spare = rng.randbytes(rng.choice([0, 1, 30]) + 2000 + len(data))
    answer, buffer = model.append(file + spare, *given)
    expect("appended", answer[0], "length")
    new = buffer[:answer[1]]
    expect("earlier bytes", new[:len(file)], file)
    expect("bytes past the end", buffer[len(new):], (file + spare)[len(new):])
    segment_rows, chunk_rows = model.read(new)[1:]
    added = [row for row in chunk_rows if row[0] == len(segment_rows) - 1]
    expect("fields", segment_rows[-1][1:5],
           (offset, int(last), repair_time, len(chunk_list) // 2))
    expect("sizes and states", [number for row in added for number in row[3:5]], chunk_list)
    expect("bytes", chunk_bytes(new, added), data)
    expect("texts", model.texts(new, len(segment_rows) - 1), ("texts", texts, list(lengths)))
    expect("no byte but the data's and two headers'", answer[1] - len(file) - len(data) - len(new[segment_rows[-1][0]:]),
           8 if any(state == 1 or state == 2 and not outside for state in chunk_list[1::2]) else 0)
    exact = model.append(new[:len(file)] + bytes(len(new) - len(file)), *given)
    expect("exact room", exact, (answer, new))
    short = file + bytes(len(new) - len(file) - 1)
    expect("one byte too few", model.append(short, *given), (refused(33), short))
    return new


def part(file, place_and_length):
    place, length = place_and_length
    return file[place:place + length]


def some_good_outside(file, rows):
    """Whether a good chunk lies in no pdat, as its bytes would in a file by append."""
    pdats = [found for found in model.frame(file, 0, len(file)) if found.kind == b"pdat"]
    return any(row[4] == 2 and not any(pdat.body <= row[5] < pdat.end for pdat in pdats) for row in rows)


def written_again(file):
    """Begin and append with what was read from a file."""
    again = begun(part(file, model.url(file)), part(file, model.mime(file)), file[16:20])
    segment_rows, chunk_rows = model.read(file)[1:]
    for number, row in enumerate(segment_rows):
        rows = [chunk for chunk in chunk_rows if chunk[0] == number]
        chunk_list = [field for chunk in rows for field in chunk[3:5]]
        again = appended(again, row[1], chunk_list, chunk_bytes(file, rows), bool(row[2]), row[3], some_good_outside(file, rows), *model.texts(file, number)[1:])
    return again


def check_random_runs(rng, runs):
    for _ in range(runs):
        texts = [bytes(rng.randint(1, 255) for _ in range(rng.randint(0, 9))) for _ in range(2)]
        brand = rng.choice([PAFF, PMFF])
        file = begun(*texts, brand)
        for _ in range(rng.randint(1, 6)):
            file = check_one_append(rng, file, brand == PMFF)
        expect("url and mime", [part(file, model.url(file)), part(file, model.mime(file))], texts)
        expect("written again", written_again(file), file)


if __name__ == "__main__":
    check_p1_to_p7()
    check_p8()
    check_p9_and_p10()
    check_lesson()
    check_damaged()
    check_p11_and_p12()
    check_limits()
    check_box_counts()
    check_framing_order()
    check_vendor_framing()
    check_vendor_boxes()
    check_boxes_text()
    check_boxes_limits()
    check_entry_order()
    check_errors_of_the_trade()
    check_rooms()
    check_append_order()
    check_lowered_file_limit()
    check_brands()
    check_outside_places()
    check_outside_kinds()
    check_mixed_writer()
    check_35()
    check_6_outside()
    check_flag_bytes()
    check_elsewhere_read()
    check_elsewhere_written()
    check_far_read()
    check_far_written()
    check_held_and_lost()
    check_ranges_of_names()
    model_check_index.check()
    model_check_sources.check(random.Random(2))
    model_check_salvage.check()
    salvage_properties.check(random.Random(3), 250)
    check_random_runs(random.Random(1), 300)
    raise SystemExit(close())
