"""Chooses the spoiled files on which the definitions of salvage are held against the model: chosen ones, which meet each
number that a small file can, and generated ones."""

from collections import Counter

import model_salvage
import salvage_files
from agreement_cases import Case, answer_numbers, number_of, octets, room
from boxes import bare_head, bidx, box, entry, fidx, ftyp, head, lost_segment, open_segment, pfhd, ploc, pshd, sized, surl
from foreign import DAMAGED, ELSEWHERE, GOOD, LOST, foreign_plan
from model_check_salvage import one_chunk

# Each top-level box is judged beside the segments that are kept, so the checker computes long files slowly.
SMALL = 400
DATA, FREE, WHOLE = box(b"pdat", b"abcd"), box(b"free"), box(b"moof", b"efgh")
MIXED = head(brand=b"pmff")
LIMIT = 1_099_511_627_775
# Every refusal of salvage but 6, and 1, which is met by the length of a list that is not written out.
REFUSALS = {2, 3, 4, 5, 7, 8, 9, 10, 11, 27, 33}
# Every number of a box that is dropped or of a framing error; those that need a file of more than 3,000 bytes apart.
DROPPED = {0, 2, 3, 4, 5, 7, 9, 14, 15, 16, 17, 18, 19, 20, 22, 23, 24, 25, 40, 41}
DROPPED_OF_LARGE = {6, 13}


# Chosen ones.

def between(dropped):
    """A box that goes, between the data of a chunk and its segment, whose offset is another in the copy."""
    return head() + DATA + dropped + one_chunk(4, -4 - len(dropped))


def segment_of(*parts):
    return box(b"pseg", pshd(0), *parts)


def dropped_files():
    """Each number of a box that goes by itself."""
    empty, two = ploc(0, 0, []), entry(LOST, 1, 2)
    for name, dropped in [
            ("free", FREE), ("cut_inside", segment_of(empty, b"\0")), ("size_0_inside", segment_of(empty, bytes(8))), ("size_7_inside", box(b"pseg", sized(7))),
            ("past_pseg", segment_of(sized(9))), ("later_ftyp", ftyp()), ("later_pfil", box(b"pfil")), ("no_pshd", box(b"pseg")),
            ("no_ploc", segment_of()), ("bad_surl", segment_of(empty, box(b"surl"))), ("short_ploc", segment_of(box(b"ploc", bytes(8)))),
            ("left_over", segment_of(ploc(1, 0, [two, b"\0"], count=1))), ("wide", segment_of(ploc(9, 0, []))),
            ("reference", segment_of(ploc(0, 0, [], reference=1))), ("reserved", segment_of(ploc(1, 0, [b"\x81\x01"]))),
            ("too_many_chunks", segment_of(ploc(0, 0, [], count=1_025))), ("past_limit", lost_segment(1, [LIMIT])),
            ("in_ftyp", one_chunk(4, -55))]:
        yield name, between(dropped)
    yield "no_list", bare_head() + open_segment(3) + open_segment(4, parts=surl())
    yield "ninth_source", bare_head() + b"".join(open_segment(0, parts=surl(bytes([url]))) for url in b"123456789")


def cut_files():
    """The plug pulled: each framing error between boxes, and data that is in the cut box or before it."""
    whole = head() + DATA + one_chunk(4, -4)
    yield "nothing_wrong", whole
    for name, error in [("header", b"\0" * 7), ("zero", bytes(8)), ("below", sized(7)), ("past", box(b"pdat", b"EFG")[:-1])]:
        yield "cut_" + name, whole + error
    yield "data_in_cut_box", head() + DATA + segment_of(ploc(1, 1, [entry(GOOD, 1, 4, 1, -4), entry(GOOD, 1, 2, 1, 63)])) + DATA[:-1]
    yield "data_before_error", head() + one_chunk(4, 68) + FREE + DATA + b"\0"
    yield "begun_and_cut", head() + b"\0"


def moved_files():
    """Whatever moves the places of what stays: chunks before and behind their segment, empty ones, indexes."""
    index = fidx(bidx(8))
    yield "both_sides", head() + DATA + FREE + one_chunk(4, -12) + FREE + one_chunk(2, 70, DAMAGED) + FREE + DATA
    yield "wide_offset", head() + DATA + 5 * FREE + one_chunk(4, -44, width=8)
    yield "narrower", head() + DATA + box(b"free", bytes(120)) + one_chunk(4, -132, width=2)
    yield "five_chunks", head() + DATA + segment_of(ploc(1, 2, [
        entry(GOOD, 1, 1, 2, -4), entry(LOST, 1, 9), entry(DAMAGED, 1, 2, 2, 83), entry(ELSEWHERE, 1, 5), entry(GOOD, 1, 4, 2, -4)])) + FREE + box(b"pdat", b"xyEFzz")
    yield "empty_chunks", head() + segment_of(ploc(1, 8, [entry(GOOD, 1, 0, 8, -2 ** 63), entry(DAMAGED, 1, 0, 8, 2 ** 63 - 1), entry(LOST, 1, 0)]))
    yield "no_widths", head() + segment_of(ploc(0, 1, [b"\x40\x7f", b"\x80", b"\x00", b"\xc0\x80"]))
    yield "in_pfil", head(parts=index) + DATA + one_chunk(4, -4)
    yield "in_large_pfil", ftyp(large=True) + box(b"pfil", pfhd(1), index, surl(), fidx(), large=True) + one_chunk(4, 60) + DATA
    yield "in_large_pseg", head(parts=fidx(b"\0")) + one_chunk(4, 116, front=index, parts=index, large=True) + DATA
    yield "in_both", head(parts=index) + DATA + one_chunk(4, -4, front=index, parts=fidx()) + one_chunk(4, -88, at=4)
    yield "in_left_out", head() + box(b"pseg", index) + index
    yield "not_looked_into", bare_head(surl(), segment_of(ploc(1, 1, [entry(GOOD, 1, 4, 1, -9)]), fidx())) + FREE + open_segment(0, parts=box(b"free", index))


def beside_files():
    """Segments beside those that are kept: sizes that contradict each other, and several sources."""
    closed, longer = lost_segment(0, [9], flags=1), lost_segment(0, [10], flags=1)
    yield "first_wins", head() + longer + closed + longer
    yield "end_above", head() + closed + lost_segment(9, [1]) + lost_segment(8, [1]) + open_segment(10) + open_segment(9)
    yield "left_out_contradicts_nobody", head() + segment_of(ploc(4, 0, [entry(LOST, 4, 10), b"\0"], count=1)) + closed
    yield "another_source", head() + closed + lost_segment(0, [10], flags=1, parts=surl(b"v")) + lost_segment(10, [1], parts=surl(b"v")) + lost_segment(9, [1])
    yield "chunks_beside_one", head() + lost_segment(0, [1]) + segment_of(ploc(0, 0, [], count=1_024)) + segment_of(ploc(0, 0, [], count=1_023))
    yield "lists_apart", bare_head(surl(b"a"), surl(b"b")) + closed + lost_segment(0, [8], flags=1, parts=surl(b"b") + surl(b"a")) + lost_segment(0, [7], parts=surl(b"a") + surl(b"b"))


def mixed_files():
    """Mixed ones, in which the boxes of kept good chunks stay."""
    yield "a_run", MIXED + FREE + WHOLE + box(b"mdat", b"ijkl") + FREE + one_chunk(24, -32) + FREE
    yield "behind_segment", MIXED + one_chunk(12, 60) + FREE + WHOLE + FREE
    yield "of_damaged", MIXED + WHOLE + one_chunk(12, -12, DAMAGED) + one_chunk(12, -64)
    yield "of_left_out", MIXED + lost_segment(0, [3], flags=1) + WHOLE + one_chunk(12, -12) + DATA + one_chunk(2, -4)
    yield "a_part", MIXED + WHOLE + one_chunk(4, -4)
    yield "over_pfil", MIXED + WHOLE + box(b"pfil") + one_chunk(20, -20)
    yield "its_fidx", MIXED + box(b"uuid", bytes(16)) + fidx() + FREE + one_chunk(8, -16)
    yield "over_error", MIXED + one_chunk(20, 52) + WHOLE + FREE[:-1]
    yield "not_mixed", head() + WHOLE + one_chunk(12, -12)


def refused_files():
    """Refused for the first two boxes, each number by itself; and not for later ones."""
    pfil = head()[20:]
    yield from [
        ("nothing", b""), ("one_byte", b"\0"), ("ftyp_alone", ftyp()), ("ftyp_twice", ftyp() + ftyp()), ("another_first", FREE + pfil),
        ("wrong_and_cut", FREE + pfil[:-1]), ("no_brand", ftyp([]) + pfil), ("another_second", ftyp() + FREE + pfil), ("size_0_second", ftyp() + bytes(8)),
        ("size_7_in_pfil", ftyp() + box(b"pfil", sized(7))), ("no_pfhd", ftyp() + box(b"pfil", surl())), ("bad_surl_of_pfil", bare_head(box(b"surl")) + b"\0"),
        ("later_heads", head() + ftyp([]) + pfil + ftyp()[:-1])]


def chosen_files():
    for files in (dropped_files, cut_files, moved_files, beside_files, mixed_files, refused_files):
        yield from files()


def large_files():
    """Chosen ones that take the checker a minute or more each: 13, and 6 in a segment and between boxes."""
    yield "thirteen", head() + 64 * open_segment(0) + box(b"pseg", b"\0")
    yield "six_inside", head() + segment_of(ploc(0, 0, []), 511 * FREE) + DATA
    yield "six_between", head() + 510 * box(b"pseg") + b"\0"


# Generated ones.

def changed_by(*changes):
    """A maker of files that are changed in these ways."""
    def changed_file(rng):
        plan = foreign_plan(rng)
        for change in changes:
            change(rng, plan)
        return plan.assemble()
    return changed_file


def mixed_file(rng):
    """A mixed one with more runs of boxes, and boxes that go between them."""
    plan = foreign_plan(rng, mixed=True)
    salvage_files.run_of_boxes(rng, plan)
    salvage_files.drop_between(rng, plan)
    return plan.assemble()


MAKERS = [
    changed_by(salvage_files.drop_between), salvage_files.planned_file, mixed_file, changed_by(salvage_files.index_all), salvage_files.spoiled_file,
    changed_by(salvage_files.empty_chunks, salvage_files.turn_round), salvage_files.cut_file, changed_by(salvage_files.contradict), mixed_file,
    changed_by(salvage_files.enlarge, salvage_files.index_all), salvage_files.planned_file, changed_by(salvage_files.spoil_segments), salvage_files.spoiled_file]


def generated_file(rng, index):
    """Of each maker in turn a small file that is not refused."""
    while True:
        file = MAKERS[index % len(MAKERS)](rng)
        if len(file) <= SMALL and model_salvage.salvage(file, bytes(SMALL))[0][0] == "length":
            return file


# What is asked of them.

def copy_numbers(file, buffer):
    """The copy or its refusal; then what the call answers and leaves that writes it into a buffer."""
    answer, left = model_salvage.salvage(file, bytes(len(file)))
    copied = answer_numbers(answer, lambda value: [value[1], *left[:value[1]]])
    answer, left = model_salvage.salvage(file, buffer)
    return copied + answer_numbers(answer, lambda value: [value[1]]) + list(left)


def copy_case(rng, name, file, source):
    needed = model_salvage.salvage(file, bytes(len(file)))[0]
    buffer = bytes(room(rng, needed[1] if needed[0] == "length" else 2))
    answer = model_salvage.salvage(file, buffer)[0]
    return Case(name, "salvaged_of %s %s" % (octets(file), octets(buffer)), copy_numbers(file, buffer), number_of(answer), source)


def lines_case(name, file, source, most):
    """The lines of a program that takes an input of at most so many bytes."""
    text = model_salvage.salvage_text(file, most)
    told = [line.split(b"\t") for line in text.splitlines()]
    refusal = int(told[0][1]) if text.startswith(b"refused") else 0
    numbers = () if refusal else tuple(int(number) for place, number in told)
    return Case(name, "salvage_text_of %d %s" % (most, octets(file)), list(text), refusal, source, numbers)


def salvage_cases(rng, name, file, short=False):
    """Of one file; the input is one byte too long for the program if that is asked for."""
    source, most = "file " + file.hex(), max(0, len(file) - 1) if short else len(file)
    return [copy_case(rng, name + "-copy", file, source), lines_case(name + "-lines", file, source, most)]


def choose(rng, spoiled, others, large):
    """The cases of the chosen files, of so many generated ones, of the small ones of others, and of the large ones if
    they are asked for."""
    cases = salvage_cases(rng, "chosen-over-limit", head(), short=True)
    for name, file in [*chosen_files(), *(large_files() if large else [])]:
        cases += salvage_cases(rng, "chosen-" + name.replace("_", "-"), file)
    for index in range(spoiled):
        cases += salvage_cases(rng, "spoiled%d" % index, generated_file(rng, index), short=index % 8 == 7)
    for index, file in enumerate(other for other in others if len(other) <= SMALL):
        cases += salvage_cases(rng, "salvaged%d" % index, file, short=index % 8 == 7)
    return cases


def dropped(cases):
    """How many boxes and framing errors have a line, by number."""
    return Counter(number for case in cases for number in case.dropped)


def unmet(cases, large):
    """Which refusals and which numbers of dropped boxes the cases should meet and do not."""
    refusals = REFUSALS - {case.refusal for case in cases}
    numbers = (DROPPED | DROPPED_OF_LARGE if large else DROPPED) - set(dropped(cases))
    return ["refusal %d of salvage" % number for number in sorted(refusals)] + ["dropped with %d" % number for number in sorted(numbers)]
