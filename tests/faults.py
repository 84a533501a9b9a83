"""Makes files that reading must refuse with one given number, 2 to 25 but 21, which no file meets, or 36 to 41."""

import broken
import faults_index
from boxes import box, full, lost_segment, open_segment, pfhd, sized
from foreign import DAMAGED, ELSEWHERE, GOOD, LIMIT, LOST, foreign_plan, skipped_box
from layers import SOURCES, boxes_for, fresh_list, fresh_lists, ill_formed, lists_of, make_bare, own_urls, take_urls
from plan import Entry, Other, Segment, Whole

FREE = box(b"free")
BOXES = 512
SEGMENTS = 64
CHUNKS = 1_024


def nonzero(rng, bits):
    return rng.randint(1, 2 ** bits - 1)


def put_last(rng, plan, content):
    """Puts bytes at the end of the file, of pfil or of one pseg."""
    container = rng.choice(["file", "pfil", "pseg"])
    if container == "file":
        plan.tail = content
    elif container == "pfil":
        plan.pfil_parts.append(content)
    else:
        rng.choice(plan.segments()).after.append(content)


# Framing.

def header_cut_short(rng, plan):
    put_last(rng, plan, broken.cut_header(rng))


def size_field_0(rng, plan):
    put_last(rng, plan, broken.size_0(rng))


def size_below_header(rng, plan):
    put_last(rng, plan, broken.below_header(rng))


def box_ends_after_container(rng, plan):
    put_last(rng, plan, broken.past_container(rng))


def too_many_boxes(rng, plan):
    """Fills a container with boxes of 8 bytes; the 513th may be cut short."""
    last = rng.choice([FREE, FREE, b"\0", bytes(8), sized(20, b"uuid")])
    container = rng.choice(["file", "pfil", "pseg"])
    if container == "file":
        plan.tail = (BOXES - plan.box_count()) * FREE + last
    elif container == "pfil":
        plan.pfil_parts.append((BOXES - len(plan.pfil_parts)) * FREE + last)
    else:
        segment = rng.choice(plan.segments())
        held = 2 + len(segment.between) + len(segment.after)
        segment.after.append((BOXES - held) * FREE + last)


# The boxes of the file and of pfil.

def ftyp_fault(rng, plan):
    cause = rng.choice(["not first", "absent", "under 8", "not a multiple of 4", "second"])
    if cause == "not first":
        plan.ftyp = rng.choice([FREE, skipped_box(rng, "file")]) + plan.ftyp
    elif cause == "absent":
        plan.ftyp = b""
    elif cause == "under 8":
        plan.ftyp = box(b"ftyp", b"paffpaff"[:rng.choice([0, 4, rng.randint(0, 7)])])
    elif cause == "not a multiple of 4":
        left_over = rng.randbytes(rng.choice([1, 2, 3, 5]))
        plan.ftyp = box(b"ftyp", b"paff", bytes(4), b"paff", left_over)
    else:
        plan.items.insert(rng.randint(0, len(plan.items)), Other(plan.ftyp))


def neither_brand(rng, plan):
    """Our brands may stand as the major one, in other letters or across two."""
    brands = rng.choice([[], [b"isom", b"iso6"], [b"isom", b"Paff"], [b"Pmff"], [b"\0paf", b"f\0\0\0"], [b"\0\0pm", b"ff\0\0"]])
    plan.ftyp = box(b"ftyp", rng.choice([b"paff", b"pmff"]), bytes(4), *brands)


def pfil_fault(rng, plan):
    cause = rng.choice(["not second", "absent", "another", "another"])
    if cause == "not second":
        plan.ftyp += rng.choice([FREE, skipped_box(rng, "file")])
    elif cause == "absent":
        plan.pfil = lambda: b""
    else:
        plan.items.insert(rng.randint(0, len(plan.items)), Other(plan.pfil()))


def parts_without(plan, kind):
    return [part for part in plan.pfil_parts if part[4:8] != kind]


def insert_part(rng, plan, part):
    plan.pfil_parts.insert(rng.randint(0, len(plan.pfil_parts)), part)


def pfhd_fault(rng, plan):
    cause = rng.choice(["none", "second", "version", "length"])
    if cause != "second":
        plan.pfil_parts = parts_without(plan, b"pfhd")
    if cause == "second":
        insert_part(rng, plan, pfhd(rng.getrandbits(24)))
    elif cause == "version":
        insert_part(rng, plan, box(b"pfhd", full(nonzero(rng, 8))))
    elif cause == "length":
        insert_part(rng, plan, box(b"pfhd", bytes(rng.choice([0, 1, 3, 5, 8]))))


def surl_fault(rng, plan):
    """An ill-formed surl in pfil, alone there or beside others."""
    if rng.random() < 0.3:
        take_urls(plan)
    insert_part(rng, plan, ill_formed(rng))


def no_pseg(rng, plan):
    plan.items = [item for item in plan.items if not isinstance(item, Segment)]
    if rng.random() < 0.3:
        plan.pfil_parts.append(open_segment(0))


def too_many_segments(rng, plan):
    shortest = rng.choice([box(b"pseg"), box(b"pseg"), open_segment(0)])
    missing = SEGMENTS + 1 - len(plan.segments())
    plan.items.insert(rng.randint(0, len(plan.items)), Other(missing * shortest))


# Segments.

def pshd_fault(rng, plan):
    segment = rng.choice(plan.segments())
    cause = rng.choice(["not first", "absent", "second", "length", "other form"])
    if cause == "not first":
        segment.first.append(rng.choice([FREE, skipped_box(rng, "pseg")]))
    elif cause == "absent":
        segment.pshd = lambda: b""
    elif cause == "second":
        rng.choice([segment.between, segment.after]).append(segment.pshd())
    elif cause == "length":
        version = rng.choice([0, 1])
        length = rng.choice([0, 3, 4, 15, 17, 19, 21, 24])
        segment.pshd_body = (bytes([version]) + bytes(23))[:length]
    else:
        segment.pshd_body = rng.choice([bytes(20), bytes([nonzero(rng, 8)]) + bytes(15)])


def not_one_ploc(rng, plan):
    rng.choice(plan.segments()).ploc_count = rng.choice([0, 2, 2, 3])


def surl_fault_in_pseg(rng, plan):
    """An ill-formed surl in a segment, alone there or beside others."""
    segment = rng.choice(plan.segments())
    parts = rng.choice([segment.between, segment.after])
    parts.insert(rng.randint(0, len(parts)), ill_formed(rng))


def no_surl(rng, plan):
    """A segment without a surl in a file whose pfil has none either."""
    make_bare(rng, plan)
    for segment in rng.sample(plan.segments(), rng.randint(1, min(2, len(plan.segments())))):
        take_urls(segment)


def ploc_fault(rng, plan):
    segment = rng.choice(plan.segments())
    cause = rng.choice(["under 9", "version", "flags", "flag byte", "rest", "left over"])
    if cause == "under 9":
        segment.ploc_body = rng.choice([bytes(8), rng.randbytes(rng.randint(0, 8))])
    elif cause == "version":
        segment.ploc_front = full(nonzero(rng, 8))
    elif cause == "flags":
        segment.ploc_front = full(0, nonzero(rng, 24))
    elif cause == "flag byte":
        segment.more_count = rng.choice([1, 1, 2, 99])
    elif cause == "rest":
        cut_the_rest(rng, segment)
    else:
        segment.tail = rng.choice([b"\0", b"\x80", rng.randbytes(rng.randint(1, 4))])


def cut_the_rest(rng, segment):
    """One more entry, without the last byte of its size or offset field."""
    segment.length_size = max(segment.length_size, 1)
    segment.offset_size = max(segment.offset_size, 2)
    segment.more_count = 1
    short = segment.length_size - 1
    segment.tail = rng.choice([
        bytes([LOST]) + bytes(short), bytes([ELSEWHERE]) + bytes(short), bytes([GOOD]) + bytes(short + 2), bytes([DAMAGED])])


def width_over_8(rng, plan):
    segment = rng.choice(plan.segments())
    over, held = rng.choice([9, 9, rng.randint(9, 15)]), rng.randint(0, 15)
    segment.widths = rng.choice([(over, held), (held, over)])


def data_reference(rng, plan):
    rng.choice(plan.segments()).reference = rng.choice([1, 256, nonzero(rng, 16)])


def reserved_bit(rng, plan):
    """One more entry with a reserved bit, beside the bits of any state."""
    segment = rng.choice(plan.segments())
    flag_byte = rng.choice([ELSEWHERE, LOST, GOOD, DAMAGED]) | rng.choice([1, 0x20, nonzero(rng, 6)])
    segment.more_count = 1
    segment.tail = bytes([flag_byte]) + rng.randbytes(rng.randint(0, 3))


def too_many_chunks(rng, plan):
    """States more chunks than the limit leaves, the earlier segments counted."""
    segments = plan.segments()
    number = rng.randrange(len(segments))
    so_far = sum(len(segment.entries) for segment in segments[:number + 1])
    segments[number].more_count = CHUNKS + 1 - so_far + rng.choice([0, 0, 1, 30_000])


def source_over_limit(rng, plan):
    segment = rng.choice(plan.segments())
    if rng.random() < 0.5:
        segment.version = rng.choice([1, 255])
        segment.offset = rng.choice([LIMIT + 1, LIMIT + 1, 2 ** 63, 2 ** 64 - 1])
    else:
        size = rng.choice([LIMIT + 1 - segment.end(), LIMIT + 1, 2 ** 64 - 1])
        flag_byte = rng.choice([LOST, GOOD, ELSEWHERE])
        segment.entries.append(Entry(flag_byte, size, wild=rng.getrandbits(64)))


def not_as_boxes(rng, plan):
    """A chunk that is whole boxes but damaged or of a file that is not mixed, or nearly so, or has a box in it that no
    chunk may be made of, or is just one."""
    if not plan.wholes():
        plan.items.insert(rng.randint(0, len(plan.items)), Whole([skipped_box(rng, "file"), FREE]))
    whole = rng.choice(plan.wholes())
    first, end = sorted(rng.sample(whole.edges(), 2))
    if plan.datas() and rng.random() < 0.3:
        data = rng.choice(plan.datas())
        plan.items.remove(whole)
        plan.items.insert(plan.items.index(data) + 1, whole)
        size = data.header + len(data.body)
        return Entry(GOOD, rng.choice([size, size + whole.edges()[1]]), data, -data.header)
    state = DAMAGED if plan.mixed else GOOD
    return rng.choice([Entry(state, end - first, whole, first), Entry(GOOD, end - first - 1, whole, first), Entry(GOOD, end - first + 1, whole, first),
                       Entry(GOOD, end - first, whole, first + 1), Entry(GOOD, 9, whole, first - 1), Entry(GOOD, len(plan.ftyp), place=0)])


def may_not_lie_there(rng, plan):
    """One more present chunk, just outside of a pdat, nearly as whole boxes, or somewhere else."""
    segment = rng.choice(plan.segments())
    if rng.random() < 0.4:
        segment.entries.append(not_as_boxes(rng, plan))
        return
    size, flag_byte = rng.randint(1, 4), rng.choice([GOOD, DAMAGED])
    front = len(plan.ftyp) + len(plan.pfil())
    place = rng.choice([-1, 0, rng.randrange(front), 10 ** 6, -2 ** 62])
    added = Entry(flag_byte, size, place=place)
    if plan.datas() and rng.random() < 0.7:
        data = rng.choice(plan.datas())
        at = rng.choice([-1, -8, len(data.body) - size + 1, len(data.body)])
        added = Entry(flag_byte, size, data, at)
        if rng.random() < 0.3:
            added = Entry(flag_byte, len(data.body) + 1, data, 0)
    segment.entries.append(added)


def some_list(rng, plan):
    """The list of a source of the file, that in pfil, or a new one; None stands for that in pfil without boxes of its
    own."""
    known = lists_of(plan)
    return rng.choice([rng.choice(known), fresh_list(rng, known), None if own_urls(plan) else rng.choice(known)])


def put_segments(rng, plan, contents):
    for content in rng.sample(contents, len(contents)):
        plan.items.insert(rng.randint(0, len(plan.items)), Other(content))


def sizes_disagree(rng, plan):
    """A known size, and a known size, an end or an open offset of the same source that disagrees; there may be a ninth
    source beside."""
    size, urls = rng.randint(0, 30), some_list(rng, plan)
    above = size + rng.randint(1, 9)
    parts = [b"".join(boxes_for(rng, urls or [])) for _ in range(2)]
    closing = lost_segment(0, [size], flags=1, parts=parts[0])
    other = rng.choice([
        lost_segment(0, [above], flags=1, parts=parts[1]), lost_segment(above, [0], flags=1, parts=parts[1]),
        lost_segment(size, [1], parts=parts[1]), open_segment(above, parts=parts[1]), open_segment(above, flags=1, parts=parts[1])])
    put_segments(rng, plan, [closing, other])
    if rng.random() < 0.2:
        too_many_sources(rng, plan)


def too_many_sources(rng, plan):
    """So many more sources that there is a ninth, most of them closed at sizes of their own."""
    known = lists_of(plan)
    lists = fresh_lists(rng, known, SOURCES + rng.choice([1, 1, 2, 9]) - len(known))
    for urls in lists:
        parts = b"".join(boxes_for(rng, urls))
        put_segments(rng, plan, [lost_segment(0, [rng.randint(0, 99)], flags=rng.choice([0, 1, 1]), parts=parts)])


FAULTS = {
    2: header_cut_short,
    3: size_field_0,
    4: size_below_header,
    5: box_ends_after_container,
    6: too_many_boxes,
    7: ftyp_fault,
    8: neither_brand,
    9: pfil_fault,
    10: pfhd_fault,
    11: surl_fault,
    12: no_pseg,
    13: too_many_segments,
    14: pshd_fault,
    15: not_one_ploc,
    16: surl_fault_in_pseg,
    17: ploc_fault,
    18: width_over_8,
    19: data_reference,
    20: reserved_bit,
    22: too_many_chunks,
    23: source_over_limit,
    24: may_not_lie_there,
    25: sizes_disagree,
    **faults_index.FAULTS,
    40: too_many_sources,
    41: no_surl,
}


def faulty_file(rng, number):
    """A file that is acceptable but for one fault."""
    if number == 7 and rng.random() < 0.1:
        return b""
    plan = foreign_plan(rng)
    FAULTS[number](rng, plan)
    return plan.assemble()
