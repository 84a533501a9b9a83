"""Makes spoiled files as salvage finds them: cut in mid box, with framing errors between boxes, segments that are wrong or
contradict each other, boxes that go, and whatever moves the places of those that stay."""

import broken
import generate
from boxes import bare_head, box, entry, fidx, ftyp, lost_segment, open_segment, pfhd, ploc, surl
from faults import (
    BOXES, CHUNKS, FREE, SEGMENTS, data_reference, may_not_lie_there, no_surl, not_one_ploc, ploc_fault, pshd_fault,
    reserved_bit, sizes_disagree, source_over_limit, surl_fault_in_pseg, too_many_chunks, too_many_sources, width_over_8)
from faults_index import index_fault
from foreign import DAMAGED, ELSEWHERE, GOOD, LOST, foreign_data, foreign_plan, foreign_whole, skipped_box
from indexes import index_for, put_index
from layers import boxes_for, fresh_lists, own_urls
from plan import Data, Entry, Other, Plan, Segment, Whole
from spoiling import boxes_in

FAULTS_OF_A_SEGMENT = [pshd_fault, not_one_ploc, surl_fault_in_pseg, ploc_fault, width_over_8, data_reference, reserved_bit, too_many_chunks, source_over_limit,
                       may_not_lie_there, may_not_lie_there, may_not_lie_there, sizes_disagree, sizes_disagree, too_many_sources]
BROKEN = [broken.cut_header, broken.size_0, broken.below_header, broken.past_container]


def put_between(rng, plan, item):
    plan.items.insert(rng.randint(0, len(plan.items)), item)


# What moves places.

def drop_between(rng, plan):
    """Boxes that go, vendors' ones among them, so that distances shrink; now and then so many that a width would."""
    for _ in range(rng.choice([1, 1, 2, 4])):
        put_between(rng, plan, Other(skipped_box(rng, "file")))
    if rng.random() < 0.15:
        put_between(rng, plan, Other(box(b"free", bytes(rng.choice([100, 127, 128, 255, 40_000])))))


def repeat_head(rng, plan):
    """A later ftyp or pfil, right or not."""
    later = rng.choice([plan.ftyp, ftyp([]), box(b"ftyp"), plan.pfil(), box(b"pfil"), bare_head()[20:], box(b"pfil", b"\0")])
    put_between(rng, plan, Other(later))


def index_all(rng, plan):
    """Indexes in pfil and in segments at once, one or several in each, right or not."""
    for container in rng.sample([plan, *plan.segments()], rng.randint(1, 1 + len(plan.segments()))):
        for _ in range(rng.choice([1, 1, 2])):
            put_index(rng, container, index_for(rng, plan, container))
    if rng.random() < 0.2:
        index_fault(rng, plan)


def enlarge(rng, plan):
    """Large headers in most places."""
    plan.pfil_large = rng.random() < 0.7
    for segment in plan.segments():
        segment.large, segment.pshd_large, segment.ploc_large = [rng.random() < 0.6 for _ in range(3)]


def empty_chunks(rng, plan):
    """Present chunks of size 0 with any offset, in any width, among the others."""
    for segment in plan.segments():
        for _ in range(rng.choice([0, 1, 3])):
            segment.entries.insert(rng.randint(0, len(segment.entries)), Entry(rng.choice([GOOD, DAMAGED]), 0, wild=rng.getrandbits(64)))
        segment.offset_size = max(segment.offset_size, rng.choice([0, 0, 1, 2, 8]))


def misplace(rng, plan):
    """A ploc with offsets in pfil or in a box that is not looked into, and an index in such a box, all of which stay."""
    located = ploc(1, 2, [entry(GOOD, 1, rng.choice([0, 3]), 2, rng.randint(-999, 999)) for _ in range(rng.randint(1, 3))])
    plan.pfil_parts.append(rng.choice([located, box(b"free", fidx()), box(b"pseg", located, fidx())]))
    rng.choice(plan.segments()).after.append(box(rng.choice([b"free", b"pfil", b"pseg"]), located, fidx()))


def turn_round(rng, plan):
    """Segments before all that they point to, or behind it."""
    plan.items.sort(key=lambda item: isinstance(item, Segment), reverse=rng.random() < 0.7)


def run_of_boxes(rng, plan):
    """More neighbouring boxes in a mixed file, and good chunks, one damaged now and then, that are one or several of
    them."""
    whole = Whole([skipped_box(rng, "file") for _ in range(rng.randint(1, 6))])
    put_between(rng, plan, whole)
    for segment in rng.sample(plan.segments(), min(len(plan.segments()), 2)):
        first, end = sorted(rng.sample(whole.edges(), 2))
        segment.entries.append(Entry(rng.choice([GOOD, GOOD, GOOD, GOOD, DAMAGED]), end - first, whole, first))


# What is wrong.

def break_inside(rng, plan):
    """A framing fault inside a segment."""
    segment = rng.choice(plan.segments())
    segment.after.append(rng.choice(BROKEN)(rng) if rng.random() < 0.9 else (BOXES - 2) * FREE + FREE)


def break_between(rng, plan):
    """A framing error between two boxes of the file, or at its end."""
    put_between(rng, plan, Other(rng.choice(BROKEN)(rng)))


def contradict(rng, plan):
    """Segments of one source with sizes, ends and open offsets around one size, in any order."""
    urls, size = rng.choice([own_urls(plan), [b"film"]]), rng.randint(1, 12)
    for _ in range(rng.randint(2, 6)):
        parts, near = b"".join(boxes_for(rng, urls)), max(0, size + rng.randint(-1, 1))
        put_between(rng, plan, Other(rng.choice([
            lost_segment(0, [near], flags=1, parts=parts), lost_segment(rng.randint(0, near), [1], parts=parts), open_segment(near, flags=rng.choice([0, 1]), parts=parts),
            lost_segment(near, [0], flags=1, flag_byte=ELSEWHERE, parts=parts)])))


def layer(rng, plan):
    """Segments of seven to ten more sources, each several times."""
    lists = fresh_lists(rng, [own_urls(plan)], rng.randint(7, 10))
    for _ in range(rng.randint(8, 20)):
        put_between(rng, plan, Other(open_segment(rng.randint(0, 9), parts=b"".join(boxes_for(rng, rng.choice(lists))))))


def spoil_segments(rng, plan):
    """Faults in some of the segments, so that others stay."""
    for _ in range(rng.choice([1, 1, 2, 3])):
        rng.choice(FAULTS_OF_A_SEGMENT)(rng, plan)


CHANGES = [drop_between, drop_between, drop_between, repeat_head, index_all, enlarge, empty_chunks, misplace, turn_round, break_inside, break_between, contradict, layer,
           spoil_segments, spoil_segments, spoil_segments]


# Cutting.

def cut(rng, file):
    """Cut anywhere behind the first two boxes, mostly; at the edge of a box, beside it, or in mid box."""
    edges = [edge for place, end, header in boxes_in(file, 0, len(file)) for edge in (place, place + header, end)]
    first = sorted({end for place, end, header in boxes_in(file, 0, len(file))})[:1] or [0]
    at = rng.choice([rng.randint(min(first[0], len(file)), len(file)), rng.choice(edges or [0]) + rng.choice([-1, 0, 1]), rng.randint(0, len(file))])
    return file[:max(0, at)]


def spoiled_plan(rng):
    """The plan of a file, changed in one way or several."""
    plan = foreign_plan(rng)
    if plan.mixed and rng.random() < 0.6:
        run_of_boxes(rng, plan)
    changes = rng.sample(CHANGES, rng.choice([1, 2, 2, 3, 4]))
    for change in sorted(changes, key=CHANGES.index):
        change(rng, plan)
    if rng.random() < 0.06:
        no_surl(rng, plan)
    return plan


def planned_file(rng):
    file = spoiled_plan(rng).assemble()
    return cut(rng, file) if rng.random() < 0.3 else file


def spoiled_file(rng):
    """Bytes spoiled after the plan."""
    return generate.spoil(rng, spoiled_plan(rng).assemble())


def cut_file(rng):
    """The plug pulled from a file that was right."""
    return cut(rng, rng.choice([generate.foreign_file, generate.mixed_file, generate.indexed_file])(rng))


def right_file(rng):
    return rng.choice([generate.foreign_file, generate.mixed_file, generate.indexed_file])(rng)


# Of the first two boxes.

def wrong_head(rng):
    """A fault in the first two boxes, and any file behind."""
    return generate.faulty_file(rng, rng.choice([2, 3, 4, 5, 6, 7, 7, 8, 9, 9, 10, 11]))


def short_head(rng):
    """One box or two, whole or cut, right or not."""
    first = rng.choice([ftyp(), ftyp(), ftyp([]), ftyp([b"pmff"]), FREE, box(b"ftyp"), box(b"pfil")])
    second = rng.choice([bare_head()[20:], bare_head(surl())[20:], ftyp(), FREE, box(b"pfil"), box(b"pfil", surl()), rng.choice(BROKEN)(rng), b""])
    file = first + second
    return file if rng.random() < 0.5 else file[:rng.randint(0, len(file))]


# Many.

def many_segments(rng):
    """About 65 segments that are right, and some that are not, of eight bytes or more; the last ones wrong too."""
    data = Data(rng.randbytes(12))
    items = [Segment(0, [Entry(GOOD, rng.randint(1, 12), data)]) if rng.random() < 0.5 else Segment(rng.randint(0, 9), []) for _ in range(rng.choice([62, 63, 64, 65, 66, 70]))]
    for _ in range(rng.choice([0, 1, 2, 9])):
        items.insert(rng.randint(0, len(items)), Other(rng.choice([box(b"pseg"), box(b"pseg", b"\0"), FREE, open_segment(2 ** 41)])))
    items.insert(rng.randint(0, len(items)), data)
    items.append(Other(rng.choice([box(b"pseg", bytes(8)), box(b"pseg"), FREE])))
    return Plan(ftyp(), [pfhd(), surl()], items).assemble()


def many_chunks(rng):
    """Segments whose chunks are about as many as a file may have, some of which go."""
    data, items, left = Data(rng.randbytes(9)), [], CHUNKS + rng.choice([-1, 0, 1, 200])
    while left > 0:
        count = min(left, rng.choice([1, 100, 300, 500]))
        entries = [Entry(rng.choice([LOST, GOOD, ELSEWHERE]), 1, data, rng.randint(0, 8)) for _ in range(count)]
        if rng.random() < 0.3:
            entries[-1].size = rng.choice([2 ** 40, 9])
        items.append(Segment(0, entries))
        left -= count
    items.insert(rng.randint(0, len(items)), data)
    return Plan(ftyp(), [pfhd(), surl()], items).assemble()


def many_boxes(rng):
    """As many boxes as a file may have, a few more or fewer, those that matter anywhere among them, in short runs of a
    mixed file too."""
    plan = foreign_plan(rng)
    missing = BOXES - plan.box_count() + rng.choice([-3, -1, 0, 0, 1, 1, 2, 5])
    for _ in range(3):
        count = rng.randint(0, max(0, missing))
        put_between(rng, plan, Other(count * rng.choice([FREE, box(b"pseg"), box(b"uuid", bytes(16)), box(b"pdat")])))
        missing -= count
    plan.items.insert(rng.choice([0, len(plan.items)]), Other(max(0, missing) * FREE))
    return plan.assemble()


def many_sources(rng):
    plan = foreign_plan(rng)
    too_many_sources(rng, plan)
    layer(rng, plan)
    return plan.assemble()


def long_gaps(rng):
    """Data far from its segments, by boxes that go, so that an offset of two or more bytes becomes a small one."""
    datas = [foreign_data(rng) for _ in range(2)] + [Data(rng.randbytes(200))]
    segments = [Segment(0, [Entry(GOOD, rng.randint(1, len(data.body)), data) for data in datas if data.body]) for _ in range(3)]
    gaps = [Other(box(b"free", bytes(rng.choice([90, 120, 128, 250, 32_760, 33_000, 70_000])))) for _ in range(4)]
    items = datas + segments + gaps + [foreign_whole(rng)]
    rng.shuffle(items)
    return Plan(ftyp([b"pmff"]), [pfhd(), surl()], items, mixed=True).assemble()


SHARES = [(planned_file, 500), (spoiled_file, 130), (cut_file, 120), (right_file, 50), (wrong_head, 50), (short_head, 40), (many_segments, 25), (many_chunks, 10), (many_boxes, 30),
          (many_sources, 30), (long_gaps, 15)]
MAKERS, WEIGHTS = zip(*SHARES)


def salvage_file(rng):
    return rng.choices(MAKERS, WEIGHTS)[0](rng)
