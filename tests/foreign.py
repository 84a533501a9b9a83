"""Makes files as another writer would, with everything the paper allows."""

from boxes import box, ftyp, pfhd, surl
from indexes import add_indexes
from layers import SOURCES, spread
from plan import Data, Entry, Other, Plan, Segment, Whole

LIMIT = 1_099_511_627_775
# The first source offset that takes a `pshd` of the 64-bit form.
WIDE = 4_294_967_296
LOST, DAMAGED, GOOD, ELSEWHERE = 0x80, 0xC0, 0x40, 0x00
NOT_KNOWN = [b"free", b"skip", b"uuid", b"uuid", b"ptle", b"mdat", b"dref", b"bidx", b"dint"]
OUT_OF_PLACE = {
    "file": [b"pfhd", b"surl", b"pshd", b"ploc", b"fidx", b"frpa"],
    "pfil": [b"ftyp", b"pfil", b"pseg", b"pshd", b"ploc", b"pdat", b"frpa"],
    "pseg": [b"ftyp", b"pfil", b"pfhd", b"pseg", b"pdat", b"frpa"],
}


def seldom(rng):
    return rng.random() < 0.1


def text(rng):
    return bytes(rng.randint(1, 255) for _ in range(rng.choice([0, 1, 1, 3, 6])))


def width(rng):
    """A width that is widened later where it is too narrow."""
    return rng.choice([0, 0, 0, rng.randint(0, 8)])


def odd_type(rng):
    """A type with bytes that do not print, or that a list of boxes might take for something else."""
    return bytes(rng.choice([0, 9, 10, 31, 32, 92, 126, 127, 128, 255, rng.randrange(256)]) for _ in range(4))


def user_type(rng):
    """Whose a vendor's box is; the standard writes a type that it knows in sixteen bytes too."""
    known = rng.choice([b"pseg", b"pdat", b"surl"]) + bytes.fromhex("00110010800000aa00389b71")
    return rng.choice([rng.randbytes(16), rng.randbytes(16), bytes(16), known])


def skipped_box(rng, container):
    """A box that a reader skips in this container."""
    kind = rng.choice(NOT_KNOWN + OUT_OF_PLACE[container] + [odd_type(rng)])
    vendor = user_type(rng) if kind == b"uuid" else b""
    return box(kind, vendor, rng.randbytes(rng.choice([0, 4, rng.randint(0, 12)])), large=seldom(rng))


def foreign_ftyp(rng, mixed):
    """A mixed file may have both brands, in any order; a major brand says nothing."""
    brands = [rng.choice([b"isom", b"Pmff", rng.randbytes(4)])
              for _ in range(rng.choice([0, 0, 1, 2]))]
    for brand in rng.choice([[b"pmff"], [b"pmff"], [b"pmff", b"paff"]]) if mixed else [b"paff"]:
        brands.insert(rng.randint(0, len(brands)), brand)
    major = rng.choice([b"paff", b"pmff", b"isom", rng.randbytes(4)])
    return ftyp(brands, major, rng.choice([0, rng.getrandbits(32)]), large=seldom(rng))


def foreign_pfil_parts(rng):
    """One pfhd and some surl, in any order, with skipped boxes."""
    flags = rng.choice([0, 0, 1, rng.getrandbits(24)])
    parts = [pfhd(flags, large=seldom(rng))]
    for _ in range(rng.choice([1, 1, 1, 1, 2, 3])):
        parts.append(surl(text(rng), text(rng), large=seldom(rng)))
    if rng.random() < 0.15:
        parts.append(skipped_box(rng, "pfil"))
    rng.shuffle(parts)
    return parts


def foreign_data(rng):
    length = rng.choice([0, rng.randint(1, 9), 9, rng.randint(9, 24)])
    return Data(rng.randbytes(length), large=seldom(rng))


def foreign_whole(rng):
    return Whole([skipped_box(rng, "file") for _ in range(rng.choice([1, 1, 2, 3]))])


def entry_of_boxes(rng, wholes):
    """A good chunk that is neighbouring boxes."""
    whole = rng.choice(wholes)
    first, end = sorted(rng.sample(whole.edges(), 2))
    return Entry(GOOD, end - first, whole, first)


def absent(rng):
    """The flag byte of a chunk that is not present."""
    return rng.choice([LOST, ELSEWHERE])


def foreign_entry(rng, datas, room, wholes=()):
    """A chunk of at most `room` positions."""
    if wholes and rng.random() < 0.4:
        entry = entry_of_boxes(rng, wholes)
        if entry.size <= room:
            return entry
    few = rng.randint(1, 9)
    size = min(room, rng.choice([0, 1, 2, few, few, rng.randint(0, 15)]))
    flag_byte = rng.choice([GOOD, GOOD, GOOD, GOOD, DAMAGED, LOST, ELSEWHERE])
    holding = [data for data in datas if len(data.body) >= size]
    if flag_byte in (LOST, ELSEWHERE) or size > 0 and not holding:
        return Entry(absent(rng), size)
    if size == 0:
        return Entry(flag_byte, 0, wild=rng.getrandbits(64))
    data = rng.choice(holding)
    return Entry(flag_byte, size, data, rng.randint(0, len(data.body) - size))


def foreign_entries(rng, datas, span, wholes=()):
    """The chunks of one segment, at most `span` positions."""
    if rng.random() < 0.05:
        return [Entry(rng.choice([GOOD, DAMAGED, LOST, ELSEWHERE]), 0, wild=rng.getrandbits(64))
                for _ in range(rng.randint(1, 3))]
    entries = []
    for _ in range(rng.choice([0, 1, 1, 2, 3, 3, 4, 5])):
        room = span - sum(entry.size for entry in entries)
        entries.append(foreign_entry(rng, datas, room, wholes))
    return entries


def source_offset(rng, room):
    """An offset up to `room`: near the front, near the end, or at it."""
    return rng.choice([0, rng.randint(0, min(room, 60)), max(0, room - rng.randint(0, 5)), room])


def foreign_segment(rng, datas, span, wholes=()):
    entries = foreign_entries(rng, datas, span, wholes)
    length = sum(entry.size for entry in entries)
    segment = Segment(source_offset(rng, span - length), entries)
    dress(rng, segment)
    return segment


def dress(rng, segment):
    """Chooses all that has no effect on which positions are supplied."""
    segment.version = rng.choice([0, 0, 0, 1, 1, rng.randint(1, 255)])
    segment.flags = rng.choice([0, 0, 2, 4, 6, rng.getrandbits(24) & 0xFFFFFE])
    segment.repair_time = rng.choice([0, rng.getrandbits(64)])
    segment.length_size, segment.offset_size = width(rng), width(rng)
    segment.large, segment.pshd_large, segment.ploc_large = seldom(rng), seldom(rng), seldom(rng)
    for parts in (segment.between, segment.after):
        if rng.random() < 0.08:
            parts.append(skipped_box(rng, "pseg"))


def stretch(rng, segments, span):
    """Lets a chunk that is not present reach the end of a source of any size."""
    segment = rng.choice(segments)
    segment.entries.append(Entry(absent(rng), span - segment.end()))
    rng.shuffle(segment.entries)


def close(rng, segments, span):
    """Flags a segment that ends where the source does, and others that agree."""
    closing = rng.choice(segments)
    if closing.is_open():
        closing.entries.append(Entry(absent(rng), rng.randint(0, min(span, 9))))
    closing.offset = span - (closing.end() - closing.offset)
    for segment in segments:
        agrees = segment.is_open() or segment.end() == span
        if segment is closing or agrees and rng.random() < 0.4:
            segment.flags |= 1


def huge_span(rng):
    """The length of a source near its limit, near the first offset of the 64-bit form, or anywhere."""
    near = [LIMIT, LIMIT - 1, LIMIT - rng.randint(0, 9), WIDE + rng.randint(-2, 2), WIDE + rng.randint(-9, 9), WIDE + rng.randint(0, WIDE)]
    return rng.choice([*near, rng.randint(1000, WIDE), rng.randint(1000, LIMIT)])


def foreign_source(rng, datas, wholes, count, huge=False):
    """So many segments of one source, its size known or not."""
    span = huge_span(rng) if huge else rng.randint(0, 60)
    segments = [foreign_segment(rng, datas, span, wholes) for _ in range(count)]
    if huge and rng.random() < 0.5:
        stretch(rng, segments, span)
    if rng.random() < 0.5:
        close(rng, segments, span)
    return segments


def layer_counts(rng):
    """How many segments each source of a file has that is given its lists of URLs: mostly a few, now and then as many
    sources as may be."""
    if rng.random() < 0.03:
        return SOURCES * [1]
    return rng.choice([[1], [2], [1, 1], [1, 1], [1, 1], [1, 2], [2, 1], [1, 1, 1]])


def foreign_plan(rng, huge=False, mixed=None):
    """The plan of an acceptable file; one in three is mixed where nothing is said."""
    mixed = rng.random() < 0.33 if mixed is None else mixed
    datas = [foreign_data(rng) for _ in range(rng.choice([0, 1, 1, 1, 2, 2, 3]))]
    wholes = [foreign_whole(rng) for _ in range(rng.choice([0, 1, 1, 2]))] if mixed else []
    layered = rng.random() < 0.4
    counts = layer_counts(rng) if layered else [rng.choice([1, 2, 2, 2, 3, 4])]
    groups = [foreign_source(rng, datas, wholes, count, huge) for count in counts]
    items = datas + wholes + [segment for group in groups for segment in group]
    while rng.random() < 0.2:
        items.append(Other(skipped_box(rng, "file")))
    rng.shuffle(items)
    plan = Plan(foreign_ftyp(rng, mixed), foreign_pfil_parts(rng), items, seldom(rng), mixed)
    if layered:
        spread(rng, plan, groups)
    if rng.random() < 0.4:
        add_indexes(rng, plan)
    return plan


def indexed_source(rng, data):
    """Segments of a source that has most of its bytes, all in order in a pdat."""
    at, segments = 0, []
    sizes = rng.choice([[8], [8, 16], [8, 16, rng.randint(1, 60), 60]])
    while at < len(data.body):
        segment = Segment(at, [])
        for _ in range(rng.randint(1, 3)):
            size = min(len(data.body) - segment.end(), rng.choice(sizes))
            flag_byte = GOOD if rng.random() < 0.7 else rng.choice([DAMAGED, LOST, ELSEWHERE])
            segment.entries.append(Entry(flag_byte, size, data if flag_byte in (GOOD, DAMAGED) else None, segment.end()))
        dress(rng, segment)
        segments.append(segment)
        at = segment.end()
    if rng.random() < 0.6:
        segments[-1].flags |= 1
    return segments


def indexed_plan(rng):
    """The plan of a file that has most of its source, of which an index tells the boxes; in some there is another one
    beside it."""
    layered = rng.random() < 0.3
    datas = [Data(rng.randbytes(rng.randint(40, 150)), seldom(rng)) for _ in range(2 if layered else 1)]
    groups = [indexed_source(rng, data) for data in datas]
    items = datas + [segment for group in groups for segment in group]
    rng.shuffle(items)
    plan = Plan(foreign_ftyp(rng, False), foreign_pfil_parts(rng), items, seldom(rng))
    if layered:
        spread(rng, plan, groups)
    add_indexes(rng, plan)
    return plan


def indexed_file(rng):
    """The bytes of such a file."""
    return indexed_plan(rng).assemble()


def mixed_file(rng):
    """The bytes of a mixed file, some good chunk of which is whole boxes."""
    while True:
        plan = foreign_plan(rng, mixed=True)
        if any(isinstance(entry.data, Whole) for segment in plan.segments() for entry in segment.entries):
            return plan.assemble()


def overstep(rng, plan):
    """Puts the end of a segment just past the limit, or flags one too many."""
    segment = rng.choice(plan.segments())
    if rng.random() < 0.5:
        segment.entries.append(Entry(absent(rng), LIMIT + rng.choice([1, 1, 2, 300]) - segment.end()))
    else:
        segment.flags |= 1


def foreign_file(rng):
    """The bytes of a file by another writer; a few in a hundred go too far."""
    plan = indexed_plan(rng) if rng.random() < 0.05 else foreign_plan(rng, huge=seldom(rng))
    if rng.random() < 0.04:
        overstep(rng, plan)
    return plan.assemble()
