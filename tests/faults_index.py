"""Puts an index into the plan of a file that reading must refuse with one given number, 36 to 39."""

import broken
from boxes import box
from indexes import LEVELS, LIMIT, Index, Indexed, index_for, known_size, put_anywhere, put_index, start_of
from layers import is_segment, segments_for

FREE = box(b"free")
BOXES = 512


def containers(plan):
    return [plan, *plan.segments()]


def has_index(container):
    parts = container.between + container.after if is_segment(container) else container.pfil_parts
    return any(part[4:8] == b"fidx" for part in parts)


def without_index(container):
    """Takes the index out of pfil or of a segment."""
    if is_segment(container):
        container.between = [part for part in container.between if part[4:8] != b"fidx"]
        container.after = [part for part in container.after if part[4:8] != b"fidx"]
    else:
        container.pfil_parts = [part for part in container.pfil_parts if part[4:8] != b"fidx"]


def lists_in(part, level=0):
    """The fidx or bidx and every bidx in it, each with its level."""
    return [(part, level)] + [found for inner in part.inner() for found in lists_in(inner, level + 1)]


def some_list(rng, index, most=LEVELS):
    """The fidx or a bidx of at most that level."""
    return rng.choice([part for part, level in lists_in(index) if level <= most])


def nested(rng, index):
    """Some box of the index, made where it has none."""
    if not index.inner():
        index.parts.append(Indexed(40, b"moov"))
    return rng.choice([part for part, level in lists_in(index) if level > 0])


def to_the_end(kind, parts):
    """A box of size 0."""
    made = Indexed(0, kind)
    made.to_end, made.parts = True, parts
    return made


# 36: each puts one fault into an index of pfil or of a segment.

def framing_fault(rng, plan, index, container):
    maker = rng.choice([broken.cut_header, broken.size_0, broken.below_header, broken.past_container])
    some_list(rng, index).parts.append(maker(rng))


def too_many_boxes(rng, plan, index, container):
    filled = some_list(rng, index)
    filled.parts += (BOXES + 1 - len(filled.parts)) * [FREE]


def cut_fields(rng, plan, index, container):
    cut = rng.choice([rng.randbytes(rng.randint(0, 7)), (1).to_bytes(4, "big") + b"moov" + bytes(rng.randint(0, 7)),
                      (1).to_bytes(4, "big") + b"uuid" + (99).to_bytes(8, "big") + bytes(rng.randint(0, 15)),
                      (40).to_bytes(4, "big") + b"uuid" + bytes(rng.randint(0, 15)), bytes(4) + b"uuid" + bytes(rng.randint(0, 15))])
    put_anywhere(rng, some_list(rng, index, LEVELS - 1).parts, box(b"bidx", cut))


def under_header(rng, plan, index, container):
    size, kind, large = rng.choice([
        (rng.randint(2, 7), b"moov", False), (rng.randint(2, 23), b"uuid", False), (rng.randint(0, 15), b"moov", True), (rng.randint(0, 31), b"uuid", True)])
    under = Indexed(size, kind)
    under.large, under.user_type = large, bytes(16) if kind == b"uuid" else b""
    put_anywhere(rng, some_list(rng, index, LEVELS - 1).parts, under)


def under_header_at_the_end(rng, plan, index, container):
    """A size 0 where nothing, or too little, is left of the box around it or of the source."""
    size, start = known_size(plan, container), start_of(container)
    left = rng.choice([0, 0, 1, 7, -1, -9])
    last = to_the_end(rng.choice([b"mdat", b"uuid"]), [])
    last.user_type = bytes(16) if last.kind == b"uuid" else b""
    if size is not None and size - start - left >= 8 and rng.random() < 0.5:
        index.parts = [Indexed(size - start - left, b"moov"), last]
        return
    around = Indexed(40, b"moov")
    around.parts = [Indexed(32 - left, b"trak"), last]
    index.parts.insert(0, around)


def not_last(rng, plan, index, container):
    """A size 0 before another box, which may run to the end too."""
    last = nested(rng, index)
    listed = [part for part, level in lists_in(index) if last in part.parts][0]
    listed.parts.insert(listed.parts.index(last), to_the_end(b"free", []))


def not_filling(rng, plan, index, container):
    """Boxes inside one that are too long or too short together, or that its front part moves."""
    around = Indexed(60, b"moov")
    around.parts = [Indexed(20, b"trak"), Indexed(32, b"mdia")]
    cause = rng.choice(["size", "inner", "front", "more"])
    if cause == "size":
        around.size += rng.choice([-1, 1, 4, 2 ** 31])
    elif cause == "inner":
        rng.choice(around.parts).size += rng.choice([-12, -1, 1, 2 ** 31])
    elif cause == "front":
        put_anywhere(rng, around.parts, box(b"frpa", bytes(rng.choice([1, 8, 52]))))
    else:
        put_anywhere(rng, around.parts, Indexed(8, b"free"))
    deepen(rng, around, index)


def deepen(rng, made, index):
    """Puts a box with a fault first into an index, inside some others that it would fill."""
    for _ in range(rng.choice([0, 0, 1, 3, LEVELS - 2])):
        around = Indexed(made.size + 8, b"meta")
        around.parts = [made]
        made = around
    index.parts.insert(0, made)


def second_front_part(rng, plan, index, container):
    around = nested(rng, index)
    fronts = [part for part in around.parts if isinstance(part, bytes) and part[4:8] == b"frpa"]
    for _ in range(2 - len(fronts)):
        put_anywhere(rng, around.parts, box(b"frpa"))


def over_the_limit(rng, plan, index, container):
    """An end just over the limit, or far, of a box by itself or inside one whose end is not known."""
    over = Indexed(LIMIT + 1 - start_of(container), b"mdat")
    over.size = rng.choice([over.size, over.size, over.size + 1, 2 ** 63, 2 ** 64 - 1])
    over.large = over.size >= 2 ** 32
    index.parts = [over]
    if known_size(plan, container) is None and over.size < 2 ** 63 and over.large and rng.random() < 0.4:
        over.size -= 8
        index.parts = [to_the_end(b"moov", [over])]


CAUSES = [framing_fault, framing_fault, framing_fault, cut_fields, under_header, under_header_at_the_end, not_last, not_filling, second_front_part,
          over_the_limit]


def index_fault(rng, plan):
    """An index with one fault, or a second one in one container."""
    container = rng.choice(containers(plan))
    if rng.random() < 0.12:
        for _ in range(1 if has_index(container) else 2):
            put_index(rng, container, rng.choice([Index([]), index_for(rng, plan, container)]))
        return
    without_index(container)
    index = index_for(rng, plan, container)
    cause = too_many_boxes if rng.random() < 0.03 else rng.choice(CAUSES)
    cause(rng, plan, index, container)
    put_index(rng, container, index)


# 37 to 39.

def ninth_level(rng, plan):
    """A right index of eight levels, and a box of a ninth, of which nothing is looked into."""
    container = rng.choice(containers(plan))
    without_index(container)
    index = index_for(rng, plan, container, deep=True)
    if not index.inner():
        index = eight_levels()
    deepest = [part for part, level in lists_in(index) if level == LEVELS]
    ninths = [box(b"bidx", rng.randbytes(rng.choice([0, 7, 8, 20]))) for _ in range(rng.choice([1, 1, 3]))]
    for ninth in ninths:
        put_anywhere(rng, (deepest or [eight_levels_into(index)])[0].parts, ninth)
    put_index(rng, container, index)


def eight_levels():
    index = Index([])
    eight_levels_into(index)
    return index


def eight_levels_into(index):
    """Puts eight boxes, each inside the one before, in front of an index; the last of them."""
    deepest = made = Indexed(8, b"free")
    for level in range(1, LEVELS):
        around = Indexed(8 + 8 * level, b"moov")
        around.parts = [made]
        made = around
    index.parts.insert(0, made)
    return deepest


def indexes_in_both(rng, plan):
    """A right index in pfil and in some segments, empty ones among them."""
    for container in [plan, *rng.sample(plan.segments(), rng.randint(1, min(2, len(plan.segments()))))]:
        if not has_index(container):
            index = Index([]) if rng.random() < 0.2 else index_for(rng, plan, container)
            put_index(rng, container, index)


def end_not_known(rng, plan):
    """A size 0 at the end of an index of a source whose size is not known, with other boxes inside where they stay below
    the limit."""
    container = rng.choice([one for one in containers(plan) if has_index(one)] or containers(plan))
    for segment in segments_for(plan, container):
        segment.flags &= 0xFFFFFE
    without_index(container)
    index = index_for(rng, plan, container)
    far = start_of(container) + sum(part.size for part in index.inner()) > LIMIT - 1_000
    last = to_the_end(b"mdat", [])
    for _ in range(rng.choice([0, 0, 1, 3, LEVELS - 1])):
        before = [] if far or rng.random() < 0.5 else [Indexed(rng.randint(8, 40), b"trak")]
        last = to_the_end(b"moov", [*before, last])
    index.parts.append(last)
    put_index(rng, container, index)


FAULTS = {36: index_fault, 37: ninth_level, 38: indexes_in_both, 39: end_not_known}
