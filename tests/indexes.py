"""Makes box indexes as another writer would, down to eight levels, and puts them into the plan of a file."""

from boxes import box
from layers import is_segment, segments_for

LIMIT = 1_099_511_627_775
LEVELS = 8
# The size of the least box.
LEAST = 8
KINDS = [b"moov", b"trak", b"mdia", b"moof", b"mdat", b"free"]
SKIPPED = [b"dint", b"dint", b"free", b"fidx", b"surl", b"ploc", b"uuid"]


class Indexed:
    """A box of an index: what its bidx states, and the boxes of its list, those that it indexes among others."""

    def __init__(self, size, kind):
        self.size = size
        self.kind = kind
        self.user_type = b""
        self.large = self.to_end = self.bidx_large = False
        self.parts = []

    def header(self):
        """The length of its header in the source."""
        return (16 if self.large else 8) + len(self.user_type)

    def inner(self):
        return [part for part in self.parts if isinstance(part, Indexed)]

    def fields(self):
        if self.large:
            return (1).to_bytes(4, "big") + self.kind + self.size.to_bytes(8, "big") + self.user_type
        return (0 if self.to_end else self.size).to_bytes(4, "big") + self.kind + self.user_type

    def content(self):
        return box(b"bidx", self.fields(), *content_of(self.parts), large=self.bidx_large)


class Index:
    """A fidx."""

    def __init__(self, parts, large=False):
        self.parts = parts
        self.large = large

    def inner(self):
        return [part for part in self.parts if isinstance(part, Indexed)]

    def content(self):
        return box(b"fidx", *content_of(self.parts), large=self.large)


def content_of(parts):
    return [part if isinstance(part, bytes) else part.content() for part in parts]


def seldom(rng):
    return rng.random() < 0.1


def put_anywhere(rng, parts, part):
    parts.insert(rng.randint(0, len(parts)), part)


def skipped_in_list(rng):
    """A box that a reader of an index skips."""
    kind = rng.choice(SKIPPED)
    vendor = rng.randbytes(16) if kind == b"uuid" else b""
    return box(kind, vendor, rng.randbytes(rng.choice([0, 3, 8])), large=seldom(rng))


def split(rng, total):
    """Sizes of boxes that fill a total."""
    sizes = []
    for _ in range(rng.choice([0, 0, 1, 1, 2])):
        if total >= 2 * LEAST:
            most = total - LEAST
            sizes.append(min(most, rng.choice([8, 16, 9, rng.randint(8, 30), rng.randint(8, most)])))
            total -= sizes[-1]
    return sizes + [total]


def indexed_box(rng, size, level, may_end, deep):
    """A box of that size with what is inside it; the last of a list may run to the end."""
    made = Indexed(size, rng.choice(KINDS + [rng.randbytes(4)]))
    made.to_end = may_end and rng.random() < 0.3
    made.bidx_large = seldom(rng)
    if not made.to_end and size >= 16:
        made.large = size >= 2 ** 32 or seldom(rng)
    if made.kind == b"uuid" or size >= made.header() + 16 and rng.random() < 0.15:
        made.kind, made.user_type = b"uuid", rng.randbytes(16)
    fill(rng, made, level, deep)
    return made


def fill(rng, made, level, deep):
    """Puts boxes inside, where there is room for them, a front part and boxes that are skipped."""
    room = made.size - made.header()
    front = 0 if deep else min(room, rng.choice([0, 0, 0, 4, rng.randint(0, 12)]))
    if level < LEVELS and room - front >= LEAST and (deep or rng.random() < 0.5):
        sizes = [room] if deep else split(rng, room - front)
        made.parts = [indexed_box(rng, size, level + 1, at + 1 == len(sizes), deep) for at, size in enumerate(sizes)]
    elif seldom(rng):
        front = rng.randint(0, 20)
    if front or seldom(rng):
        put_anywhere(rng, made.parts, box(b"frpa", rng.randbytes(front), large=seldom(rng)))
    if seldom(rng):
        put_anywhere(rng, made.parts, skipped_in_list(rng))


def new_index(rng, start, size, described, deep=None):
    """An index from a source position on: up to the end of the source where its size is known, up to what is described,
    or to anywhere."""
    deep = rng.random() < 0.05 if deep is None else deep
    totals = [rng.randint(8, 40), rng.randint(8, 90)] if not deep else [rng.randint(LEVELS * 9, 120)]
    if not deep and described - start >= LEAST:
        totals += 3 * [described - start]
    if seldom(rng):
        totals = [LIMIT - start, rng.randint(2 ** 32, LIMIT)]
    total = min(rng.choice(totals), LIMIT - start)
    parts = []
    if total >= LEAST and not (seldom(rng) and not deep):
        sizes = [total] if deep else split(rng, total)
        parts = [indexed_box(rng, one, 1, at + 1 == len(sizes) and size == start + total, deep) for at, one in enumerate(sizes)]
    if seldom(rng):
        put_anywhere(rng, parts, rng.choice([skipped_in_list(rng), box(b"frpa", rng.randbytes(5))]))
    return Index(parts, seldom(rng))


# The plan of a file.

def known_size(plan, container):
    """The size of the source of pfil or of a segment, None where it is not known."""
    return min([segment.end() for segment in segments_for(plan, container) if segment.flags & 1 and not segment.is_open()], default=None)


def index_for(rng, plan, container, deep=None):
    described = max([segment.end() for segment in segments_for(plan, container)], default=0)
    return new_index(rng, start_of(container), known_size(plan, container), described, deep)


def parts_of(rng, container):
    """The list of parts of pfil or of a segment into which an index is put."""
    return rng.choice([container.between, container.after]) if is_segment(container) else container.pfil_parts


def start_of(container):
    return container.offset if is_segment(container) else 0


def put_index(rng, container, index):
    put_anywhere(rng, parts_of(rng, container), index.content())


def add_indexes(rng, plan):
    """An index in pfil, or in some of the segments."""
    containers = [plan]
    if rng.random() < 0.5 and plan.segments():
        containers = rng.sample(plan.segments(), rng.randint(1, min(2, len(plan.segments()))))
    for container in containers:
        put_index(rng, container, index_for(rng, plan, container))
