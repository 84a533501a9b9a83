"""Models the box index of a partial file: its refusals, and the level, source place, size and type of each indexed box.

Written from request 7 and from 5.2.2, 5.2.3 and 5.2.6 of ISO/IEC 23001-14.  First the boxes of all indexes are read as
they stand in the file, then they are given their places in the source.

Readings, where the request can be read in two ways:

 1. Which level has a box of `fidx` itself?  1, so that "eight levels" are 1 to 8.
 2. In which order do the rows stand?  In file order, a box before those inside it.
 3. Which size has the row of a size 0?  That which it runs to; one below its header, or below 0, is 36.
 4. A large size of 0?  36, "a size under its header": only `indexed_box_size` can say that a box runs to the end.
 5. May a box end after the known size of the source?  Yes, only the limit of 23 judges a stated end.
 6. What may follow a size 0?  Any box but a `bidx`: it is last among those.
 7. A front part longer than its box?  Taken where no box stands inside, as then nothing has to fill it.
 8. Where may the front part stand?  Anywhere in its list; its body moves the inner boxes, and is not compared.
 9. `frpa` in `fidx`, `fidx` in `bidx`, `bidx` beside `fidx`, boxes not known?  Skipped by size.
10. What is framed?  `fidx` and every `bidx` of levels 1 to 8, the 513th box being a fault too; no other box of an index.
11. What is judged of a ninth level?  Nothing but that it is there: neither its fields, nor whether it fills its box.
12. Does a 37 in `pfil` come before a 36 in a segment?  No, "after 25 in number order": each stage sees the whole file.
13. A box inside one whose end is not known?  It is judged as any other, but does not have to fill it.
14. A size 0 of level 1 in a segment?  It runs to the end of the source, not of the segment.
15. Is an empty `fidx` an index?  Yes, it counts as a second one and for 38, and has no rows.
16. With several sources, whose end does a size 0 of level 1 run to?  That of its index's own source (request 8).
"""

from collections import namedtuple

from model_boxes import (
    END_NOT_KNOWN, INDEX_FAULT, INDEXES_IN_BOTH, LIMITS, NINTH_LEVEL, USER_TYPE_LENGTH, attempt, frame, of_kind,
    refuse_if, unsigned)

LEVELS = 8

# A box as an index states it: its size, None where it runs to the end, its type, the length of its header and front
# part, the boxes inside it, and whether those are of a ninth level, of which none is looked into.
Stated = namedtuple("Stated", "size kind header front inner ninth")
# The same with its place; its size is None where its end is not known.
Indexed = namedtuple("Indexed", "level place size kind")


def frame_list(file, place, end):
    """The boxes of a list; every framing fault in an index is 36."""
    number, boxes = attempt(frame, file, place, end)
    refuse_if(number, INDEX_FAULT)
    return boxes


def stated_header(file, bidx):
    """The size that a bidx states, the type, the length of the header in the source, and where its list begins."""
    size, kind = unsigned(file, bidx.body, 4), file[bidx.body + 4:bidx.body + 8]
    large = size == 1
    header = 8 + (8 if large else 0) + (USER_TYPE_LENGTH if kind == b"uuid" else 0)
    refuse_if(bidx.end - bidx.body < 8 or bidx.end - bidx.body < header, INDEX_FAULT)
    if large:
        size = unsigned(file, bidx.body + 8, 8)
    elif size == 0:
        size = None
    return size, kind, header, bidx.body + header


def read_bidx(file, bidx, level):
    """One box of an index with those inside it."""
    size, kind, header, place = stated_header(file, bidx)
    boxes = frame_list(file, place, bidx.end)
    parts = of_kind(boxes, b"frpa")
    refuse_if(len(parts) > 1, INDEX_FAULT)
    front = sum(part.end - part.body for part in parts)
    if level == LEVELS:
        return Stated(size, kind, header, front, [], bool(of_kind(boxes, b"bidx")))
    return Stated(size, kind, header, front, read_list(file, boxes, level + 1), False)


def read_list(file, boxes, level):
    """The boxes that a list indexes."""
    found = [read_bidx(file, bidx, level) for bidx in of_kind(boxes, b"bidx")]
    refuse_if(any(stated.size is None for stated in found[:-1]), INDEX_FAULT)
    return found


def placed(found, level, place, end):
    """The boxes of a list from a place in the source on, each followed by those inside it; `end` is that of their
    enclosing box or of the source, None where it is not known."""
    rows = []
    for stated in found:
        size = stated.size
        if size is None and end is not None:
            size = end - place
        box_end = None if size is None else place + size
        refuse_if(size is not None and size < stated.header, INDEX_FAULT)
        refuse_if(box_end is not None and box_end > LIMITS["source"], INDEX_FAULT)
        rows.append(Indexed(level, place, size, stated.kind))
        rows += inside(stated, level + 1, place + stated.header + stated.front, box_end)
        place = box_end
    return rows


def inside(stated, level, place, end):
    """The boxes inside one, which fill it where there are any and its end is known."""
    rows = placed(stated.inner, level, place, end)
    if stated.inner and end is not None:
        last = [row for row in rows if row.level == level][-1]
        refuse_if(last.place + last.size != end, INDEX_FAULT)
    return rows


def has_ninth(found):
    return any(stated.ninth or has_ninth(stated.inner) for stated in found)


def read_index(file, container):
    """The boxes of the index of pfil or of a pseg, None where it has none."""
    indexes = of_kind(frame(file, container.body, container.end), b"fidx")
    refuse_if(len(indexes) > 1, INDEX_FAULT)
    if not indexes:
        return None
    return read_list(file, frame_list(file, indexes[0].body, indexes[0].end), 1)


def indexed_boxes(file, boxes, starts, sizes):
    """Stages 36 to 39: the indexed boxes of pfil and of each segment, in file order; of each of these the position is
    given that its index starts from, and the size of its source, None where that is not known."""
    containers = [boxes[1], *of_kind(boxes, b"pseg")]
    indexes = [read_index(file, container) for container in containers]
    found = [placed(index or [], 1, start, size) for index, start, size in zip(indexes, starts, sizes)]
    refuse_if(any(has_ninth(index or []) for index in indexes), NINTH_LEVEL)
    of_pfil, *of_segments = [index is not None for index in indexes]
    refuse_if(of_pfil and any(of_segments), INDEXES_IN_BOTH)
    refuse_if(any(row.size is None for rows in found for row in rows), END_NOT_KNOWN)
    return found
