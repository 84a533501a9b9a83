"""Walks over the boxes of a film (ISO/IEC 14496-12), writes the index of them (ISO/IEC 23001-14, 5.2.2, 5.2.3 and
5.2.6), and says what is to be told of it, by the walk and by what was lost."""

from collections import namedtuple

from boxes import box, fidx

# A box of a film: its level from 1, its place, its size, its type, how long its header is and the fields behind that
# and before its inner boxes, and those, none where they are not looked at.
Walked = namedtuple("Walked", "level place size kind header front inner")

# The boxes that hold boxes, and how many bytes of fields stand before these.
CONTAINERS = dict.fromkeys(
    [b"moov", b"trak", b"edts", b"mdia", b"minf", b"dinf", b"stbl", b"mvex", b"moof", b"traf", b"mfra", b"udta", b"ilst", b"\xa9nam", b"\xa9too"], 0)
CONTAINERS |= {b"meta": 4, b"dref": 8, b"stsd": 8, b"mp4v": 78, b"mp4a": 28}


def header_at(film, place, end):
    """The size, the type and the header's length of the box at a place; size 0 runs to the end of what holds it."""
    size, kind = int.from_bytes(film[place:place + 4], "big"), film[place + 4:place + 8]
    header = 8
    if size == 1:
        size, header = int.from_bytes(film[place + 8:place + 16], "big"), 16
    return size or end - place, kind, header + (16 if kind == b"uuid" else 0)


def walk(film, deepest, level=1, place=0, end=None):
    """The boxes of a film, or of a part of it, down to the deepest level."""
    end, boxes = len(film) if end is None else end, []
    while place < end:
        size, kind, header = header_at(film, place, end)
        assert header <= size <= end - place, (place, size, kind)
        holds = level < deepest and kind in CONTAINERS
        front = CONTAINERS[kind] if holds else 0
        inner = walk(film, deepest, level + 1, place + header + front, place + size) if holds else []
        boxes.append(Walked(level, place, size, kind, header, front, inner))
        place += size
    return boxes


def flat(boxes):
    """Each box before those inside it."""
    return [one for walked in boxes for one in [walked, *flat(walked.inner)]]


# The index.

def index_of_box(film, walked):
    """The header of a box as the film has it, the fields behind it where boxes follow them, and the inner boxes."""
    body = walked.place + walked.header
    front = [box(b"frpa", film[body:body + walked.front])] if walked.front and walked.inner else []
    return box(b"bidx", film[walked.place:body], *front, *[index_of_box(film, one) for one in walked.inner])


def index_of(film, boxes):
    return fidx(*[index_of_box(film, walked) for walked in boxes])


def with_index(file, kind, index):
    """A partial file with an index at the end of its last `pfil` or `pseg`, which for `pseg` is the end of the file, as
    nothing else may move."""
    last = [walked for walked in walk(file, 1) if walked.kind == kind][-1]
    end = last.place + last.size
    assert last.header == 8 and (kind == b"pfil" or end == len(file))
    return file[:last.place] + (last.size + len(index)).to_bytes(4, "big") + file[last.place + 4:end] + index + file[end:]


# What is to be told.

def word_of(walked, lost):
    """Whether all, some or none of a box is there, by the ranges that were lost, which do not touch."""
    missing = sum(max(0, min(end, walked.place + walked.size) - max(first, walked.place)) for first, end in lost)
    return "all" if missing == 0 else "none" if missing == walked.size else "some"


def shown_type(kind):
    return "".join(chr(byte) if 0x20 <= byte <= 0x7E else f"\\x{byte:02x}" for byte in kind)


def lines(boxes, lost):
    """What `paff index` prints."""
    rows = [(one.level, one.place, one.size, shown_type(one.kind), word_of(one, lost)) for one in flat(boxes)]
    return "".join("\t".join(str(field) for field in row) + "\n" for row in rows).encode("ascii")
