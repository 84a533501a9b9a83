"""Models salvage: what the copy of a spoiled file keeps, and the lines on what it drops.

Written from request 9.  The boxes of the file are found first, up to the first framing error; then each segment is
judged beside those that are kept already; then the boxes that stay are given their places in the copy, and at last the
copy is written.

Readings, where the request can be read in two ways:

 1. Which refusals has it of the first two boxes?  The framing of both, and then 7 to 11 as if there were no others:
    `ftyp` twice is 7, `ftyp` alone 9, nothing at all 7, and a wrong first box before a cut one the number of the cut.
 2. A later `ftyp` or `pfil`?  Dropped, with 7 or 9, by which reading would refuse it.
 3. A segment behind 64 that are kept, with a fault of its own?  13: reading judges that before it looks into a `pseg`.
 4. In which order are the others asked?  In that of reading: framing, 14, 15, 16, 41, 17 to 24, then 25, then 40.
 5. Beside which segments?  Those kept, in file order; one that is left out contradicts nobody, takes no chunk from the
    limit of 22 and has no source.
 6. Where may the chunks of a segment lie?  In any whole box before the first framing error of the old file, a `pdat`
    behind the segment too.  With one chunk that may not lie where it does the whole segment goes.
 7. Which boxes stay in a mixed file beside `pdat` and `pseg`?  Those of kept good chunks of size above 0; a `fidx` of
    the file itself is such a box as any other.
 8. In which form are offsets rewritten?  In their old width, which holds them, as no distance grows.  A chunk that is
    not present has no offset.
 9. What else changes inside a kept box?  Its size where a `fidx` of its own goes, in the old form of the header;
    nothing else, flags that speak of the index neither.
10. Which line has a framing error?  The place of the header that could not be taken and its number, 6 for a 513th box,
    behind the lines of all boxes; an error inside a `pseg` is that segment's number.
11. Which boxes have no line?  Those kept, and each `fidx` inside one of them.
12. May the copy be longer than a file may be?  It is never longer than the old file, so 1 is said of that alone.
"""

from collections import namedtuple

from model import (
    GOOD, PMFF, Head, brands_of, check_pfhd, check_pfil, line, numbered, present, read_entry, read_ploc_head, read_segment,
    read_sources)
from model_boxes import (
    BUFFER_TOO_SHORT, FILE_OVER_LIMIT, FTYP_FAULT, INPUT_OVER_LIMIT, LIMITS, PFIL_FAULT, SURL_FAULT, TOO_MANY_SEGMENTS,
    Refused, attempt, frame, framed, of_kind, refuse_if, unsigned)
from model_sources import read_surls

# Of a box that is dropped though nothing was wrong with it.
NOTHING_WRONG = 0

# A file before anything is judged: its whole boxes, whether it is mixed and the texts in pfil, and place and number of
# the first framing error, None where there is none.
Found = namedtuple("Found", "head fault")
# The segments that are kept and their chunks, and the number of each box that is dropped, by its place.
Judged = namedtuple("Judged", "segments chunks dropped")


# What is there.

def whole_boxes(file):
    """The boxes before the first framing error, and place and number of that."""
    boxes, place = [], 0
    try:
        for box in framed(file, 0, len(file)):
            boxes.append(box)
            place = box.end
    except Refused as refusal:
        return boxes, (place, refusal.number)
    return boxes, None


def find(file):
    """Stage 1, and 2 to 11 of the first two boxes."""
    refuse_if(len(file) > LIMITS["file"], FILE_OVER_LIMIT)
    boxes, fault = whole_boxes(file)
    first_two = boxes[:2]
    if len(first_two) < 2 and fault is not None:
        raise Refused(fault[1])
    brands = brands_of(file, first_two)
    check_pfil(first_two)
    parts = frame(file, boxes[1].body, boxes[1].end)
    check_pfhd(file, parts)
    return Found(Head(boxes, PMFF in brands, read_surls(file, parts, SURL_FAULT)), fault)


# What is kept.

def judge_segment(file, head, segments, chunks, pseg):
    """A segment and its chunks beside those that are kept; refused with the number by which it is left out."""
    refuse_if(len(segments) == LIMITS["segments"], TOO_MANY_SEGMENTS)
    segment, added = read_segment(file, head, pseg, len(segments), len(chunks))
    read_sources(head, numbered(file, head, [*segments, segment]), [*chunks, *added])
    return segment, added


def judge_segments(file, head):
    """The segments that are kept, their chunks, and the numbers of those that are left out, by their places."""
    segments, chunks, left_out = [], [], {}
    for pseg in of_kind(head.boxes, b"pseg"):
        number, taken = attempt(judge_segment, file, head, segments, chunks, pseg)
        if number:
            left_out[pseg.place] = number
        else:
            segments.append(taken[0])
            chunks.extend(taken[1])
    return segments, chunks, left_out


def holds_a_chunk(box, chunks):
    """Whether a good chunk lies in a box of the file, as one box or one of a run."""
    return any(chunk.state == GOOD and chunk.size > 0 and chunk.place <= box.place and box.end <= chunk.place + chunk.size for chunk in chunks)


def judge(file, head):
    """What becomes of each box behind the first two."""
    segments, chunks, dropped = judge_segments(file, head)
    for box in head.boxes[2:]:
        if box.kind == b"ftyp":
            dropped[box.place] = FTYP_FAULT
        elif box.kind == b"pfil":
            dropped[box.place] = PFIL_FAULT
        elif box.kind not in (b"pdat", b"pseg") and not (head.mixed and holds_a_chunk(box, chunks)):
            dropped[box.place] = NOTHING_WRONG
    return Judged(segments, chunks, dropped)


# The copy.

def parts_that_stay(file, container):
    return [part for part in frame(file, container.body, container.end) if part.kind != b"fidx"]


def header_with(file, box, length):
    """The header of a box in the form that it has, with another length of the whole box."""
    if unsigned(file, box.place, 4) == 1:
        return file[box.place:box.place + 8] + length.to_bytes(8, "big")
    return length.to_bytes(4, "big") + file[box.place + 4:box.body]


def new_length(file, box):
    """How long a box that stays is in the copy."""
    if box.kind not in (b"pfil", b"pseg"):
        return box.end - box.place
    return box.body - box.place + sum(part.end - part.place for part in parts_that_stay(file, box))


def new_places(file, boxes):
    """Where each box that stays begins in the copy, by its old place, and how long the copy is."""
    places, place = {}, 0
    for box in boxes:
        places[box.place] = place
        place += new_length(file, box)
    return places, place


def moved(boxes, places, place):
    """The place in the copy of a byte of a box that stays as it is."""
    around = next(box for box in boxes if box.place <= place < box.end)
    return places[around.place] + place - around.place


def new_ploc(file, ploc, new_offsets):
    """A ploc with another offset for each present chunk, in the old width."""
    length_size, offset_size, chunk_count = read_ploc_head(file, ploc)
    cursor, content = ploc.body + 9, file[ploc.place:ploc.body + 9]
    for index in range(chunk_count):
        begins = cursor
        state, size, offset, cursor = read_entry(file, cursor, ploc.end, (length_size, offset_size))
        content += file[begins:begins + 1 + length_size]
        if present(state):
            content += new_offsets[index].to_bytes(offset_size, "big", signed=True)
    return content


def new_pseg(file, pseg, chunks, boxes, places):
    """A kept segment as it stands in the copy; the chunks are its own."""
    begins = places[pseg.place]
    offsets = [moved(boxes, places, chunk.place) - begins if present(chunk.state) and chunk.size > 0 else 0 for chunk in chunks]
    content = header_with(file, pseg, new_length(file, pseg))
    for part in parts_that_stay(file, pseg):
        content += new_ploc(file, part, offsets) if part.kind == b"ploc" else file[part.place:part.end]
    return content


def new_pfil(file, pfil):
    content = header_with(file, pfil, new_length(file, pfil))
    return content + b"".join(file[part.place:part.end] for part in parts_that_stay(file, pfil))


def copy_of(file, head, judged):
    """All boxes that stay, one behind the other."""
    boxes = [box for box in head.boxes if box.place not in judged.dropped]
    places, length = new_places(file, boxes)
    by_place = {segment.place: [chunk for chunk in judged.chunks if chunk.segment == number] for number, segment in enumerate(judged.segments)}
    contents = []
    for box in boxes:
        if box.kind == b"pfil":
            contents.append(new_pfil(file, box))
        elif box.kind == b"pseg":
            contents.append(new_pseg(file, box, by_place[box.place], boxes, places))
        else:
            contents.append(file[box.place:box.end])
    copy = b"".join(contents)
    assert len(copy) == length
    return copy


# Both calls.

def salvaged(file):
    """Stages 1 to 11: the copy."""
    found = find(file)
    return copy_of(file, found.head, judge(file, found.head))


def check_copy(file, room):
    copy = salvaged(file)
    refuse_if(len(copy) > room, BUFFER_TOO_SHORT)
    return copy


def salvage(file, buffer):
    """Copies a spoiled file into the front of the buffer."""
    number, copy = attempt(check_copy, file, len(buffer))
    if number:
        return ("refused", number), buffer
    return ("length", len(copy)), copy + buffer[len(copy):]


def dropped_and_faults(file):
    """Place and number of each box that is dropped and of the first framing error, ascending."""
    found = find(file)
    told = sorted(judge(file, found.head).dropped.items())
    return told + [found.fault] if found.fault is not None else told


def salvage_text(file, most=LIMITS["program input"]):
    """What the program writes."""
    if len(file) > most:
        return line("refused", INPUT_OVER_LIMIT)
    number, told = attempt(dropped_and_faults, file)
    if number:
        return line("refused", number)
    return b"".join(line(place, number) for place, number in told)
