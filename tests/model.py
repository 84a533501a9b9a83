"""Models the reader, the server, the lists, the index, both maps, the list of boxes and the writer of partial files.

Written from the paper "What is to be made, with rules" in its order, from
5.1.1 to 5.1.8 of ISO/IEC 23001-14 for the layout of fields, and from the change
requests that are landed.  Every function is pure, on bytes.

Readings, where the paper can be read in two ways:

 1. Is a large size of 0 number 3 or 4?  4: "Per box: 6, 2, 3, 2 for the large
    size, 4, 5" asks 3 before the large size is read.
 2. A header cut by the end of its container, not of the file: 2 or 5?  2:
    "within the framing of one container", and 2 is asked before 5.
 3. A 513th box whose header is cut short: 6 or 2?  6, asked first per box.
 4. Does a major brand `paff` satisfy number 8?  No: "no compatible brand
    `paff`".
 5. No first box, or no second: 7 and 9, by "first box not `ftyp`" with P12
    (empty input: 7), and "second box not `pfil`" in the same way.
 6. Two `pfhd`, one of them ill-formed?  10: the table of kinds says "`pfhd`
    one (`pfil`)", so there is one in all and it is well-formed.
 7. Must the texts of `surl` be UTF-8?  No: "two strings each closed by a zero
    byte, nothing after" is all the paper asks.
 8. `pshd` of version 2 or more?  The 64-bit form: 5.1.4.2 says
    "if (version==0) ... else".  Its body has exactly that length.
 9. Which flags stand in the segment row?  All 24 bits of the `pshd` flags, as
    they stand: "flags".  Only last_segment has an effect on anything else.
10. Does the body of a full box hold version and flags?  Yes: "`ploc` body
    under 9 bytes" counts them, so the `pshd` body is 16 or 20 bytes long.
11. A segment with chunks, all of size 0: open?  No, open is "`chunk_count` 0";
    its end is its source offset.
12. May an open last_segment segment lie above the known size?  No, 25: "a
    segment end or open offset lies above the known size" makes no exception.
13. Bytes after the head of an open segment's `ploc`: 17, "bytes left over".
14. Does 22 wait for the entries?  No: "19, 22, 23 (offset), entries", so
    `chunk_count` counts as it is stated.
15. Are a size or offset field cut short told apart?  No, both are "17 for the
    rest", asked before 23 and 24.
16. An empty URL or MIME text of an accepted file: a part with its own place
    and length 0; "(0, 0)" only "after a refusal".
17. A table or list that is too short is found after 25: "file acceptable,
    but".  Room is counted in numbers, and a part of a row is no row.
18. The writer's form of `pshd`: version 0 if the source offset is below 2^32,
    else version 1.  The paper leaves it to docs/.
19. "1, 6, 13, 22, 23 or 25 if the result would have it": asked in that order,
    also where a list is so long that `chunk_count` could not hold it (22).
20. What does append write after 12?  The same as after any acceptable file:
    "serving nothing with described length 0", so 25 sees the new segment only.

Of request 1, vendor boxes:

21. A `uuid` of size 20 with 20 bytes left or fewer: 4 or 5?  4: "4 also for a
    `uuid` size below 24", and per box 4 is asked before 5.
22. The container ends inside the user type of a `uuid` of size 24 or more: 2 or
    5?  5, as the request says, though the user type counts as header now.
23. What is the user type of any other box?  Empty.
24. Is a `uuid` whose user type stands for `pseg` a `pseg`?  No: the table knows
    types of four bytes.

Of request 2, mixed files:

25. Which brands does begin write for a mixed file?  `pmff` as major and as the
    only compatible one, as the paper says of `paff`: "Begin takes the brand".
26. A damaged chunk that is just whole boxes: 24, as only "a good chunk may then
    also lie in the file outside `pdat`".
27. Do two chunks that share boxes spoil each other?  No, each is judged alone.
28. Its good chunks are to go outside, and there is none, in a file that is not
    mixed: taken, since 35 is "for a good chunk to go outside".
29. A chunk to go outside of 600 boxes: 6 and not 35, as it is whole boxes, and
    the result has too many.  Every box outside counts.
30. Which box is whole?  One that our own framing takes: not one of size 0, nor a
    `uuid` that is cut in its user type.
31. In which order is the data of chunks that go outside given?  In chunk order
    among the others, as before; "in chunk order, after the `pdat`" is said of
    how append stores it.

Of request 4, chunks held elsewhere:

32. What has a chunk of state 3 in its entry, and what place has its row?  No
    offset, which stands "where present", and place 0, "0 if not present".
33. Does it count as a chunk and reach to its end?  Yes, as a lost one does:
    "it covers its positions".  A position that only such chunks cover is
    missing, since it "supplies none".
34. What is asked of its entry?  17 for the flag byte, 20, 17 for the rest and
    23; never 24, which is of a "present chunk".

Of request 5, longer recordings:

35. Which limit rises?  That on "a source offset or chunk end" alone, so that
    the last byte of a source stands at 1,099,511,627,774 at most.
36. Which form has the `pshd` of a source offset that 32 bits do not hold?  That
    of version 1, by reading 18, and no other segment has it.

Of request 6, the map that names damage:

37. A lost chunk and a damaged one on the same missing position?  Held, in
    whichever order they stand: "that some damaged chunk covers".
38. A position that only a chunk held elsewhere covers, or none at all?  Lost:
    neither is damaged.
39. Do held and lost neighbours make one range?  No, a range ends where the name
    changes; each is as long as its name lasts, as the lists are.
40. What does the total line have?  Three numbers, received, held and lost, also
    where some are 0.
41. Does a damaged chunk change what is received?  No, and neither does it change
    the missing list: held and lost together are missing as before.

Of request 7, the box index; tests/model_index.py has those on the index itself:

42. Which calls refuse with 36 to 39?  All that refuse with 25, as "Refusals,
    after 25 in number order" has no exception.
43. What are none, some and all counted of?  Of the positions of the box; those
    past the described length are not served.
44. When does append judge an index?  In its result: a file that is accepted
    before has a right one, and after 12 none is judged until then.

Of request 8, layered films; tests/model_sources.py has those on which segments
are of one source:

45. What is said of a source that the file has not?  Its length is 0, so every
    position is "above its length", both lists are empty and its size is not
    known.
46. Whose are the texts of the first `surl`?  Those of `pfil`, as before, and
    empty parts at place 0 where it has none; those of a source are asked for
    by its number.
47. Which source disagrees for 25?  Any; and 40 comes after that, wherever the
    ninth source stands in the file.
48. Whose known size ends an index?  That of the source of the list in `pfil`
    for the index there, so that it is not known while no segment is of it;
    that of its own source for the index of a segment.  38 looks at all
    segments.
49. Do 13 and 22 count per source?  No, both are said of the file.
50. When does append answer 6 for its texts?  Where the `pseg` itself would have
    more than 512 boxes, at the place of 6.
51. Which of both lists is 31, and of both bytes 32?  Either one; both reasons
    for 31 come before both for 32.
"""

from collections import namedtuple

from model_boxes import *
from model_index import indexed_boxes
from model_sources import bytes_of, first_texts, lists_by_number, read_surls, urls_of

# The kinds of box the base knows: container, and how many of each.

KINDS = {
    b"ftyp": ("file", "one"),
    b"pfil": ("file", "one"),
    b"pfhd": ("pfil", "one"),
    b"surl": ("pfil or pseg", "any number"),
    b"pseg": ("file", "one or more"),
    b"pshd": ("pseg", "one"),
    b"ploc": ("pseg", "one"),
    b"pdat": ("file", "any number"),
}

# Field layout.

LAST_SEGMENT = 0x000001
CORRUPTED = 0x80
PRESENT = 0x40
RESERVED = 0x3F
LOST, DAMAGED, GOOD, ELSEWHERE = 0, 1, 2, 3
NONE, SOME, ALL = 0, 1, 2
FLAG_BYTES = {LOST: CORRUPTED, DAMAGED: CORRUPTED | PRESENT, GOOD: PRESENT, ELSEWHERE: 0}
SEGMENT_ROW_LENGTH = 8
CHUNK_ROW_LENGTH = 6
INDEX_ROW_LENGTH = 5
RANGE_LENGTH = 2
PAFF, PMFF = b"paff", b"pmff"
NEVER_A_CHUNK = (b"ftyp", b"pfil", b"pseg", b"pdat")

# A segment is its row, its end in the source and the texts of its own surl boxes; its source is None until all segments
# are read.
Segment = namedtuple(
    "Segment", "place offset flags repair_time chunk_count pshd_body pshd_length source end surls")
Chunk = namedtuple("Chunk", "segment index start size state place")
Head = namedtuple("Head", "boxes mixed surls")
# What one source says, and a file as a whole: the number of the source that pfil has the list of, or None, and the
# indexed boxes of pfil and of each segment.
Source = namedtuple("Source", "chunks described closed surls")
Reading = namedtuple("Reading", "segments chunks sources surls of_pfil indexed")
NOT_IN_THE_FILE = Source([], 0, False, [])


# Framing.

def tiled(data):
    """The boxes that bytes are from the first to the last, however many."""
    boxes, place = [], 0
    while place < len(data):
        boxes.append(frame_box(data, place, len(data)))
        place = boxes[-1].end
    return boxes


def allowed_outside(boxes):
    """Whether boxes are of types that a chunk may be made of."""
    return not any(box.kind in NEVER_A_CHUNK for box in boxes)


def count_kept(boxes, kind):
    """Whether a container holds as many boxes of a kind as the table says."""
    count = len(of_kind(boxes, kind))
    rule = KINDS[kind][1]
    if rule == "one":
        return count == 1
    if rule == "one or more":
        return count >= 1
    return True


def body_of(file, box):
    return file[box.body:box.end]


# The boxes of the file and of pfil.

def brands_of(file, boxes):
    """The compatible brands of a file whose ftyp is right, one of ours among them."""
    refuse_if(not boxes or boxes[0].kind != b"ftyp", FTYP_FAULT)
    body = body_of(file, boxes[0])
    refuse_if(len(body) < 8 or len(body) % 4 != 0, FTYP_FAULT)
    refuse_if(not count_kept(boxes, b"ftyp"), FTYP_FAULT)
    brands = [body[at:at + 4] for at in range(8, len(body), 4)]
    refuse_if(PAFF not in brands and PMFF not in brands, NEITHER_BRAND)
    return brands


def check_pfil(boxes):
    refuse_if(len(boxes) < 2 or boxes[1].kind != b"pfil", PFIL_FAULT)
    refuse_if(not count_kept(boxes, b"pfil"), PFIL_FAULT)


def check_pfhd(file, parts):
    refuse_if(not count_kept(parts, b"pfhd"), PFHD_FAULT)
    body = body_of(file, of_kind(parts, b"pfhd")[0])
    refuse_if(len(body) != 4 or body[0] != 0, PFHD_FAULT)


def read_head(file):
    """Stages 1 to 11: the boxes of the file, whether it is mixed, and the texts in pfil."""
    refuse_if(len(file) > LIMITS["file"], FILE_OVER_LIMIT)
    boxes = frame(file, 0, len(file))
    brands = brands_of(file, boxes)
    check_pfil(boxes)
    parts = frame(file, boxes[1].body, boxes[1].end)
    check_pfhd(file, parts)
    return Head(boxes, PMFF in brands, read_surls(file, parts, SURL_FAULT))


# Segments and their chunks.

def read_pshd(file, parts):
    """The pshd box, source offset, flags and repair time of a segment."""
    refuse_if(not parts or parts[0].kind != b"pshd", PSHD_FAULT)
    refuse_if(not count_kept(parts, b"pshd"), PSHD_FAULT)
    pshd = parts[0]
    length = pshd.end - pshd.body
    refuse_if(length < 4, PSHD_FAULT)
    width = 4 if file[pshd.body] == 0 else 8
    refuse_if(length != 4 + width + 8, PSHD_FAULT)
    flags = unsigned(file, pshd.body + 1, 3)
    offset = unsigned(file, pshd.body + 4, width)
    repair_time = unsigned(file, pshd.body + 4 + width, 8)
    return pshd, offset, flags, repair_time


def read_ploc_head(file, ploc):
    """length_size, offset_size and chunk_count."""
    refuse_if(ploc.end - ploc.body < 9, PLOC_FAULT)
    refuse_if(unsigned(file, ploc.body, 4) != 0, PLOC_FAULT)
    length_size, offset_size = divmod(file[ploc.body + 4], 16)
    refuse_if(length_size > 8 or offset_size > 8, WIDTH_OVER_8)
    refuse_if(unsigned(file, ploc.body + 5, 2) != 0, DATA_REFERENCE)
    return length_size, offset_size, unsigned(file, ploc.body + 7, 2)


def state_of(flag_byte):
    refuse_if(flag_byte & RESERVED, RESERVED_BIT)
    return {known: state for state, known in FLAG_BYTES.items()}[flag_byte]


def present(state):
    """Whether the bytes of a chunk of this state are in the file."""
    return state in (DAMAGED, GOOD)


def in_one_pdat(boxes, place, size):
    return any(box.kind == b"pdat" and box.body <= place and place + size <= box.end for box in boxes)


def as_whole_boxes(boxes, place, size):
    """Whether neighbouring boxes of the file fill these bytes, all of them allowed."""
    run = [box for box in boxes if place <= box.place and box.end <= place + size]
    return bool(run) and run[0].place == place and run[-1].end == place + size and allowed_outside(run)


def may_lie(head, state, place, size):
    """Whether a present chunk of size above 0 may have its bytes there."""
    if in_one_pdat(head.boxes, place, size):
        return True
    return head.mixed and state == GOOD and as_whole_boxes(head.boxes, place, size)


def read_entry(file, cursor, end, widths):
    """The state, size and offset of one entry, and the cursor after it."""
    length_size, offset_size = widths
    refuse_if(cursor == end, PLOC_FAULT)
    state = state_of(file[cursor])
    if not present(state):
        offset_size = 0
    cursor += 1
    refuse_if(end - cursor < length_size + offset_size, PLOC_FAULT)
    size = unsigned(file, cursor, length_size)
    offset = signed(file, cursor + length_size, offset_size)
    return state, size, offset, cursor + length_size + offset_size


def read_segment(file, head, pseg, segment_number, chunks_so_far):
    """One segment and its chunks."""
    parts = frame(file, pseg.body, pseg.end)
    pshd, source_offset, flags, repair_time = read_pshd(file, parts)
    refuse_if(not count_kept(parts, b"ploc"), NOT_ONE_PLOC)
    surls = read_surls(file, parts, SURL_FAULT_IN_PSEG)
    refuse_if(not surls and not head.surls, NO_SURL)
    ploc = of_kind(parts, b"ploc")[0]
    length_size, offset_size, chunk_count = read_ploc_head(file, ploc)
    refuse_if(chunks_so_far + chunk_count > LIMITS["chunks"], TOO_MANY_CHUNKS)
    refuse_if(source_offset > LIMITS["source"], SOURCE_OVER_LIMIT)
    chunks, cursor, start = [], ploc.body + 9, source_offset
    for index in range(chunk_count):
        state, size, offset, cursor = read_entry(
            file, cursor, ploc.end, (length_size, offset_size))
        refuse_if(start + size > LIMITS["source"], SOURCE_OVER_LIMIT)
        place = 0
        if present(state) and size > 0:
            place = pseg.place + offset
            refuse_if(not may_lie(head, state, place, size), MAY_NOT_LIE_THERE)
        chunks.append(Chunk(segment_number, index, start, size, state, place))
        start += size
    refuse_if(cursor != ploc.end, PLOC_FAULT)
    segment = Segment(pseg.place, source_offset, flags, repair_time, chunk_count,
                      pshd.body, pshd.end - pshd.body, None, start, surls)
    return segment, chunks


def read_segments(file, head):
    """Stages 12 to 24 and 41: all segments and all chunks, in file order."""
    psegs = of_kind(head.boxes, b"pseg")
    refuse_if(not count_kept(head.boxes, b"pseg"), NO_PSEG)
    refuse_if(len(psegs) > LIMITS["segments"], TOO_MANY_SEGMENTS)
    segments, chunks = [], []
    for pseg in psegs:
        segment, added = read_segment(file, head, pseg, len(segments), len(chunks))
        segments.append(segment)
        chunks.extend(added)
    return segments, chunks


def list_of(file, head, segment):
    """The list of URLs of a segment: its own, or that in pfil."""
    return urls_of(file, segment.surls or head.surls)


def numbered(file, head, segments):
    """The segments with the numbers of their sources."""
    lists = [list_of(file, head, segment) for segment in segments]
    by_number = lists_by_number(lists)
    return [segment._replace(source=by_number.index(urls)) for segment, urls in zip(segments, lists)]


def known_size(segments):
    """The size of the source of these segments, None if it is not known; stage 25.

    The end of an open segment is its source offset.
    """
    sizes = [segment.end for segment in segments
             if segment.flags & LAST_SEGMENT and segment.chunk_count > 0]
    if not sizes:
        return None
    size = sizes[0]
    refuse_if(any(other != size for other in sizes), SIZES_DISAGREE)
    refuse_if(any(segment.end > size for segment in segments), SIZES_DISAGREE)
    return size


def read_source(head, segments, chunks, number):
    """What the source of a number says, by its own segments and chunks alone."""
    own = [segment for segment in segments if segment.source == number]
    size = known_size(own)
    closed = size is not None
    described = size if closed else max(segment.end for segment in own)
    supplying = [chunk for chunk in chunks if segments[chunk.segment].source == number]
    return Source(supplying, described, closed, own[0].surls or head.surls)


def read_sources(head, segments, chunks):
    """Stages 25 and 40: all sources, by their numbers."""
    count = 1 + max(segment.source for segment in segments)
    sources = [read_source(head, segments, chunks, number) for number in range(count)]
    refuse_if(count > LIMITS["sources"], TOO_MANY_SOURCES)
    return sources


def source_of_pfil(file, head, segments):
    """The number of the source of the list in pfil, None where no segment is of it."""
    urls = urls_of(file, head.surls)
    return next((segment.source for segment in segments if list_of(file, head, segment) == urls), None)


def accept(file):
    """Stages 1 to 25 and 36 to 41: what an acceptable file says."""
    return accept_behind(file, read_head(file))


def accept_behind(file, head):
    """The stages from 12 on."""
    segments, chunks = read_segments(file, head)
    segments = numbered(file, head, segments)
    sources = read_sources(head, segments, chunks)
    sizes = {number: source.described for number, source in enumerate(sources) if source.closed}
    of_pfil = source_of_pfil(file, head, segments)
    numbers = [of_pfil, *[segment.source for segment in segments]]
    starts = [0, *[segment.offset for segment in segments]]
    indexed = indexed_boxes(file, head.boxes, starts, [sizes.get(number) for number in numbers])
    return Reading(segments, chunks, sources, head.surls, of_pfil, indexed)


def source_of(reading, number):
    """What the file says of the source of a number, which it may not have."""
    return reading.sources[number] if number is not None and number < len(reading.sources) else NOT_IN_THE_FILE


def accept_into(file, segment_room, chunk_room):
    """The same, where the lent tables hold the rows."""
    reading = accept(file)
    check_room(len(reading.segments) * SEGMENT_ROW_LENGTH, segment_room)
    check_room(len(reading.chunks) * CHUNK_ROW_LENGTH, chunk_room)
    return reading


def check_room(needed, room):
    refuse_if(room is not None and needed > room, LENT_TABLE_TOO_SHORT)


# Meaning.

def first_covering(source, state, p):
    """The first chunk of a state that covers a position, or None."""
    for chunk in source.chunks:
        if chunk.state == state and chunk.start <= p < chunk.start + chunk.size:
            return chunk
    return None


def supplier(source, p):
    """The first good chunk that covers a position, or None."""
    return first_covering(source, GOOD, p)


def edges(source, states=(GOOD,)):
    """The positions where chunks of these states begin and end, ascending, and both ends of what is described."""
    found = {0, source.described}
    for chunk in source.chunks:
        if chunk.state in states:
            found.add(chunk.start)
            found.add(chunk.start + chunk.size)
    return sorted(found)


def run_length(source, p):
    """For how many positions from p on the supplier stays the same."""
    for edge in edges(source):
        if edge > p and supplier(source, edge) != supplier(source, p):
            return edge - p
    return source.described - p


# Serving.

def serve(file, p, segment_room=None, chunk_room=None, source=0):
    """Place and length of the part of the file that holds p and what follows."""
    number, reading = attempt(accept_into, file, segment_room, chunk_room)
    if number:
        return (0, 0)
    asked = source_of(reading, source)
    chunk = supplier(asked, p)
    if chunk is None:
        return (0, 0)
    return (chunk.place + (p - chunk.start), run_length(asked, p))


def ask(file, p, segment_room=None, chunk_room=None, source=0):
    """Why serving hands back what it does."""
    number, reading = attempt(accept_into, file, segment_room, chunk_room)
    if number:
        return ("refused", number)
    asked = source_of(reading, source)
    if p >= asked.described:
        return ("beyond",)
    if supplier(asked, p) is None:
        return ("missing", run_length(asked, p))
    return ("served", run_length(asked, p))


# Lists.

def ranges(source, supplied):
    """The maximal ranges of the positions that are supplied, or are not."""
    found = []
    marks = edges(source)
    for first, end in zip(marks, marks[1:]):
        if (supplier(source, first) is not None) != supplied:
            continue
        if found and found[-1][0] + found[-1][1] == first:
            first = found.pop()[0]
        found.append((first, end - first))
    return found


def total(found):
    return sum(length for first, length in found)


def accept_lists(file, segment_room, chunk_room, had_room, missing_room, source):
    asked = source_of(accept_into(file, segment_room, chunk_room), source)
    had, missing = ranges(asked, True), ranges(asked, False)
    check_room(len(had) * RANGE_LENGTH, had_room)
    check_room(len(missing) * RANGE_LENGTH, missing_room)
    return had, missing


def lists(file, segment_room=None, chunk_room=None, had_room=None, missing_room=None, source=0):
    """Both lists and both totals."""
    number, found = attempt(
        accept_lists, file, segment_room, chunk_room, had_room, missing_room, source)
    if number:
        return ("refused", number)
    had, missing = found
    return ("lists", had, missing, total(had), total(missing))


# The index.

def how_many_served(source, first, length):
    """Whether none, some or all of these positions are served."""
    served = 0
    for had, run in ranges(source, True):
        served += max(0, min(had + run, first + length) - max(had, first))
    if served == 0:
        return NONE
    return ALL if served == length else SOME


def accept_index(file, room):
    reading, rows = accept(file), []
    numbers = [reading.of_pfil, *[segment.source for segment in reading.segments]]
    for number, boxes in zip(numbers, reading.indexed):
        source = source_of(reading, number)
        rows += [(box.level, box.place, box.size, unsigned(box.kind, 0, 4), how_many_served(source, box.place, box.size)) for box in boxes]
    check_room(len(rows) * INDEX_ROW_LENGTH, room)
    return rows


def index(file, room=None):
    """The row of each indexed box."""
    number, rows = attempt(accept_index, file, room)
    return ("refused", number) if number else ("index", rows)


# The heading.

def heading(file):
    """Whether the file is mixed, how many boxes and how many segments it has, and where both texts in pfil stand."""
    number, head = attempt(read_head, file)
    if number:
        return ("refused", number)
    url, mime = first_texts(head.surls)
    return ("heading", int(head.mixed), len(head.boxes), len(of_kind(head.boxes, b"pseg")), *url, *mime)


# Rows and texts.

def read(file, segment_room=None, chunk_room=None):
    """The segment rows and the chunk rows."""
    number, reading = attempt(accept_into, file, segment_room, chunk_room)
    if number:
        return ("refused", number)
    segment_rows = [tuple(segment[:SEGMENT_ROW_LENGTH]) for segment in reading.segments]
    return ("read", segment_rows, [tuple(chunk) for chunk in reading.chunks])


def sources(file):
    """How many sources there are."""
    number, reading = attempt(accept, file)
    return ("refused", number) if number else ("sources", len(reading.sources))


def length(file, source=0):
    """The described length of a source, and whether its size is known."""
    number, reading = attempt(accept, file)
    if number:
        return ("refused", number)
    asked = source_of(reading, source)
    return ("length", asked.described, asked.closed)


def url(file):
    """The URL of the first surl in pfil."""
    number, reading = attempt(accept, file)
    return (0, 0) if number else tuple(first_texts(reading.surls).url)


def mime(file):
    """The MIME text of the first surl in pfil."""
    number, reading = attempt(accept, file)
    return (0, 0) if number else tuple(first_texts(reading.surls).mime)


def source_url(file, source):
    """The first URL of a source."""
    number, reading = attempt(accept, file)
    return (0, 0) if number else tuple(first_texts(source_of(reading, source).surls).url)


def source_mime(file, source):
    """The first MIME text of a source."""
    number, reading = attempt(accept, file)
    return (0, 0) if number else tuple(first_texts(source_of(reading, source).surls).mime)


def accept_texts(file, segment, text_room, length_room):
    segments = accept(file).segments
    surls = segments[segment].surls if segment < len(segments) else []
    found = [bytes_of(file, text) for surl in surls for text in surl]
    check_room(len(b"".join(found)), text_room)
    check_room(len(found), length_room)
    return found


def texts(file, segment, text_room=None, length_room=None):
    """The texts of the surl boxes that a segment has itself, as append takes them: all bytes, and their lengths."""
    number, found = attempt(accept_texts, file, segment, text_room, length_room)
    return ("refused", number) if number else ("texts", b"".join(found), [len(text) for text in found])


# Begin.

def write_box(kind, *parts):
    """A box with the 32-bit form of its size."""
    body = b"".join(parts)
    return (8 + len(body)).to_bytes(4, "big") + kind + body


def write_surl(url, mime):
    return write_box(b"surl", bytes(4), url, b"\0", mime, b"\0")


def begin(buffer, brand, url, mime):
    """Writes ftyp with one of the two brands, then pfil holding pfhd and one surl."""
    number, end = attempt(check_begin, buffer, url, mime)
    if number:
        return ("refused", number), buffer
    ftyp = write_box(b"ftyp", brand, bytes(4), brand)
    pfhd = write_box(b"pfhd", bytes(4))
    file = ftyp + write_box(b"pfil", pfhd, write_surl(url, mime))
    assert len(file) == end
    return ("length", end), file + buffer[end:]


def check_begin(buffer, url, mime):
    """The length of the file to be begun."""
    refuse_if(0 in url or 0 in mime, ZERO_BYTE_IN_TEXT)
    ftyp, pfil, pfhd, surl = 20, 8, 12, 14 + len(url) + len(mime)
    end = ftyp + pfil + pfhd + surl
    refuse_if(end > LIMITS["file"], FILE_OVER_LIMIT)
    refuse_if(end > len(buffer), BUFFER_TOO_SHORT)
    return end


# Append.

# What append is given, and the addition that is made of it: its chunks as pairs of size and state, and for each surl its
# URL and its MIME text.
Given = namedtuple("Given", "buffer stated_length source_offset repair_time last outside chunk_list data texts lengths")
Addition = namedtuple("Addition", "source_offset repair_time last outside pairs data surls")


def least_unsigned_width(value):
    width = 0
    while value >= 256 ** width:
        width += 1
    return width


def least_signed_width(value):
    width = 0
    while not -(256 ** width) <= 2 * value < 256 ** width:
        width += 1
    return width


def pairs_of(chunk_list):
    """The chunk list as pairs of size and state."""
    refuse_if(len(chunk_list) % 2 != 0, LIST_FAULT)
    pairs = list(zip(chunk_list[0::2], chunk_list[1::2]))
    for size, state in pairs:
        refuse_if(size == 0 or state not in FLAG_BYTES, LIST_FAULT)
    return pairs


def surls_of(texts, lengths):
    """The URL and the MIME text of each surl that is given, of text bytes as many as their lengths say."""
    parts, at = [], 0
    for length in lengths:
        parts.append(texts[at:at + length])
        at += length
    return list(zip(parts[0::2], parts[1::2]))


def goes_outside(state, outside):
    """Whether a chunk of this state is stored as boxes of the file."""
    return outside and state == GOOD


def goes_inside(state, outside):
    """Whether it is stored in the pdat."""
    return present(state) and not goes_outside(state, outside)


def data_of(pairs, data, outside, goes):
    """The data of the chunks that go there, one by one in chunk order; `data` has that of all."""
    found, at = [], 0
    for size, state in pairs:
        if goes(state, outside):
            found.append(data[at:at + size])
        at += size if present(state) else 0
    return found


def check_outside(head, pairs, data, outside):
    """How many boxes go outside; 35 where a good chunk is to and may not."""
    parts = data_of(pairs, data, outside, goes_outside)
    refuse_if(parts and not head.mixed, NOT_TO_GO_OUTSIDE)
    count = 0
    for part in parts:
        number, boxes = attempt(tiled, part)
        refuse_if(number or not allowed_outside(boxes), NOT_TO_GO_OUTSIDE)
        count += len(boxes)
    return count


def offsets_of(pairs, outside):
    """For each chunk its offset from the pseg, None if not present; the pdat and then the chunks outside stand before
    it."""
    outside_at = -sum(size for size, state in pairs if goes_outside(state, outside))
    inside_at = outside_at - sum(size for size, state in pairs if goes_inside(state, outside))
    offsets = []
    for size, state in pairs:
        if goes_outside(state, outside):
            offsets.append(outside_at)
            outside_at += size
        elif goes_inside(state, outside):
            offsets.append(inside_at)
            inside_at += size
        else:
            offsets.append(None)
    return offsets


def widths_of(pairs, offsets):
    """The least length_size and offset_size."""
    length_size = max([least_unsigned_width(size) for size, state in pairs], default=0)
    offset_size = max(
        [least_signed_width(offset) for offset in offsets if offset is not None], default=0)
    return length_size, offset_size


def any_inside(pairs, outside):
    return any(goes_inside(state, outside) for size, state in pairs)


def form_of(source_offset):
    """The version of pshd and the width of its source offset."""
    return (0, 4) if source_offset < 2 ** 32 else (1, 8)


def added_length(new):
    """How many bytes an addition writes."""
    offsets = offsets_of(new.pairs, new.outside)
    length_size, offset_size = widths_of(new.pairs, offsets)
    stored = len(new.data) + (8 if any_inside(new.pairs, new.outside) else 0)
    pshd = 8 + 4 + form_of(new.source_offset)[1] + 8
    ploc = 8 + 9
    for offset in offsets:
        ploc += 1 + length_size + (0 if offset is None else offset_size)
    surls = sum(8 + 4 + len(url) + 1 + len(mime) + 1 for url, mime in new.surls)
    return stored + 8 + pshd + ploc + surls


def read_earlier(file):
    """The head, segments and chunks of the file; 12 counts as serving nothing, whatever the index."""
    head = read_head(file)
    if not of_kind(head.boxes, b"pseg"):
        return head, [], []
    reading = accept_behind(file, head)
    return head, reading.segments, reading.chunks


def check_given(head, given):
    """Stages 31, 32, 35 and 34: the addition, and how many boxes of it go outside."""
    pairs = pairs_of(given.chunk_list)
    refuse_if(len(given.lengths) % 2 != 0, LIST_FAULT)
    kept = sum(size for size, state in pairs if present(state))
    refuse_if(len(given.data) != kept or len(given.texts) != sum(given.lengths), BYTES_NOT_AS_LISTED)
    outside_count = check_outside(head, pairs, given.data, given.outside)
    refuse_if(0 in given.texts, ZERO_BYTE_IN_TEXT)
    surls = surls_of(given.texts, given.lengths)
    return Addition(given.source_offset, given.repair_time, given.last, given.outside, pairs, given.data, surls), outside_count


def check_counts(head, segments, chunks, new, outside_count):
    """Stages 6, 13, 41, 22 and 23 of the result."""
    box_count = len(head.boxes) + any_inside(new.pairs, new.outside) + outside_count + 1
    pshd_ploc_and_surls = 2 + len(new.surls)
    most = LIMITS["boxes in one container"]
    refuse_if(box_count > most or pshd_ploc_and_surls > most, TOO_MANY_BOXES)
    refuse_if(len(segments) + 1 > LIMITS["segments"], TOO_MANY_SEGMENTS)
    refuse_if(not new.surls and not head.surls, NO_SURL)
    refuse_if(len(chunks) + len(new.pairs) > LIMITS["chunks"], TOO_MANY_CHUNKS)
    refuse_if(end_of(new) > LIMITS["source"], SOURCE_OVER_LIMIT)


def end_of(new):
    return new.source_offset + sum(size for size, state in new.pairs)


def check_sources(file, head, segments, new):
    """Stages 25 and 40 of the result: only the source that is added to can disagree."""
    urls = [url for url, mime in new.surls] or urls_of(file, head.surls)
    lists = [list_of(file, head, segment) for segment in segments]
    added = Segment(place=None, offset=new.source_offset, flags=flags_of(new.last), repair_time=None, chunk_count=len(new.pairs),
                    pshd_body=None, pshd_length=None, source=None, end=end_of(new), surls=None)
    known_size([segment for segment, other in zip(segments, lists) if other == urls] + [added])
    refuse_if(len(lists_by_number([*lists, urls])) > LIMITS["sources"], TOO_MANY_SOURCES)


def check_append(given):
    """The addition and the new length of the file."""
    refuse_if(given.stated_length > len(given.buffer), STATED_LENGTH_OVER_BUFFER)
    file = given.buffer[:given.stated_length]
    head, segments, chunks = read_earlier(file)
    new, outside_count = check_given(head, given)
    end = given.stated_length + added_length(new)
    refuse_if(end > LIMITS["file"], FILE_OVER_LIMIT)
    check_counts(head, segments, chunks, new, outside_count)
    check_sources(file, head, segments, new)
    if b"fidx" in file:
        accept(file + addition(new))
    refuse_if(end > len(given.buffer), BUFFER_TOO_SHORT)
    return new, end


def flags_of(last):
    return LAST_SEGMENT if last else 0


def write_pshd(source_offset, repair_time, last):
    version, width = form_of(source_offset)
    return write_box(b"pshd", bytes([version]), flags_of(last).to_bytes(3, "big"),
                     source_offset.to_bytes(width, "big"), repair_time.to_bytes(8, "big"))


def write_ploc(pairs, offsets):
    length_size, offset_size = widths_of(pairs, offsets)
    head = bytes(4) + bytes([16 * length_size + offset_size]) + bytes(2)
    head += len(pairs).to_bytes(2, "big")
    entries = b""
    for (size, state), offset in zip(pairs, offsets):
        entries += bytes([FLAG_BYTES[state]]) + size.to_bytes(length_size, "big")
        if offset is not None:
            entries += offset.to_bytes(offset_size, "big", signed=True)
    return write_box(b"ploc", head, entries)


def addition(new):
    """One pdat, if any chunk's data goes there, then that of the chunks outside, then the pseg."""
    pdat = b""
    if any_inside(new.pairs, new.outside):
        pdat = write_box(b"pdat", *data_of(new.pairs, new.data, new.outside, goes_inside))
    boxes = b"".join(data_of(new.pairs, new.data, new.outside, goes_outside))
    pshd = write_pshd(new.source_offset, new.repair_time, new.last)
    ploc = write_ploc(new.pairs, offsets_of(new.pairs, new.outside))
    surls = [write_surl(url, mime) for url, mime in new.surls]
    return pdat + boxes + write_box(b"pseg", pshd, ploc, *surls)


def append(buffer, stated_length, source_offset, repair_time, last, outside, chunk_list, data, texts=b"", lengths=()):
    """Writes an addition that is taken behind the file."""
    given = Given(buffer, stated_length, source_offset, repair_time, last, outside, chunk_list, data, texts, lengths)
    number, checked = attempt(check_append, given)
    if number:
        return ("refused", number), buffer
    new, end = checked
    file = buffer[:stated_length] + addition(new)
    assert len(file) == end
    return ("length", end), file + buffer[end:]


# The map program, and the one that does not name damage.

def line(*fields):
    return "\t".join(str(field) for field in fields).encode("ascii") + b"\n"


def name_of(source, p):
    """What the map calls a position: one that is missing is held if some damaged chunk covers it, wherever that one
    stands in the file."""
    if supplier(source, p) is not None:
        return "have"
    return "lost" if first_covering(source, DAMAGED, p) is None else "held"


def named_ranges(source):
    """The maximal ranges of positions with one name, ascending: name, first position, length."""
    found = []
    marks = edges(source, (GOOD, DAMAGED))
    for first, end in zip(marks, marks[1:]):
        name = name_of(source, first)
        if found and found[-1][0] == name:
            first = found.pop()[1]
        found.append((name, first, end - first))
    return found


def both_lists(source):
    """Both lists merged, in the same form."""
    merged = [("have", first, run) for first, run in ranges(source, True)]
    merged += [("miss", first, run) for first, run in ranges(source, False)]
    return sorted(merged, key=lambda one: one[1])


def text_of_source(source, found, names):
    """One source, its ranges, and the total of each name."""
    text = line("source", source.described, "closed" if source.closed else "open")
    for name, first, run in found:
        text += line(name, first, run)
    return text + line("total", *[sum(run for name, first, run in found if name == one) for one in names])


def text_of_ranges(data, most, ranges_of, names):
    """The lines of each source in the order of their numbers, or the refusal."""
    if len(data) > most:
        return line("refused", INPUT_OVER_LIMIT)
    number, reading = attempt(accept, data)
    if number:
        return line("refused", number)
    return b"".join(text_of_source(source, ranges_of(source), names) for source in reading.sources)


def map_text(data, most=LIMITS["program input"]):
    """What the program writes for its standard input; the command that maps a file by its name has no such limit and
    states its length."""
    return text_of_ranges(data, most, named_ranges, ("have", "held", "lost"))


def missmap_text(data, most=LIMITS["program input"]):
    """What the program writes that does not name damage."""
    return text_of_ranges(data, most, both_lists, ("have", "miss"))


# The program that lists boxes.

def shown_type(kind):
    """The four bytes of a type, those that do not print in two digits."""
    return "".join(chr(byte) if 32 <= byte <= 126 else "\\x%02x" % byte for byte in kind)


def boxes_text(data, most=LIMITS["program input"]):
    """What the program writes: a line for each box of the file, and place and number of the first framing error."""
    if len(data) > most or len(data) > LIMITS["file"]:
        return line("refused", INPUT_OVER_LIMIT if len(data) > most else FILE_OVER_LIMIT)
    text, place = b"", 0
    try:
        for box in framed(data, 0, len(data)):
            vendor = [box.user_type.hex()] if box.user_type else []
            text += line(box.place, box.end - box.place, shown_type(box.kind), *vendor)
            place = box.end
    except Refused as refusal:
        text += line(place, refusal.number)
    return text
