"""Makes arguments of begin and append, acceptable ones and faulty ones."""

import additions_texts
import model
from additions_texts import surls_of, texts_of_urls
from boxes import box, entry, ftyp, open_segment, pfhd, ploc, pshd, surl
from faults import FAULTS, faulty_file
from faults_index import to_the_end, without_index
from foreign import LIMIT, WIDE, foreign_plan
from indexes import Index, Indexed, add_indexes, put_index
from layers import make_bare, own_urls
from plan import Plan
from spoiling import spoil

FREE = box(b"free")
BOXES = 512
SEGMENTS = 64
CHUNKS = 1_024
LOST, DAMAGED, GOOD, ELSEWHERE = 0, 1, 2, 3
OUTSIDE = [b"moof", b"mdat", b"free", b"surl", b"ploc", b"moov"]
NEVER_OUTSIDE = [b"ftyp", b"pfil", b"pseg", b"pdat"]
FAULTS_OF_APPEND = [30, "own", 31, 32, 35, 34, 6, 13, 41, 22, 23, 25, 40, 36, 37, 39, 33]
FAULTS_OF_BEGIN = [33, 34]
BRANDS = [b"paff", b"pmff"]


def sizes(chunk_list):
    return sum(chunk_list[0::2])


def is_present(state):
    """Whether a chunk of this state has data."""
    return state in (DAMAGED, GOOD)


def absent(rng):
    """A state without data."""
    return rng.choice([LOST, ELSEWHERE])


def any_inside(chunk_list, outside):
    """Whether append writes a pdat."""
    return any(state == DAMAGED or state == GOOD and not outside for state in chunk_list[1::2])


def added_length(source_offset, chunk_list, data, outside=False, texts=b"", lengths=()):
    """How many bytes the paper lets append write for these arguments."""
    chunk_sizes, states = chunk_list[0::2], chunk_list[1::2]
    present = len([state for state in states if is_present(state)])
    length_size = (max(chunk_sizes, default=0).bit_length() + 7) // 8
    offset_size = 0
    while present and len(data) > 2 ** (8 * offset_size - 1):
        offset_size += 1
    stored = len(data) + (8 if any_inside(chunk_list, outside) else 0)
    pshd_length = 24 if source_offset < WIDE else 28
    ploc_length = 17 + len(chunk_sizes) * (1 + length_size) + present * offset_size
    surl_length = len(texts) + 14 * (len(lengths) // 2)
    return stored + 8 + pshd_length + ploc_length + surl_length


def end_of(given):
    return given["stated_length"] + added_length(
        given["source_offset"], given["chunk_list"], given["data"], given["outside"], given["texts"], given["lengths"])


def is_mixed(file):
    """Whether append may store good chunks outside."""
    number, head = model.attempt(model.read_head, file)
    return number == 0 and head.mixed


def boxes_of(rng, size):
    """So many bytes of whole boxes, eight at least."""
    first = size
    if size >= 16 and rng.random() < 0.4:
        first = rng.randint(8, size - 8)
    kind, large, header = rng.choice(OUTSIDE), first >= 16 and rng.random() < 0.2, 8
    if large:
        header = 16
    if first >= header + 16 and rng.random() < 0.3:
        kind = b"uuid"
    made = box(kind, rng.randbytes(first - header), large=large)
    return made if first == size else made + boxes_of(rng, size - first)


def data_for(rng, chunk_list, outside):
    """The data of a chunk list: whole boxes for the chunks that go outside, any bytes for the others."""
    parts = []
    for size, state in zip(chunk_list[0::2], chunk_list[1::2]):
        if is_present(state):
            parts.append(boxes_of(rng, size) if outside and state == GOOD else rng.randbytes(size))
    return b"".join(parts)


def random_chunk_list(rng, room, outside):
    """A chunk list of at most `room` positions; open once in a while. A good chunk that goes outside has room for a
    box."""
    chunk_list = []
    for _ in range(rng.choice([0, 1, 1, 2, 2, 3, 4])):
        size = rng.choice([1, 2, rng.randint(1, 9), rng.randint(1, 15)])
        state = rng.choice([absent(rng), absent(rng), DAMAGED, GOOD, GOOD, GOOD])
        if outside and state == GOOD:
            size = rng.choice([8, 9, rng.randint(8, 20), rng.randint(16, 60)])
        if rng.random() < 0.02:
            size = rng.choice([128, 129, 255, 256, 300])
        if rng.random() < 0.02:
            size, state = rng.choice([256, 65_535, 65_536, 2 ** 24, WIDE - 1, WIDE, WIDE + rng.randint(0, WIDE), room]), absent(rng)
        if 0 < size <= room:
            room -= size
            chunk_list += [size, state]
    return chunk_list


def last_flag(rng, said, source_offset, chunk_list):
    """A last_segment flag that no known size or earlier end contradicts."""
    end, closed = said
    new_end = source_offset + sizes(chunk_list)
    fits = not chunk_list or (new_end == end if closed else new_end >= end)
    return fits and rng.random() < 0.3


def far(rng):
    """How far an addition may reach that does not stay near the front: to the limit, or near the first offset of the
    64-bit form."""
    return rng.choice([LIMIT, LIMIT, WIDE - 1, WIDE, WIDE + rng.randint(-20, 60), rng.randint(WIDE, LIMIT)])


def acceptable(rng, file):
    """Arguments that append takes, where it takes the file; the buffer is set later."""
    texts, lengths = additions_texts.some_texts(rng, file)
    end, closed = additions_texts.said_of(file, texts, lengths)
    limit = end if closed else LIMIT
    reach = min(limit, far(rng) if rng.random() < 0.15 else 60)
    outside = rng.random() < (0.6 if is_mixed(file) else 0.1)
    chunk_list = random_chunk_list(rng, limit, outside)
    if outside and not is_mixed(file):
        chunk_list = [DAMAGED if at % 2 == 1 and number == GOOD else number for at, number in enumerate(chunk_list)]
    room = max(0, reach - sizes(chunk_list))
    source_offset = rng.choice([0, room, rng.randint(0, room), min(end, room)])
    return {
        "buffer": file,
        "stated_length": len(file),
        "source_offset": source_offset,
        "repair_time": rng.choice([0, rng.getrandbits(64)]),
        "last": last_flag(rng, (end, closed), source_offset, chunk_list),
        "outside": outside,
        "chunk_list": chunk_list,
        "data": data_for(rng, chunk_list, outside),
        "texts": texts,
        "lengths": lengths,
    }


def lend_buffer(rng, given):
    """Gives the buffer room enough: exactly, or with bytes to spare."""
    room = end_of(given) - given["stated_length"] + rng.choice([0, 0, 1, rng.randint(0, 30)])
    given["buffer"] = given["buffer"][:given["stated_length"]] + rng.randbytes(room)
    return given


def set_chunks(rng, given, chunk_list):
    """A good chunk that has no room for a box does not go outside, nor do the others then."""
    small = any(size < 8 and state == GOOD for size, state in zip(chunk_list[0::2], chunk_list[1::2]))
    given["outside"] = given["outside"] and not small
    given["chunk_list"] = chunk_list
    given["data"] = data_for(rng, chunk_list, given["outside"])


def set_file(given, file):
    given["buffer"], given["stated_length"] = file, len(file)


def set_texts(given, texts, lengths):
    given["texts"], given["lengths"] = texts, lengths


def more_segments(given, content):
    """Puts segments behind the file that are of the source which is added to."""
    set_file(given, given["buffer"] + content(surls_of(given["texts"], given["lengths"])))


def top_level_count(file):
    """How many boxes an acceptable file holds."""
    count = place = 0
    while place < len(file):
        size = int.from_bytes(file[place:place + 4], "big")
        if size == 1:
            size = int.from_bytes(file[place + 8:place + 16], "big")
        place += size
        count += 1
    return count


def rows(file):
    """The segment rows and chunk rows, none where reading refuses."""
    answer = model.read(file)
    return answer[1:] if answer[0] == "read" else ([], [])


# Faults of append, each on arguments that are acceptable otherwise.

def spoil_lists(rng, given):
    if rng.random() < 0.35:
        additions_texts.spoil_lengths(rng, given)
        return
    chunk_list = given["chunk_list"]
    given["chunk_list"] = rng.choice([
        chunk_list + [1], chunk_list + [0, rng.randint(0, 3)], [0, 0] + chunk_list,
        chunk_list + [1, rng.choice([4, 4, 5, 7, 255, 256, 259, 2 ** 32 + 3, 2 ** 63 + 3, 2 ** 64 - 1])]])


def spoil_data(rng, given):
    if rng.random() < 0.4:
        additions_texts.spoil_texts(rng, given)
    elif given["data"] and rng.random() < 0.5:
        given["data"] = given["data"][1:]
    else:
        given["data"] += rng.randbytes(rng.randint(1, 3))


def outside_parts(given):
    """The data of the chunks that go outside."""
    parts, at = [], 0
    for size, state in zip(given["chunk_list"][0::2], given["chunk_list"][1::2]):
        if given["outside"] and state == GOOD:
            parts.append(given["data"][at:at + size])
        at += size if is_present(state) else 0
    return parts


def fill_with_boxes(rng, given):
    """Leaves room for fewer boxes than the pseg, the pdat and those that go outside, or gives more texts than a pseg has
    room for."""
    if rng.random() < 0.25:
        set_texts(given, *additions_texts.too_many_texts(rng))
        return
    added = 1 + any_inside(given["chunk_list"], given["outside"]) + sum(map(top_level_count, outside_parts(given)))
    left = rng.choice([0, added - 1, rng.randrange(added)])
    file = given["buffer"]
    set_file(given, file + (BOXES - left - top_level_count(file)) * FREE)


def not_whole_boxes(rng):
    """Bytes that may not go outside as a good chunk."""
    right = boxes_of(rng, rng.randint(16, 40))
    return rng.choice([
        right[:-1], right + b"\0", right + rng.randbytes(rng.randint(1, 7)), right[1:], rng.randbytes(rng.randint(1, 7)), right + bytes(4) + b"mdat" + bytes(8),
        right + box(rng.choice(NEVER_OUTSIDE), rng.randbytes(rng.choice([0, 9]))), box(rng.choice(NEVER_OUTSIDE)) + right,
        right + box(b"uuid", rng.randbytes(rng.choice([0, 1, 15]))), right + (24).to_bytes(4, "big") + b"uuid" + rng.randbytes(rng.choice([0, 15]))])


def spoil_outside(rng, given):
    """One more chunk to go outside that may not, before the others, or behind; where the file is not mixed it may be
    whole boxes."""
    part = not_whole_boxes(rng)
    if not is_mixed(given["buffer"]) and rng.random() < 0.5:
        part = boxes_of(rng, rng.randint(8, 40))
    chunk_list, data = given["chunk_list"], given["data"]
    if not given["outside"]:
        chunk_list, data = [], b""
    given["outside"] = True
    given["chunk_list"], given["data"] = rng.choice([
        (chunk_list + [len(part), GOOD], data + part), ([len(part), GOOD] + chunk_list, part + data)])


def fill_with_segments(rng, given):
    missing = SEGMENTS - len(rows(given["buffer"])[0])
    more_segments(given, lambda surls: missing * open_segment(0, parts=surls))


def fill_with_chunks(rng, given):
    """Chunks of one byte each in the file: not present, of width 0 and size 0."""
    if not given["chunk_list"]:
        set_chunks(rng, given, [1, absent(rng)])
    left = rng.randrange(len(given["chunk_list"]) // 2)
    count = CHUNKS - left - len(rows(given["buffer"])[1])
    located = ploc(0, 0, count * [entry(rng.choice([0x80, 0x00]), 0, 0)])
    more_segments(given, lambda surls: box(b"pseg", pshd(0), located, surls))


def overstep_limit(rng, given):
    cause = rng.choice(["offset", "end", "size"])
    if cause == "offset":
        given["source_offset"] = rng.choice([LIMIT + 1, LIMIT + 1, 2 ** 63, 2 ** 64 - 1])
    elif cause == "end":
        set_chunks(rng, given, given["chunk_list"] + [rng.randint(1, 9), absent(rng)])
        given["source_offset"] = max(0, LIMIT + 1 - sizes(given["chunk_list"]))
    else:
        size = rng.choice([LIMIT + 1, 2 ** 48, 2 ** 64 - 1])
        set_chunks(rng, given, given["chunk_list"] + [size, absent(rng)])


def overstep_size(rng, given):
    """A known size, of the source in the file or in the new segment, that is contradicted."""
    end, closed = additions_texts.said_of(given["buffer"], given["texts"], given["lengths"])
    if not closed:
        if end < 10:
            more_segments(given, lambda surls: open_segment(10, parts=surls))
        set_chunks(rng, given, [rng.randint(1, 5), absent(rng)])
        given["source_offset"], given["last"] = rng.randint(0, 4), True
    elif rng.random() < 0.5 and end < LIMIT - 9:
        set_chunks(rng, given, rng.choice([[], [rng.randint(1, 9), absent(rng)], [2, 2]]))
        given["source_offset"] = end + 1 if not given["chunk_list"] else end
    elif end > 1:
        set_chunks(rng, given, [1, absent(rng)])
        given["source_offset"], given["last"] = rng.randint(0, min(end - 2, 50)), True
    else:
        set_chunks(rng, given, [end + 1, absent(rng)])
        given["source_offset"] = 0


def without_any_list(rng, given):
    """A file whose pfil has no list, begun or with segments that have their own, and no text."""
    plan = foreign_plan(rng, mixed=is_mixed(given["buffer"]))
    without_index(plan)
    make_bare(rng, plan)
    if rng.random() < 0.3:
        plan.items = [item for item in plan.items if item not in plan.segments()]
    set_file(given, plan.assemble())
    set_texts(given, b"", [])


# A file without a segment, whose index is judged with the first.

def begun_plan(rng, mixed):
    brand = BRANDS[1 if mixed else 0]
    return Plan(ftyp([brand], brand), [pfhd(), surl(*texts(rng))], [], mixed=mixed)


def to_source_of_pfil(rng, given, plan):
    """Makes an addition one to the source of the list in pfil, by no text or by that list."""
    set_texts(given, *rng.choice([(b"", []), texts_of_urls(rng, own_urls(plan))]))


def begun_with_index(rng, number=None, mixed=None):
    """A file that reading refuses with 12, with a right index, or one that a number is given for after an addition that
    does not tell the size of the source."""
    plan = begun_plan(rng, rng.random() < 0.3 if mixed is None else mixed)
    if number is None:
        add_indexes(rng, plan)
    else:
        FAULTS[number](rng, plan)
    return plan.assemble()


def spoil_index(number):
    def step(rng, given):
        set_file(given, begun_with_index(rng, number, is_mixed(given["buffer"])))
        of_another = additions_texts.urls_used(given["buffer"], given["texts"], given["lengths"]) != additions_texts.lists_in(given["buffer"])[0]
        given["last"] = given["last"] and (number != 39 or of_another)
        if number == 36 and given["last"] and given["chunk_list"]:
            set_file(given, too_near_the_end(rng, given))
    return step


def too_near_the_end(rng, given):
    """A file begun whose index ends in a box that runs to the end of the source, where the addition leaves nothing or
    too little for it."""
    left = given["source_offset"] + sizes(given["chunk_list"]) - rng.choice([0, 1, 7, -1, -8])
    plan = begun_plan(rng, is_mixed(given["buffer"]))
    before = [Indexed(left, b"moov")] if left >= 8 else []
    for part in before:
        part.large = left >= 2 ** 32
    if before or left < 0:
        put_index(rng, plan, Index([*before, to_the_end(b"mdat", [])]))
    else:
        FAULTS[36](rng, plan)
    to_source_of_pfil(rng, given, plan)
    return plan.assemble()


def faulty_addition(rng, file, number):
    """Arguments on an acceptable file that append must refuse with a number.

    "own" stands for the refusal of the file itself.
    """
    given = acceptable(rng, file)
    if number == "own":
        faulty = faulty_file(rng, rng.choice([2, 5, 8, 14, 24]))
        set_file(given, rng.choice([spoil(rng, file), faulty]))
    steps = {31: spoil_lists, 32: spoil_data, 35: spoil_outside, 34: additions_texts.put_zero, 6: fill_with_boxes, 13: fill_with_segments, 41: without_any_list,
             22: fill_with_chunks, 23: overstep_limit, 25: overstep_size, 40: additions_texts.fill_with_sources, 36: spoil_index(36), 37: spoil_index(37), 39: spoil_index(39)}
    if number in steps:
        steps[number](rng, given)
    lend_buffer(rng, given)
    if number == 30:
        over = len(given["buffer"]) + 1
        given["stated_length"] = rng.choice([over, over, 2 ** 32, 2 ** 64 - 1])
    if number == 33:
        short = rng.choice([1, 1, rng.randint(1, end_of(given) - len(file))])
        given["buffer"] = given["buffer"][:end_of(given) - short]
    if number in (36, 37, 39) and rng.random() < 0.2:
        given["buffer"] = given["buffer"][:rng.randint(given["stated_length"], end_of(given))]
    return given


def addition(rng, file):
    """Arguments of append: two in three acceptable, where the file is."""
    if rng.random() < 0.67:
        return lend_buffer(rng, acceptable(rng, file))
    weights = [1 if number in (6, 13, 22) else 4 for number in FAULTS_OF_APPEND]
    number = rng.choices(FAULTS_OF_APPEND, weights)[0]
    if model.attempt(model.read_earlier, file)[0]:
        number = "own"
    return faulty_addition(rng, file, number)


# Begin.

def texts(rng):
    return [bytes(rng.randint(1, 255) for _ in range(rng.choice([0, 1, 5, rng.randint(0, 20)])))
            for _ in range(2)]


def faulty_beginning(rng, number):
    """Arguments of begin that it must refuse with a number, or take for None."""
    url, mime = texts(rng)
    if number == 34:
        at = rng.randint(0, len(url))
        url, mime = url[:at] + b"\0" + url[at:], mime
        url, mime = rng.choice([(url, mime), (mime, url)])
    end = 54 + len(url) + len(mime)
    room = end + rng.choice([0, 0, 1, rng.randint(0, 30)])
    if number == 33 or number == 34 and rng.random() < 0.3:
        room = rng.choice([end - 1, end - 1, rng.randint(0, end - 1)])
    return {"buffer": rng.randbytes(room), "brand": rng.choice(BRANDS), "url": url, "mime": mime}


def beginning(rng):
    """Arguments of begin: four in five acceptable."""
    number = rng.choice(FAULTS_OF_BEGIN) if rng.random() < 0.2 else None
    return faulty_beginning(rng, number)
