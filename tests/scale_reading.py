"""Makes the cases of reading a file: its rows, texts, index, maps and boxes, and of each of its sources, and of some that
it has not, served positions and lists, with tables, lists and buffers of every awkward length."""

import model
from maps import refusal_in
from scale_stream import CHUNKS, FILE, HAD, LENGTHS, MISSING, NONE, SEGMENTS, TABLE, TEXT, TEXTS, Memory, packed

# The longest that each table and list has to be.
FULL = (512, 6144, 2050, 2050)
TO_SPARE = 9
FAR = (2 ** 32 - 1, 2 ** 32, 2 ** 40 - 1, 2 ** 40, 2 ** 64 - 1)
# Numbers of sources and of segments that a file may not have.
SOURCES = (0, 1, 2, 3, 4, 5, 6, 7, 8, 9, 255, 256, 2 ** 32, 2 ** 64 - 1)
MANY_SEGMENTS = (63, 64, 256, 2 ** 32, 2 ** 64 - 1)
# A file that needs more numbers than this for its chunks, or has more bytes, is asked less, as the model takes long for
# it.
MANY_NUMBERS = 600
MANY_BYTES = 20_000
KINDS = {"served": 0, "missing": 1, "beyond": 2}


# What is lent.

def awkward(needed):
    """None, one short, exact, one over, and ample."""
    return (0, max(0, needed - 1), needed, needed + 1, needed + TO_SPARE)


def enough(rng, needed, full):
    return rng.choice((needed, needed, needed + 1, needed + TO_SPARE, full + 1))


def rooms_enough(rng, needed):
    return [enough(rng, numbers, full) for numbers, full in zip(needed, FULL)]


def any_rooms(rng, needed):
    return [rng.choice((*awkward(numbers), full)) for numbers, full in zip(needed, FULL)]


def some_rooms(rng, needed):
    """Mostly enough."""
    return any_rooms(rng, needed) if rng.random() < 0.15 else rooms_enough(rng, needed)


def each_awkward(rng, needed):
    """Each of the tables and lists at each awkward length, where the others are long enough."""
    for at, numbers in enumerate(needed):
        for room in awkward(numbers):
            rooms = rooms_enough(rng, needed)
            rooms[at] = room
            yield rooms


def number_of(answer):
    return answer[1] if answer[0] == "refused" else 0


def memories(stream, refusal, rooms):
    """The file, and tables and lists that are full of marks and after a refusal still are."""
    blocks = (SEGMENTS, CHUNKS, HAD, MISSING)
    tables = [Memory(room, NONE, NONE if refusal else block) for room, block in zip(rooms, blocks)]
    return [stream.whole(FILE), *tables]


# One case each.

def read_case(stream, file, source, rooms):
    answer = model.read(file, *rooms)
    refusal = number_of(answer)
    told = () if refusal else (len(answer[1]), len(answer[2]), model.sources(file)[1], *model.length(file, source)[1:])
    stream.call("read", refusal, (source,), memories(stream, refusal, rooms), told)


def heading_case(stream, file):
    answer = model.heading(file)
    stream.call("heading", number_of(answer), (), [stream.whole(FILE)], answer[1:])


def texts_of_pfil_cases(stream, file):
    refusal = number_of(model.read(file))
    stream.call("url", refusal, (), [stream.whole(FILE)], model.url(file))
    stream.call("mime", refusal, (), [stream.whole(FILE)], model.mime(file))


def texts_of_source_cases(stream, file, source):
    refusal = number_of(model.read(file))
    stream.call("source_url", refusal, (source,), [stream.whole(FILE)], model.source_url(file, source))
    stream.call("source_mime", refusal, (source,), [stream.whole(FILE)], model.source_mime(file, source))


def texts_cases(stream, rng, file, segment, count):
    """The texts of a segment, in so many pairs of buffers, one of which is ample."""
    answer = model.texts(file, segment)
    texts, lengths = (b"", []) if answer[0] == "refused" else answer[1:]
    stream.hold(TEXTS, texts)
    stream.hold(LENGTHS, packed(lengths))
    rooms = [(len(texts) + TO_SPARE, len(lengths) + TO_SPARE), (len(texts), len(lengths))]
    rooms += [(room, len(lengths)) for room in awkward(len(texts))] + [(len(texts), room) for room in awkward(len(lengths))]
    for text_room, length_room in [rooms[0], *rng.sample(rooms[1:], count - 1)]:
        refusal = number_of(model.texts(file, segment, text_room, length_room))
        lent = [Memory(room, NONE, NONE if refusal else block) for room, block in ((text_room, TEXTS), (length_room, LENGTHS))]
        stream.call("texts", refusal, (segment,), [stream.whole(FILE), *lent], (len(texts), len(lengths)))


def serve_case(stream, file, source, p, rooms):
    refusal = number_of(model.ask(file, p, *rooms, source=source))
    stream.call("serve", refusal, (source, p), memories(stream, refusal, rooms), model.serve(file, p, *rooms, source=source))


def ask_case(stream, file, source, p, rooms):
    answer = model.ask(file, p, *rooms, source=source)
    refusal = number_of(answer)
    told = () if refusal else (KINDS[answer[0]], answer[1] if len(answer) > 1 else 0)
    stream.call("ask", refusal, (source, p), memories(stream, refusal, rooms), told)


def list_case(stream, file, source, rooms):
    answer = model.lists(file, *rooms, source=source)
    refusal = number_of(answer)
    told = () if refusal else (len(answer[1]), len(answer[2]), *answer[3:])
    stream.call("list", refusal, (source,), memories(stream, refusal, rooms), told)


def index_cases(stream, rng, file, count):
    """So many tables of the awkward lengths for an index, and among them one that is ample."""
    answer = model.index(file)
    numbers = [] if answer[0] == "refused" else [number for row in answer[1] for number in row]
    stream.hold(TABLE, packed(numbers))
    for room in [len(numbers) + TO_SPARE, *rng.sample(awkward(len(numbers)), count)]:
        refusal = number_of(model.index(file, room))
        table = Memory(room, NONE, NONE if refusal else TABLE)
        stream.call("index", refusal, (), [stream.whole(FILE), table], (len(numbers) // model.INDEX_ROW_LENGTH,))


def text_cases(stream, name, text, most, rooms):
    """A call that writes this text into buffers of these lengths."""
    stream.refusals_in_texts[name][refusal_in(text)] += len(rooms)
    stream.hold(TEXT, text)
    for room in rooms:
        refusal = model.BUFFER_TOO_SHORT if room < len(text) else 0
        buffer = Memory(room, NONE, NONE if refusal else TEXT)
        stream.call(name, refusal, (most,), [stream.whole(FILE), buffer], (len(text),))


def map_cases(stream, rng, file, most, count):
    """Both maps."""
    for name, text in [("map", model.map_text(file, most)), ("missmap", model.missmap_text(file, most))]:
        text_cases(stream, name, text, most, rng.sample(awkward(len(text)), count))


def boxes_cases(stream, rng, file, most, others):
    """An exact buffer, so that every line is seen, and so many others."""
    text = model.boxes_text(file, most)
    text_cases(stream, "boxes", text, most, [len(text), *rng.sample(awkward(len(text)), others)])


# All cases of a source.

def hold_rows(stream, block, part):
    """Sends what a table or list must hold; how many numbers it needs."""
    numbers = [number for row in part for number in row]
    stream.hold(block, packed(numbers))
    return len(numbers)


def hold_lists(stream, file, source):
    """Sends the lists of a source; how many numbers each of them needs."""
    found = model.lists(file, source=source)
    if found[0] == "refused":
        return 0, 0
    return hold_rows(stream, HAD, found[1]), hold_rows(stream, MISSING, found[2])


def edges(rng, file, source):
    """The first and last position of each chunk of a source, those beside them, both ends of what is described, positions
    far away, and some edges of other sources."""
    answer = model.length(file, source)
    if answer[0] == "refused":
        return [0, *FAR]
    segments, chunks = model.read(file)[1:]
    found, others = {0, 1, answer[1], answer[1] + 1, *FAR}, set()
    for segment, index, start, size, state, place in chunks:
        edge = {start - 1, start, start + size - 1, start + size}
        (found if segments[segment][7] == source else others).update(edge)
    found.update(some(rng, sorted(others), 4))
    return sorted(p for p in found if p >= 0)


def some(rng, of_all, most):
    of_all = list(of_all)
    return of_all if len(of_all) <= most else rng.sample(of_all, most)


def source_cases(stream, rng, file, source, tables, few):
    """Positions and lists of a source; a few of each or all that is awkward."""
    needed = tables + hold_lists(stream, file, source)
    positions = edges(rng, file, source)
    for p in some(rng, positions, few) if few else positions:
        serve_case(stream, file, source, p, some_rooms(rng, needed[:2]))
        ask_case(stream, file, source, p, some_rooms(rng, needed[:2]))
    for rooms in some(rng, each_awkward(rng, needed), 3 if few else 20):
        list_case(stream, file, source, rooms)
    list_case(stream, file, source, any_rooms(rng, needed))
    texts_of_source_cases(stream, file, source)


# All cases of a file.

def hold_file(stream, file):
    """Sends a file and all that its tables must hold; how many numbers each of them needs."""
    stream.hold(FILE, file)
    rows = model.read(file)
    if rows[0] == "refused":
        return 0, 0
    return hold_rows(stream, SEGMENTS, rows[1]), hold_rows(stream, CHUNKS, rows[2])


def count_of(file):
    """How many sources a file has, 0 where it is refused."""
    answer = model.sources(file)
    return 0 if answer[0] == "refused" else answer[1]


def few_cases(stream, rng, file):
    """What a file says as a whole, and each of its sources, in memory that is long enough."""
    tables = hold_file(stream, file)
    for source in range(max(1, count_of(file))):
        lists = hold_lists(stream, file, source)
        read_case(stream, file, source, rooms_enough(rng, tables))
        list_case(stream, file, source, rooms_enough(rng, tables + lists))
    texts_cases(stream, rng, file, rng.randint(0, 2), 1)
    index_cases(stream, rng, file, 1)
    map_cases(stream, rng, file, len(file), 1)
    boxes_cases(stream, rng, file, len(file), 0)


def chosen_sources(rng, file):
    """Those of the file and one that it has not; of a refused file one."""
    count = count_of(file)
    if count == 0:
        return [rng.choice((0, 0, *SOURCES))]
    return [*range(count), rng.choice([source for source in SOURCES if source >= count])]


def file_cases(stream, rng, file):
    """Every call of reading; a refused file is asked a little of everything, and so is a large one."""
    tables = hold_file(stream, file)
    short = tables[0] == 0
    large = tables[1] > MANY_NUMBERS or len(file) > MANY_BYTES
    sources = chosen_sources(rng, file)
    for rooms in some(rng, each_awkward(rng, tables), 3 if short or large else 12):
        read_case(stream, file, rng.choice(sources), rooms)
    heading_case(stream, file)
    texts_of_pfil_cases(stream, file)
    for source in sources:
        few = 2 if short or source >= count_of(file) else 12 if large else 0
        source_cases(stream, rng, file, source, tables, few)
    read_case(stream, file, rng.choice(sources), any_rooms(rng, tables))
    segments = range(tables[0] // model.SEGMENT_ROW_LENGTH)
    for segment in [*some(rng, segments, 2), rng.choice((len(segments), *MANY_SEGMENTS))]:
        texts_cases(stream, rng, file, segment, 1 if short else 3)
    index_cases(stream, rng, file, 1 if short else 4)
    for most in (len(file), max(0, len(file) - 1), model.LIMITS["program input"], 2 ** 64 - 1):
        map_cases(stream, rng, file, most, 1 if short or large else 2)
    for most in (len(file), max(0, len(file) - 1), 0, 2 ** 64 - 1):
        boxes_cases(stream, rng, file, most, 1)
