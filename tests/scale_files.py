"""Chooses the files of the comparison at scale: foreign, cut, spoiled, with faults, of the corpora, and as large as a
file may be or a little larger."""

import corpus
import corpus_index
import corpus_sources
import generate
import lists
import maps
from boxes import box, ftyp, pfhd, surl
from faults import BOXES, CHUNKS, FAULTS, SEGMENTS, too_many_boxes
from faults_index import to_the_end
from foreign import GOOD, LOST, close, foreign_entry, foreign_plan, foreign_segment
from indexes import Index, Indexed, put_index
from layers import SOURCES, boxes_for, put_urls
from plan import Data, Entry, Plan, Segment, Whole
from spoiling import boxes_in, cut

# What a container is filled with.
FILLINGS = [box(b"free"), box(b"\0\x7f\xff\n"), box(b"uuid", bytes(range(240, 256)))]
LONGEST = 200_000


# Cut.

def cut_at_a_box(rng, file):
    """Cut where a box begins, where its body or its user type does or where it ends, or one byte beside."""
    places = [place for begin, end, header in boxes_in(file, 0, len(file)) for place in (begin, begin + header, begin + header + 16, end)]
    at = rng.choice(places) + rng.choice([-1, 0, 1])
    return file[:max(0, at)]


def cut_file(rng):
    return rng.choice([cut, cut_at_a_box])(rng, generate.foreign_file(rng))


# Large.

def near(rng, most):
    return rng.choice([most - 1, most, most, most, most + 1])


def plain(items, brand=b"paff"):
    return Plan(ftyp([brand]), [pfhd(), surl()], items)


def many_chunks(rng):
    data = Data(rng.randbytes(rng.choice([15, 2_000, LONGEST - 20_000])))
    left, segments = near(rng, CHUNKS), []
    while left > 0:
        count = min(left, rng.choice([1, 17, 300, CHUNKS, CHUNKS]))
        segments.append(Segment(rng.randint(0, 9_000), [foreign_entry(rng, [data], 15) for _ in range(count)]))
        left -= count
    if rng.random() < 0.5:
        close(rng, segments, max(segment.end() for segment in segments))
    return plain([data, *segments]).assemble()


def many_segments(rng):
    datas = [Data(rng.randbytes(24)), Data(rng.randbytes(rng.choice([9, 40_000])))]
    segments = [foreign_segment(rng, datas, 400) for _ in range(near(rng, SEGMENTS))]
    items = datas + segments
    rng.shuffle(items)
    return plain(items).assemble()


def many_sources(rng):
    """As many sources as a file may have, one fewer or one more, that of pfil among them, over as many segments by turns,
    told apart by the last byte of a long URL, or by where a long list begins."""
    data, count = Data(rng.randbytes(24)), near(rng, SOURCES - 1)
    long, many = rng.choice([0, 40, 3_000]) * b"u", [b"%d" % at for at in range(rng.choice([9, 100]))]
    lists = rng.choice([[[long + bytes([65 + at])] for at in range(count)], [many[at:] + many[:at] for at in range(count)]])
    segments = [foreign_segment(rng, [data], 400) for _ in range(SEGMENTS)]
    for segment in segments[2:]:
        put_urls(rng, segment, rng.choice(lists))
    return plain([data, *segments]).assemble()


def many_surls(rng):
    """As many surl boxes as pfil or a segment has room for, or one more, and segments of that source and of near ones."""
    urls = [rng.choice([b"", b"a", b"ab"]) for _ in range(near(rng, BOXES - 2))]
    segments = [Segment(at, []) for at in range(4)]
    plan = plain(segments)
    put_urls(rng, segments[1], urls)
    put_urls(rng, segments[2], urls[:-1] if rng.random() < 0.5 else urls[::-1])
    if rng.random() < 0.5:
        plan.pfil_parts = [pfhd(), *boxes_for(rng, urls[1:])]
    return plan.assemble()


def many_boxes(rng):
    plan, filling = foreign_plan(rng), rng.choice(FILLINGS)
    if rng.random() < 0.4:
        too_many_boxes(rng, plan)
    elif rng.random() < 0.5:
        plan.tail = (BOXES - plan.box_count()) * filling
    else:
        plan.pfil_parts += (BOXES - len(plan.pfil_parts)) * [filling]
    return plan.assemble()


def many_outside(rng):
    """A mixed file full of boxes, a pdat among them, and chunks that are one of them or many, now and then over the
    pdat or a byte off."""
    wholes = [Whole([rng.choice(FILLINGS) for _ in range(count)]) for count in (near(rng, 250), 251)]
    edges = [whole.edges() for whole in wholes]
    entries = []
    for _ in range(rng.choice([3, 60, 300])):
        number = rng.randrange(2)
        first, end = sorted(rng.sample(edges[number], 2))
        entries.append(Entry(GOOD, end - first, wholes[number], first))
    if rng.random() < 0.3:
        entries[-1].size += rng.choice([-1, 1, 50, edges[0][-1]])
    segments = [Segment(0, entries[at::4]) for at in range(4)]
    return plain([wholes[0], Data(rng.randbytes(9)), wholes[1], *segments], b"pmff").assemble()


def long_data(rng):
    """Chunks of many bytes, far from the segments."""
    datas = [Data(rng.randbytes(rng.randint(1, LONGEST // 2))) for _ in range(2)]
    segments = [foreign_segment(rng, datas, LONGEST) for _ in range(3)]
    for segment in segments:
        for entry in segment.entries:
            if entry.data is not None:
                entry.size = rng.randint(1, len(entry.data.body) - entry.at)
    items = datas + segments
    rng.shuffle(items)
    return plain(items).assemble()


def near_what_the_program_takes(rng):
    return maps.of_size(rng.choice([65_535, 65_536, 65_537, 131_072]))


def many_indexed(rng):
    """An index with lists as long as they may be, or one box longer, over a source of many short ranges."""
    data = Data(rng.randbytes(2_000))
    entries = [Entry(rng.choice([GOOD, LOST]), 8, data, 8 * at) for at in range(250)]
    around = Indexed(8 + 8 * BOXES, b"moov")
    around.parts = near(rng, BOXES) * [Indexed(8, b"free")]
    around.parts[-1] = to_the_end(b"free", [])
    index = Index([around, *(near(rng, BOXES) - 1) * [Indexed(8, b"mdat")]])
    plan = plain([data, Segment(0, entries)])
    put_index(rng, rng.choice([plan, *plan.segments()]), index)
    return plan.assemble()


LARGE = [many_chunks, many_segments, many_sources, many_sources, many_surls, many_indexed, many_boxes, many_boxes, many_outside, many_outside, long_data, near_what_the_program_takes]


def large_file(rng):
    return rng.choice(LARGE)(rng)


# All of them.

def faulty_file(rng):
    return generate.faulty_file(rng, rng.choice(sorted(FAULTS)))


def twice_faulty_file(rng):
    """A file with two faults, of which the model says which one counts; that without segments comes last, as the others
    are put into them."""
    plan = foreign_plan(rng)
    for number in sorted(rng.sample(sorted(FAULTS), 2), key=lambda number: number == 12):
        FAULTS[number](rng, plan)
    return plan.assemble()


def faulty_index(rng):
    return generate.faulty_file(rng, rng.choice([36, 36, 36, 37, 38, 39]))


def spoiled_index(rng):
    return generate.spoil(rng, generate.indexed_file(rng))


def noise(rng):
    return rng.randbytes(rng.randint(0, 60))


def of_corpora():
    """Every file that the corpora of reading and listing have, once, with all that were worked out by hand on indexes and
    sources, and those on damage and on sources that the corpus of the maps has."""
    records = [*corpus.records(), *corpus_index.claims(), *corpus_sources.claims(), *lists.records()]
    return sorted({record.file for record in records} | {file.content for file in [*maps.of_damage(), *maps.of_sources()]})


def chooser(listed):
    """A function that chooses files: first one with each fault and one of each large kind, then of each thousand about
    so many of each kind."""
    def listed_file(rng):
        return rng.choice(listed)

    def spoiled_file(rng):
        return generate.spoil(rng, listed_file(rng) if rng.random() < 0.2 else generate.foreign_file(rng))

    shares = [(generate.foreign_file, 320), (spoiled_file, 280), (cut_file, 120), (faulty_file, 70), (twice_faulty_file, 120), (listed_file, 80), (noise, 4),
              (large_file, 6), (generate.indexed_file, 60), (spoiled_index, 60), (faulty_index, 40)]
    makers, weights = zip(*shares)
    first = [lambda rng, number=number: generate.faulty_file(rng, number) for number in sorted(FAULTS)] + LARGE

    def chosen(rng):
        maker = first.pop() if first else rng.choices(makers, weights)[0]
        return maker(rng)

    return chosen
