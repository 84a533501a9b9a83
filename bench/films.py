"""Makes the films of the benchmark in a folder: python3 bench/films.py FOLDER"""

import os
import sys

sys.path.insert(0, os.path.join(os.path.dirname(os.path.abspath(__file__)), os.pardir, "tests"))

from boxes import bidx, box, entry, fidx, head, ploc, pshd, surl  # noqa: E402

GOOD, DAMAGED, LOST = 0x40, 0xC0, 0x80


def pseg(place, offset, chunks, widths, last=False, parts=b""):
    """A segment at a place of the file; a chunk is its flag byte, its size and its place, None where it has none. Other
    boxes of it stand at its end."""
    entries = [entry(flags, widths[0], size, *[] if at is None else [widths[1], at - place]) for flags, size, at in chunks]
    return box(b"pseg", pshd(offset, 1 if last else 0), ploc(*widths, entries), parts)


def as_written(segments, size):
    """Each segment behind its own data, as append lays it out; a segment is its source offset and how many good chunks
    of a size it has."""
    file = head(b"http://films.example/lesson", b"video/mp4")
    for offset, count in segments:
        data = box(b"pdat", bytes(count * size))
        first = len(file) + 8
        chunks = [(GOOD, size, first + size * i) for i in range(count)]
        file += data
        file += pseg(len(file), offset, chunks, (4, 4), (offset, count) == segments[-1])
    return file


def data_first(bodies, size, segments, widths=(8, 8), last=True, damaged=(), index=b""):
    """So many data boxes, then the segments; a segment is its source offset and, for each of its chunks of a size, the
    number of its data box, None where it is lost. The chunks of damaged boxes are. The index stands in pfil."""
    file = head(b"http://films.example/lesson", b"video/mp4", parts=index)
    places = []
    for _ in range(bodies):
        places.append(len(file) + 8)
        file += box(b"pdat", bytes(size))
    for number, (offset, among) in enumerate(segments):
        chunks = [(LOST, size, None) if body is None else (DAMAGED if body in damaged else GOOD, size, places[body]) for body in among]
        file += pseg(len(file), offset, chunks, widths, last and number == len(segments) - 1)
    return file


def sixteens(bodies, body_of, size=64, damaged=(), index=b""):
    """64 segments of 16 chunks in order in the source."""
    numbers = [[body_of(16 * s + i) for i in range(16)] for s in range(64)]
    return data_first(bodies, size, [(16 * s * size, among) for s, among in enumerate(numbers)], damaged=damaged, index=index)


def layers(count, size):
    """So many layers, each of 64 / count segments of 16 chunks that take turns in the file, every other chunk lost."""
    file = head(b"http://films.example/lesson", b"video/mp4")
    first = len(file) + 8
    file += box(b"pdat", bytes(size))
    for number in range(64):
        turn, layer = divmod(number, count)
        chunks = [(LOST, size, None) if i % 2 else (GOOD, size, first) for i in range(16)]
        urls = surl(b"http://films.example/lesson/layer%d" % layer, b"video/mp4") + surl(b"http://mirror.example/lesson/layer%d" % layer)
        file += pseg(len(file), 16 * turn * size, chunks, (8, 8), turn == 64 // count - 1, urls)
    return file


def three_levels(size):
    """The index of a source of that size: 8 boxes of 4 boxes of 8 boxes, 296 in all, the last of each list up to the
    end."""
    runs = 7 * bidx(size // 256 - 16, b"trun") + bidx(0, b"trun")
    tracks = 3 * bidx(size // 32 - 8, b"traf", runs) + bidx(0, b"traf", runs)
    return fidx(7 * bidx(size // 8, b"moof", tracks) + bidx(0, b"moof", tracks))


def films():
    # 512 boxes in all: ftyp, pfil, 64 pseg and these.
    most = 446
    far = sixteens(most, lambda i: most - 1 - i % 2)
    yield "ordinary", as_written([(16 * s * 1024, 16) for s in range(64)], 1024)
    yield "largest", sixteens(most, lambda i: i * most // 1024)
    yield "far", far
    yield "refused", far[:-8] + (1 << 40).to_bytes(8, "big")
    yield "overlapping", as_written([(37 * s, 16) for s in range(64)], 100)
    yield "in_order", sixteens(1, lambda i: None if i % 2 else 0)
    yield "indexed", sixteens(1, lambda i: None if i // 8 % 2 else 0, index=three_levels(64 * 1024))
    yield "damaged", sixteens(2, lambda i: (0, 1, None, 1)[i % 4], damaged={1})
    yield "layered", layers(8, 64)
    for chunks in (16, 64, 256, 1024):
        yield "chunks_%d" % chunks, data_first(1, 64, [(0, [None if i % 2 else 0 for i in range(chunks)])])
    for boxes in (8, 64, 512):
        yield "boxes_%d" % boxes, data_first(boxes - 3, 64, [(0, list(range(0, boxes - 3, max(1, (boxes - 3) // 5))))])


folder = sys.argv[1]
os.makedirs(folder, exist_ok=True)
for name, film in films():
    with open(os.path.join(folder, name + ".paff"), "wb") as out:
        out.write(film)
