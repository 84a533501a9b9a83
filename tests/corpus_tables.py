"""Makes records on lent tables that are too short, exact, and ample."""

from boxes import box, entry, head, lost_segment, open_segment, ploc, pshd
from foreign import DAMAGED, ELSEWHERE, GOOD
from record import refused, taken

# Two segments and three chunks: 16 and 18 numbers.
ENTRIES = [entry(GOOD, 1, 2, 1, -4), entry(DAMAGED, 1, 2, 1, -2), entry(ELSEWHERE, 1, 9)]
TWO_AND_THREE = (head(b"url", b"mime") + box(b"pdat", b"abcd")
                 + box(b"pseg", pshd(3, 5, 99, 1), ploc(1, 1, ENTRIES)) + open_segment(16, 8))


def tables_of_a_small_file():
    for segments in (0, 8, 15, 16, 17, 512):
        for chunks in (0, 12, 17, 18, 19, 6144):
            name = f"2 segments and 3 chunks in {segments} and {chunks} numbers"
            if segments < 16 or chunks < 18:
                yield refused(26, name, TWO_AND_THREE, segments, chunks)
            else:
                yield taken(name, TWO_AND_THREE, segments, chunks)


def tables_at_the_limits():
    many = head() + 64 * open_segment(5)
    yield taken("64 segments in 512 numbers", many, 512, 0)
    yield refused(26, "64 segments in 511 numbers", many, 511, 0)
    chunks = head() + lost_segment(0, 1024 * [2], width=1)
    yield taken("1024 chunks in 6144 numbers", chunks, 8, 6144)
    yield refused(26, "1024 chunks in 6143 numbers", chunks, 8, 6143)
    yield refused(26, "1024 chunks in 6138 numbers", chunks, 8, 6138)
    yield refused(26, "1024 chunks, 7 numbers for segments", chunks, 7, 6144)
    yield refused(26, "1024 chunks in no number", chunks, 0, 0)


def tables_of_other_files():
    yield taken("an open segment needs no chunk table", head() + open_segment(5), 8, 0)
    yield refused(26, "an open segment needs a segment table", head() + open_segment(5), 7, 6144)
    yield refused(12, "only begun, no table", head(), 0, 0)
    yield refused(7, "an empty file, no table", b"", 0, 0)
    differing = head() + lost_segment(0, [3], flags=1) + open_segment(4)
    yield refused(25, "25 before 26", differing, 15, 5)


def records():
    for made in (tables_of_a_small_file, tables_at_the_limits, tables_of_other_files):
        yield from made()
