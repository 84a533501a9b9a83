"""Makes records on the parts of a pseg: pshd, ploc, its entries, and the limits of chunks and of the source."""

from boxes import box, entry, ftyp, full, head, lost_segment, open_segment, pfhd, ploc, pshd, surl
from foreign import DAMAGED, ELSEWHERE, GOOD, LIMIT, LOST, WIDE
from plan import Data, Entry, Plan, Segment
from record import refused, taken

FREE = box(b"free")
OPEN = ploc(0, 0, [])
LOST_5 = entry(LOST, 1, 5)


def of_parts(*parts, large=False):
    """A file of one segment, with data in front of it."""
    return head() + box(b"pdat", b"abcdef") + box(b"pseg", *parts, large=large)


def files_of_pshd():
    yield refused(14, "an empty pseg", of_parts())
    yield refused(14, "a box before pshd", of_parts(FREE, pshd(7), OPEN))
    yield refused(14, "pshd behind ploc", of_parts(OPEN, pshd(7)))
    yield refused(14, "no pshd", of_parts(OPEN))
    yield refused(14, "two pshd", of_parts(pshd(7), OPEN, pshd(7)))
    for version, lengths in [(0, (0, 1, 4, 15, 17, 20)), (1, (1, 4, 16, 19, 21)), (255, (16, 19))]:
        for length in lengths:
            body = (bytes([version]) + bytes(23))[:length]
            yield refused(14, f"pshd of version {version}, body of {length} bytes",
                          of_parts(box(b"pshd", body), OPEN))
    for version in (0, 1, 2, 255):
        for large in (False, True):
            form = "large " if large else ""
            yield taken(f"a {form}pshd of version {version}", of_parts(
                pshd(0x12345678, 0xABCDEE, 2 ** 64 - 1 - version, version, large), OPEN))


def files_of_parts():
    yield refused(15, "no ploc", of_parts(pshd(7)))
    yield refused(15, "a ploc in the file only", of_parts(pshd(7)) + OPEN)
    yield refused(15, "two ploc", of_parts(pshd(7), OPEN, FREE, OPEN))
    yield taken("surl before ploc", of_parts(pshd(7), surl(), OPEN))
    yield refused(16, "an empty surl behind ploc", of_parts(pshd(7), OPEN, box(b"surl")))
    yield taken("boxes of every kind that a pseg skips", of_parts(
        pshd(7), *[box(kind, b"\0\0") for kind in (b"ftyp", b"pfil", b"pfhd")], box(b"uuid", bytes(18)), OPEN,
        *[box(kind, large=True) for kind in (b"pseg", b"pdat", b"free")]))
    yield taken("a large pseg, pshd and ploc", of_parts(
        pshd(7, large=True), ploc(1, 1, [entry(GOOD, 1, 6, 1, -6)], large=True), large=True))


def located(body):
    return of_parts(pshd(7), box(b"ploc", body))


def files_of_ploc():
    for length in (0, 4, 8):
        yield refused(17, f"ploc body of {length} bytes", located(bytes(length)))
    yield refused(17, "ploc of version 1", located(full(1) + bytes(5)))
    for flags in (1, 0x800000):
        yield refused(17, f"ploc with flags {flags}", located(full(0, flags) + bytes(5)))
    for length_size, offset_size in [(9, 0), (0, 9), (9, 9), (15, 8), (8, 15)]:
        yield refused(18, f"widths {length_size} and {offset_size}", of_parts(pshd(7), ploc(length_size, offset_size, [])))
    yield taken("widths 8 and 8, open", of_parts(pshd(7), ploc(8, 8, [])))
    for reference in (1, 256, 65535):
        yield refused(19, f"data reference {reference}", of_parts(pshd(7), ploc(0, 0, [], reference=reference)))


def of_entries(*entries, widths=(1, 1), count=None):
    return of_parts(pshd(7), ploc(*widths, list(entries), count=count))


def files_of_entries():
    yield refused(17, "no entry of one", of_entries(count=1))
    yield refused(17, "one entry of two", of_entries(LOST_5, count=2))
    yield refused(17, "a lost entry without its size", of_entries(bytes([LOST])))
    yield refused(17, "a lost entry without the last byte of its size", of_entries(bytes([LOST]) + bytes(7), widths=(8, 0)))
    yield refused(17, "a good entry without its offset", of_entries(bytes([GOOD, 6])))
    yield refused(17, "a damaged entry without the last byte of its offset", of_entries(bytes([DAMAGED, 6]) + bytes(7), widths=(1, 8)))
    yield refused(17, "a byte left over", of_entries(LOST_5, b"\0", count=1))
    yield refused(17, "an entry left over", of_entries(LOST_5, LOST_5, count=1))
    yield refused(17, "an entry left over in an open segment", of_entries(LOST_5, count=0))
    for bit in range(6):
        for flag_byte in (ELSEWHERE, LOST, GOOD, DAMAGED):
            yield refused(20, f"flag byte {flag_byte + 2 ** bit}", of_entries(bytes([flag_byte + 2 ** bit, 5])))
    yield refused(20, "flag byte 255 of the second entry", of_entries(LOST_5, b"\xff\x05"))
    yield taken("entries of each state", of_entries(
        entry(GOOD, 1, 2, 1, -6), LOST_5, entry(DAMAGED, 1, 3, 1, -3), entry(GOOD, 1, 0, 1, 99), entry(ELSEWHERE, 1, 7), entry(DAMAGED, 1, 0, 1, -99)))


def in_shared_data(counts):
    """A file whose segments hold so many good chunks of one byte, all in one pdat."""
    data = Data(bytes(range(256)))
    segments = [Segment(0, [Entry(GOOD, 1, data, at % 256) for at in range(count)]) for count in counts]
    return Plan(ftyp(), [pfhd(), surl()], [data] + segments).assemble()


def chunk_counts():
    yield taken("1024 chunks in one segment", head() + lost_segment(0, 1024 * [1], width=1))
    yield refused(22, "1025 chunks in one segment", head() + lost_segment(0, 1025 * [1], width=1))
    yield refused(22, "1025 chunks stated", of_entries(count=1025))
    yield refused(22, "65535 chunks stated", of_entries(count=65535))
    yield taken("1024 good chunks in three segments", in_shared_data([500, 500, 24]))
    yield refused(22, "1025 good chunks in three segments", in_shared_data([500, 500, 25]))
    empty = lost_segment(9, 512 * [0], width=0)
    yield taken("1024 empty chunks, and open segments", head() + empty + open_segment(3) + empty + open_segment(4))
    yield refused(22, "1024 empty chunks, then one", head() + 2 * empty + lost_segment(3, [1]))


def source_limits():
    """Ends and offsets at the limit, one past it and far past it."""
    yield taken(f"end {LIMIT}", head() + lost_segment(0, [LIMIT]))
    yield taken(f"end {LIMIT} of two chunks", head() + lost_segment(5, [LIMIT - 6, 1], flags=1))
    yield taken(f"end {LIMIT} of an empty chunk", head() + lost_segment(LIMIT, [0]))
    for version in (1, 2, 255):
        yield taken(f"open at {LIMIT}, version {version}", head() + open_segment(LIMIT, version=version))
        yield refused(23, f"open at {LIMIT + 1}, version {version}", head() + open_segment(LIMIT + 1, version=version))
    for offset, sizes in [(0, [LIMIT + 1]), (1, [LIMIT]), (LIMIT, [1]), (5, [LIMIT - 6, 2]), (0, [0, LIMIT, 0, 1]), (WIDE, [LIMIT - WIDE, 1])]:
        yield refused(23, f"end {LIMIT + 1} from {offset} of {len(sizes)}", head() + lost_segment(offset, sizes, width=6))
    for offset in (2 ** 40 + 5, 2 ** 48, 2 ** 63, 2 ** 64 - 1):
        yield refused(23, f"open at {offset}", head() + open_segment(offset))
    yield refused(23, f"an empty chunk at {LIMIT + 1}", head() + lost_segment(LIMIT + 1, [0]))
    for offset, size in [(1, 2 ** 64 - 1), (LIMIT, 2 ** 64 - LIMIT), (LIMIT, 2 ** 64 - LIMIT + 5), (0, 2 ** 63), (7, 2 ** 40), (7, 2 ** 56), (WIDE, 2 ** 64 - WIDE)]:
        yield refused(23, f"size {size} from {offset}", head() + lost_segment(offset, [size], width=8))
    yield refused(23, "two sizes of 9223372036854775808", head() + lost_segment(0, 2 * [2 ** 63], width=8))


def far_offsets():
    """Offsets and sizes on both sides of 2^32, in both forms of pshd."""
    for offset in (WIDE - 2, WIDE - 1, WIDE, WIDE + 1, 2 ** 33, LIMIT - 1):
        for version in (0, 1, 255) if offset < WIDE else (1, 255):
            yield taken(f"open at {offset}, version {version}", head() + open_segment(offset, version=version))
            yield taken(f"lost and held elsewhere at {offset}, version {version}", head() + lost_segment(offset, [1], 1, version) + lost_segment(offset, [0, 1], 0, version, flag_byte=0))
    for size in (WIDE - 1, WIDE, WIDE + 1, LIMIT - WIDE):
        for width in (4, 5, 8) if size < WIDE else (5, 8):
            yield taken(f"size {size} in {width} bytes", head() + lost_segment(3, [size, 5], width=width))
    yield taken("many chunks across 2^32", head() + lost_segment(WIDE - 9, 6 * [3, 0, 1], flags=1))
    for offset in (WIDE - 6, WIDE - 3, WIDE, LIMIT - 6):
        for version in (0, 1) if offset < WIDE else (1,):
            yield taken(f"6 good from {offset}, version {version}", of_parts(pshd(offset, 1, version=version), ploc(1, 1, [entry(GOOD, 1, 6, 1, -6)])))
    yield refused(23, "6 good past the limit", of_parts(pshd(LIMIT - 5), ploc(1, 1, [entry(GOOD, 1, 6, 1, -6)])))
    yield refused(25, "open at 2^32 above a size of 2^32 - 1", head() + lost_segment(0, [WIDE - 1], flags=1) + open_segment(WIDE))
    yield refused(25, "sizes that differ by 2^32", head() + lost_segment(7, [3], flags=1) + lost_segment(7, [WIDE + 3], flags=1))


def records():
    for made in (files_of_pshd, files_of_parts, files_of_ploc, files_of_entries, chunk_counts, source_limits, far_offsets):
        yield from made()
