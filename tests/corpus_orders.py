"""Makes records with two faults in one file, of which the one that the paper asks first is to be answered."""

from boxes import box, entry, full, head, lost_segment, open_segment, pfhd, ploc, pshd, surl
from foreign import ELSEWHERE, GOOD, LIMIT
from record import refused

# Faults in the order in which the paper asks for them. Those of one segment are all put into the first.
FAULTS = [
    (2, "a byte at the end of the file"),
    (7, "ftyp body of 13 bytes"),
    (8, "neither brand"),
    (9, "a second pfil"),
    (3, "size 0 in pfil"),
    (10, "pfhd of version 1"),
    (11, "surl not closed"),
    (12, "no pseg"),
    (13, "65 pseg"),
    (4, "size 7 in the pseg"),
    (14, "pshd not first"),
    (15, "two ploc"),
    (16, "surl in the pseg not closed"),
    (41, "no surl"),
    (17, "ploc of version 1"),
    (18, "width 9"),
    (19, "data reference 1"),
    (22, "1025 chunks"),
    (23, "offset over its limit"),
    (20, "reserved bit"),
    (17, "offset cut short"),
    (23, "end over its limit"),
    (24, "chunk in no pdat"),
    (17, "a byte left over"),
    (25, "sizes that differ"),
    (40, "nine sources"),
]
NUMBERS = {name: number for number, name in FAULTS}
OF_THE_FILE = list(NUMBERS)[:7]


def together(one, two):
    """Whether two faults can stand in one file."""
    if "no pseg" in (one, two):
        return one in OF_THE_FILE
    return {one, two} not in ({"offset cut short", "a byte left over"}, {"surl not closed", "no surl"})


def worth_it(one, two):
    """Whether a pair tells something: the sources of a file are far behind the faults of its first boxes, and make it
    long."""
    return two != "nine sources" or one not in OF_THE_FILE


def ftyp_with(faults):
    brand = b"isom" if "neither brand" in faults else b"paff"
    return box(b"ftyp", b"paff", bytes(4), brand, b"x" if "ftyp body of 13 bytes" in faults else b"")


def pfil_with(faults):
    header = box(b"pfhd", full(1)) if "pfhd of version 1" in faults else pfhd()
    texts = b"" if "no surl" in faults else surl(b"u", b"m")
    if "surl not closed" in faults:
        texts = box(b"surl", full(), b"u\0m")
    return box(b"pfil", header, texts, bytes(8) if "size 0 in pfil" in faults else b"")


def entry_with(faults):
    flag_byte = GOOD + (1 if "reserved bit" in faults else 0)
    size = 2 ** 40 if "end over its limit" in faults else 8
    offset = 1000 if "chunk in no pdat" in faults else -8
    made = entry(flag_byte, 8, size, 2, offset)
    if "offset cut short" in faults:
        return made[:-1]
    return made + (b"\0" if "a byte left over" in faults else b"")


def ploc_with(faults):
    widths = (9 if "width 9" in faults else 8) * 16 + 2
    reference = 1 if "data reference 1" in faults else 0
    count = 1025 if "1025 chunks" in faults else 1
    fields = bytes([widths]) + reference.to_bytes(2, "big") + count.to_bytes(2, "big")
    return box(b"ploc", full(1 if "ploc of version 1" in faults else 0), fields, entry_with(faults))


def pseg_with(faults):
    first = box(b"free") if "pshd not first" in faults else b""
    offset = LIMIT + 1 if "offset over its limit" in faults else 0
    located = ploc_with(faults) * (2 if "two ploc" in faults else 1)
    texts = box(b"surl", full(), b"u\0m") if "surl in the pseg not closed" in faults else b""
    end = bytes([0, 0, 0, 7]) + b"free" if "size 7 in the pseg" in faults else b""
    return box(b"pseg", first, pshd(offset, version=1), located, texts, end)


def psegs_with(faults):
    if "no pseg" in faults:
        return b""
    more = 64 * box(b"pseg") if "65 pseg" in faults else b""
    differing = lost_segment(0, [3], flags=1) + open_segment(4) if "sizes that differ" in faults else b""
    sources = b"".join(open_segment(0, parts=surl(bytes([url]))) for url in b"12345678") if "nine sources" in faults else b""
    return pseg_with(faults) + more + differing + sources


def file_with(faults):
    second = pfil_with([]) if "a second pfil" in faults else b""
    end = b"\0" if "a byte at the end of the file" in faults else b""
    return ftyp_with(faults) + pfil_with(faults) + second + box(b"pdat", b"abcdefgh") + psegs_with(faults) + end


def single_faults():
    """Each alone, and with tables of no number: 26 is asked last."""
    for number, name in FAULTS:
        yield refused(number, f"only {name}", file_with([name]))
        yield refused(number, f"only {name}, no table", file_with([name]), 0, 0)


def pairs():
    for at, (number, name) in enumerate(FAULTS):
        for _, other in FAULTS[at + 1:]:
            if together(name, other) and worth_it(name, other):
                yield refused(number, f"{name}; {other}", file_with([name, other]))


# The first segment's fault counts, and in one segment the first entry's.

IN_A_SEGMENT = [name for number, name in FAULTS[9:24]]


def two_segments():
    for at, name in enumerate(IN_A_SEGMENT):
        other = IN_A_SEGMENT[at - 7]
        if "no surl" in (name, other):
            continue
        file = ftyp_with([]) + pfil_with([]) + box(b"pdat", b"abcdefgh") + pseg_with([name]) + pseg_with([other])
        yield refused(NUMBERS[name], f"{name}; in the second, {other}", file)
        good = lost_segment(0, [1])
        file = ftyp_with([]) + pfil_with([]) + good + box(b"pdat", b"abcdefgh") + pseg_with([other])
        yield refused(NUMBERS[other], f"good; in the second, {other}", file)


ENTRIES = [
    (20, "reserved bit", b"\x41"),
    (20, "reserved bit beside neither", b"\x01"),
    (23, "end over its limit", entry(GOOD, 5, LIMIT, 1, -8)),
    (23, "end over its limit, held elsewhere", entry(ELSEWHERE, 5, LIMIT)),
    (24, "in no pdat", entry(GOOD, 5, 1, 1, 0)),
]


def two_entries():
    for state, front in [("good", entry(GOOD, 5, 8, 1, -8)), ("elsewhere", entry(ELSEWHERE, 5, 8))]:
        for number, name, made in ENTRIES:
            for _, other, behind in ENTRIES + [(17, "cut short", b"")]:
                located = ploc(5, 1, [front, made.ljust(7, b"\0"), behind])
                file = head() + box(b"pdat", b"abcdefgh") + box(b"pseg", pshd(0), located)
                yield refused(number, f"first entry {state}; second, {name}; third, {other}", file)


def records():
    for made in (single_faults, pairs, two_segments, two_entries):
        yield from made()
