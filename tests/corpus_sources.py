"""Makes records on files of several sources: which segments are of one, each source by itself and some that are not there,
the texts of segments, ill-formed surl boxes, none at all, sizes that disagree, a ninth source, and indexes beside."""

from boxes import bare_head, bidx, box, entry, fidx, head, lost_segment, open_segment, ploc, pshd, surl
from corpus_boxes import SURLS
from corpus_index import NINTH, WRONG, chain
from foreign import GOOD, LIMIT
from record import refused, taken

TO_THE_END = fidx(bidx(0))
LARGE = 3_000


def surls(urls, mime=b""):
    return b"".join(surl(url, mime) for url in urls)


def opened(*urls, offset=0, mime=b"", parts=b""):
    return open_segment(offset, parts=surls(urls, mime) + parts)


def lost(size, *urls, flags=0, offset=0, parts=b""):
    return lost_segment(offset, [size], flags, parts=surls(urls) + parts)


def good(size, *urls, offset=0, flags=0, parts=b""):
    """A segment of one good chunk behind its data."""
    data = bytes(range(1, 1 + size))
    return box(b"pdat", data) + box(b"pseg", pshd(offset, flags), ploc(1, 1, [entry(GOOD, 1, size, 1, -size)]), surls(urls), parts)


# Numbers.

# The list in pfil, and the list of each segment, None where it has none of its own.
LISTS = [
    ("own ones by turns", [b"u"], [[b"a"], [b"b"], [b"a"], [b"c"], [b"b"]]), ("that of pfil later", [b"u"], [[b"a"], None, [b"a"], None]),
    ("that of pfil by its own list", [b"u"], [[b"u"], None, [b"a"], [b"u"]]),
    ("that of pfil never", [b"u"], [[b"a"], [b"b"]]), ("none in pfil", [], [[b"a"], [b"b"], [b"a"]]), ("another order", [b"u"], [[b"a", b"b"], [b"b", b"a"], [b"a", b"b"]]),
    ("parts of a list", [b"a", b"b"], [[b"a"], None, [b"b"], [b"a", b"b"], [b"a", b"b", b"c"]]), ("a URL twice and thrice", [b"u"], [[b"u"], [b"u", b"u"], None, [b"u", b"u", b"u"]]),
    ("empty URLs", [b""], [[b""], [b"", b""], None, [b"", b"", b""], [b"a", b""], [b"", b"a"]]), ("cut in another way", [b"u"], [[b"ab", b"c"], [b"a", b"bc"], [b"abc"], [b"ab", b"c"]]),
    ("one letter", [b"A"], [[b"a"], None, [b"A"], [b"a "]]), ("any bytes", [b"\xff"], [[b"\xff\x01"], None, [b"\xff\x01"], [b"\x01\xff"]]),
    ("one byte longer", [60 * b"u"], [[59 * b"u"], None, [60 * b"u"], [61 * b"u"]]),
    ("their last byte", [b"http://a/1"], [[b"http://a/2"], None, [b"http://a/1"], [b"http://b/1"]]), ("the second URL", [b"a", b"b"], [[b"a", b"c"], None, [b"a", b"b"], [b"c", b"b"]]),
]


def numbers():
    for name, of_pfil, lists in LISTS:
        file = bare_head(surls(of_pfil)) + b"".join(opened(*(urls or []), offset=3 * at, mime=b"m") for at, urls in enumerate(lists))
        yield taken(f"sources by {name}, source 0", file, segment=1)
        yield taken(f"sources by {name}, source {len(lists) // 2}", file, source=len(lists) // 2, segment=2)
    mimes = head(b"u", b"m") + opened(b"u", mime=b"n", offset=4) + opened(offset=5) + opened(b"a", mime=b"m") + opened(b"a", mime=b"text") + opened(b"a", b"b", mime=b"m")
    for source in range(4):
        yield taken(f"sources by other MIME texts, source {source}", mimes, source=source, segment=source)
    around = box(b"pseg", pshd(9), surl(b"a", large=True), ploc(0, 0, []), box(b"free"), surl(b"b")) + opened(b"a", b"b") + box(b"pseg", pshd(7), surl(b"b"), ploc(0, 0, []), surl(b"a"))
    for source in range(3):
        yield taken(f"sources by boxes around ploc, source {source}", head() + around, source=source, segment=source)


# Each by itself.

def layers():
    """Two layers on the same positions, and numbers of sources and segments that are there and are not."""
    film = head() + good(4, flags=1) + good(3, b"v", offset=2) + lost(2, offset=1) + good(2, b"w", b"v", offset=1, flags=1)
    for number in (0, 1, 2, 3, 7, 8, 9, 63, 64, 255, 256, 65_535):
        yield taken(f"three layers, number {number}", film, source=number, segment=number)
    far = head() + opened(offset=5) + opened(b"v", offset=LIMIT) + lost(9, b"w", flags=1) + opened(b"w", offset=9)
    for number in range(4):
        yield taken(f"three lengths, number {number}", far, source=number, segment=number)
    eight = bare_head() + b"".join(lost(size, bytes([48 + size]), flags=size % 2) for size in range(8)) + opened(b"7") + opened(b"0")
    for number in (0, 1, 7, 8):
        yield taken(f"eight sources, number {number}", eight, source=number, segment=number)
    yield refused(26, "eight sources in tables too short", eight, 79, 48)
    yield taken("eight sources in tables that just hold", eight, 80, 48)


def texts():
    """Texts that just fit 64 bytes and eight numbers, and that do not."""
    for name, urls, mime in [("64 bytes", [60 * b"u", b"v"], b"m"), ("64 bytes in one text", [64 * b"u"], b""), ("64 bytes of MIME text", [b""], 64 * b"m"),
                             ("65 bytes", [60 * b"u", b"uv"], b"m"), ("65 bytes in one text", [65 * b"u"], b""),
                             ("four surl", 4 * [b"u"], b"m"), ("four empty surl", 4 * [b""], b""), ("five surl", 5 * [b"u"], b"m"), ("five empty surl", 5 * [b""], b""),
                             ("each byte", [bytes(range(1, 33)), bytes(range(225, 256))], b"")]:
        yield taken(f"texts of {name}", head() + opened(*urls, mime=mime))
        yield taken(f"texts of {name}, in pfil", bare_head(surls(urls, mime)) + opened())
    yield taken("texts of 510 surl", head() + opened(*510 * [b""]))
    yield refused(6, "texts of 511 surl", head() + opened(*511 * [b""]))


# Refusals.

def ill_formed():
    for name, body in SURLS:
        bad = box(b"surl", body)
        yield refused(16, f"in a pseg, surl {name}", head() + opened(parts=bad))
        yield refused(16, f"in a second pseg, second surl {name}", bare_head() + opened(b"a") + opened(b"b", parts=bad))
        yield refused(11, f"in pfil alone, surl {name}, segments with their own", bare_head(bad) + opened(b"a"))
    yield refused(16, "16 before 17", head() + box(b"pseg", pshd(0), box(b"surl"), box(b"ploc")))
    yield refused(15, "15 before 16", head() + box(b"pseg", pshd(0), box(b"surl")))
    yield taken("an ill-formed surl in the file", head() + box(b"surl") + opened())


def none_at_all():
    bad = box(b"surl")
    for name, file in [("alone", bare_head() + opened()), ("behind one that has", bare_head() + opened(b"a") + opened()), ("before one that has", bare_head() + opened() + opened(b"a")),
                       ("with one in a free box", bare_head(box(b"free", surl())) + opened()),
                       ("before 17", bare_head() + box(b"pseg", pshd(0), box(b"ploc"))), ("before 23", bare_head() + opened(offset=LIMIT + 1)),
                       ("before a later 16", bare_head() + opened() + opened(parts=bad)),
                       ("before a later 14", bare_head() + opened() + box(b"pseg")), ("before 25", bare_head() + lost(3, b"a", flags=1) + lost(4, b"a", flags=1) + opened()),
                       ("with an index", bare_head(WRONG) + opened())]:
        yield refused(41, f"no surl at all, {name}", file)
    yield refused(12, "no surl at all, and no segment", bare_head())
    yield refused(16, "no surl at all, behind an earlier 16", bare_head() + opened(parts=bad) + opened())
    yield refused(17, "no surl at all, behind an earlier 17", bare_head() + box(b"pseg", pshd(0), box(b"ploc"), surl()) + opened())
    yield refused(13, "no surl at all, in 65 segments", bare_head() + 65 * opened())
    for name, file in [("an empty URL in pfil", bare_head(surl(b"")) + opened()), ("an empty URL in the segment", bare_head() + opened(b""))]:
        yield taken(f"no surl but {name}", file)


def many(count, size=0, flags=0):
    return b"".join(lost(size, bytes([65 + at]), flags=flags) for at in range(count))


def sizes():
    for name, more in [("another size", lost(4, b"v", flags=1)), ("an end above", lost(9, b"v")), ("an open offset above", opened(b"v", offset=9)),
                       ("an empty end above", lost(0, b"v", offset=9, flags=1))]:
        yield taken(f"closed at 3, in another source {name}", head() + lost(3, flags=1) + more, source=1)
        yield refused(25, f"closed at 3, in the same source {name}", head(b"v") + lost(3, flags=1) + opened(b"u") + more)
        yield refused(25, f"closed at 3 behind, in the same source {name}", head() + more + opened() + lost(3, b"v", flags=1))
    yield taken("eight sources of one size", bare_head() + many(8, 4, 1) + many(8))
    for name, file in [("a ninth", bare_head() + many(9)), ("a ninth, that of pfil", head() + many(8) + opened()), ("a ninth, that of pfil first", head() + opened() + many(8)),
                       ("a ninth, and the first again", bare_head() + many(9) + many(1)),
                       ("a tenth", head() + many(9) + opened()), ("26 sources", bare_head() + many(26, 4, 1)),
                       ("a ninth by its order", bare_head() + many(7) + opened(b"x", b"y") + opened(b"y", b"x")), ("a ninth before 36", head(parts=WRONG) + many(9)),
                       ("a ninth before 37", head(parts=NINTH) + many(9)), ("a ninth before 38", head(parts=fidx()) + many(9) + opened(b"A", parts=fidx())),
                       ("a ninth before 39", head(parts=TO_THE_END) + many(9))]:
        yield refused(40, f"sources, {name}", file)
    for name, file in [("in a ninth source", bare_head() + many(9, 4, 1) + lost(5, b"I")), ("in the first of nine", bare_head() + many(9, 4, 1) + lost(5, b"A")),
                       ("in a tenth", bare_head() + lost(5, b"x", flags=1) + many(9) + lost(6, b"x"))]:
        yield refused(25, f"25 before 40, {name}", file)
    yield refused(40, "40 before 26", bare_head() + many(9), 0, 0)
    yield refused(24, "24 before 40", bare_head() + many(9) + box(b"pseg", pshd(0), ploc(1, 1, [entry(GOOD, 1, 1, 1, 0)]), surl()))
    yield taken("eight, that of pfil among them", head(b"C") + many(8, 2) + lost(1), source=2)


# Indexes.

def indexes():
    for name, file in [("of its source", head(parts=fidx(bidx(99))) + good(20, b"a") + good(15)), ("no segment of its source", head(parts=fidx(bidx(99))) + good(20, b"a", flags=1)),
                       ("no list", bare_head(fidx(bidx(99))) + good(20, b"a", flags=1)),
                       ("to the end of its source", head(parts=TO_THE_END) + good(30, b"a") + good(20, flags=1)),
                       ("to the end of its source by its own list", head(parts=TO_THE_END) + good(30, b"a") + good(20, b"u", flags=1)),
                       ("a size 0 inside, no segment of its source", head(parts=fidx(bidx(40, b"moov", bidx(0)))) + good(30, b"a"))]:
        yield taken(f"layers, index in pfil {name}", file, source=1, segment=1)
    for number, name, file in [(39, "to the end that another source tells", head(parts=TO_THE_END) + good(30, b"a", flags=1) + good(20)),
                               (39, "to the end, no segment of its source", head(parts=TO_THE_END) + good(30, b"a", flags=1)),
                               (39, "to the end, no list", bare_head(TO_THE_END) + good(30, b"a", flags=1)),
                               (36, "with seven bytes left of its source", head(parts=fidx(bidx(13), bidx(0))) + good(30, b"a", flags=1) + good(20, flags=1)),
                               (37, "of nine levels, no segment of its source", head(parts=fidx(chain(9, 8))) + good(30, b"a")),
                               (38, "and in a segment of another source", head(parts=fidx()) + opened() + opened(b"a", parts=fidx()))]:
        yield refused(number, f"layers, index in pfil {name}", file)
    yield taken("layers, index in pfil with seven bytes left of another source", head(parts=fidx(bidx(13), bidx(0))) + good(20, b"a", flags=1) + good(30, flags=1))
    yield taken("layers, index in each of two sources", head() + good(20, flags=1, parts=TO_THE_END) + good(12, b"a", offset=4, flags=1, parts=TO_THE_END), source=1)
    yield taken("layers, index in a segment that another of its source ends", head() + opened(b"a", parts=TO_THE_END) + good(20) + good(12, b"a", flags=1))
    yield refused(39, "layers, index in a segment of an open source", head() + good(20, flags=1) + good(12, b"a", parts=TO_THE_END))
    yield refused(36, "layers, index in a segment with too little left of its source",
                  head() + good(20, flags=1) + good(12, b"a", offset=8, flags=1) + opened(b"a", offset=13, parts=TO_THE_END))


def claims():
    for made in (numbers, layers, texts, ill_formed, none_at_all, sizes, indexes):
        yield from made()


def records():
    """All but those of the largest files, which tests/scale.py takes."""
    return [record for record in claims() if len(record.file) < LARGE]
