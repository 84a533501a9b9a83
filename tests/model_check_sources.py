"""Checks the model on files of several sources worked out by hand: their numbers, what each says by itself, the refusals,
indexes and texts, what append writes and judges, and random runs of additions."""

import model
from boxes import bare_head, bidx, box, entry, fidx, full, head, lost_segment, open_segment, ploc, pshd, surl
from corpus_index import NINTH, WRONG
from expecting import expect

LIMIT = 1_099_511_627_775
FAR = (2, 7, 8, 9, 255, 256, 2 ** 32, 2 ** 64 - 1)
ILL_FORMED = [b"", bytes(3), full(), full() + b"u\0", full() + b"u\0m", full() + b"u\0m\0x", full(1) + b"u\0\0", full(0, 1) + b"u\0\0"]


def refused(number):
    return ("refused", number)


def number_of(answer):
    return answer[1] if answer[0] == "refused" else 0


def surls(urls, mime=b""):
    return b"".join(surl(url, mime) for url in urls)


def opened(*urls, offset=0, mime=b""):
    """An open segment with these URLs."""
    return open_segment(offset, parts=surls(urls, mime))


def lost(size, *urls, flags=0, offset=0):
    return lost_segment(offset, [size], flags, parts=surls(urls))


def film():
    """By hand: 10 positions of the source of pfil, four of them good, behind 55 bytes; then three good ones of another
    source, from position 2 on."""
    first = box(b"pseg", pshd(0, 1), ploc(1, 1, [entry(0x40, 1, 4, 1, -4), entry(0x80, 1, 6)]))
    second = box(b"pseg", pshd(2), ploc(1, 1, [entry(0x40, 1, 3, 1, -3)]), surl(b"v"))
    return head() + box(b"pdat", b"abcd") + first + box(b"pdat", b"EFG") + second


# What each source says.

def check_two_layers():
    file = film()
    expect("rows of two layers", model.read(file)[1], [(67, 0, 1, 0, 2, 83, 16, 0), (132, 2, 0, 0, 1, 148, 16, 1)])
    expect("chunks of two layers", model.read(file)[2], [(0, 0, 0, 4, 2, 63), (0, 1, 4, 6, 0, 0), (1, 0, 2, 3, 2, 129)])
    expect("how many", model.sources(file), ("sources", 2))
    expect("lengths", [model.length(file, source) for source in (0, 1, 2)], [("length", 10, True), ("length", 5, False), ("length", 0, False)])
    expect("lists", [model.lists(file, source=source)[1:] for source in (0, 1)], [([(0, 4)], [(4, 6)], 4, 6), ([(2, 3)], [(0, 2)], 3, 2)])
    expect("served", [model.serve(file, p, source=source) for source in (0, 1) for p in (0, 2, 4, 5)], [(63, 4), (65, 2), (0, 0), (0, 0), (0, 0), (129, 3), (131, 1), (0, 0)])
    expect("asked", [model.ask(file, p, source=source) for source in (0, 1) for p in (1, 4, 5, 9)],
           [("served", 3), ("missing", 6), ("missing", 5), ("missing", 1), ("missing", 1), ("served", 1), ("beyond",), ("beyond",)])
    expect("map", model.map_text(file), b"source\t10\tclosed\nhave\t0\t4\nlost\t4\t6\ntotal\t4\t0\t6\nsource\t5\topen\nlost\t0\t2\nhave\t2\t3\ntotal\t3\t0\t2\n")
    expect("map without names", model.missmap_text(file), b"source\t10\tclosed\nhave\t0\t4\nmiss\t4\t6\ntotal\t4\t6\nsource\t5\topen\nmiss\t0\t2\nhave\t2\t3\ntotal\t3\t2\n")
    turned = head() + open_segment(7, parts=surl(b"v")) + lost(3, flags=1)
    expect("the source of pfil comes second", model.map_text(turned), b"source\t7\topen\nlost\t0\t7\ntotal\t0\t0\t7\nsource\t3\tclosed\nlost\t0\t3\ntotal\t0\t0\t3\n")


def check_absent():
    """A source that the file has not: everything is 0, none or not below."""
    for file in (film(), head() + open_segment(9)):
        for source in FAR:
            name = f"source {source} of {len(file)} bytes"
            expect(f"length of {name}", model.length(file, source), ("length", 0, False))
            expect(f"lists of {name}", model.lists(file, source=source), ("lists", [], [], 0, 0))
            expect(f"lists of {name} in no room", model.lists(file, had_room=0, missing_room=0, source=source)[0], "lists")
            expect(f"positions of {name}", [model.ask(file, p, source=source) for p in (0, 2, LIMIT)], 3 * [("beyond",)])
            expect(f"parts of {name}", [model.serve(file, p, source=source) for p in (0, 2, LIMIT)], 3 * [(0, 0)])
            expect(f"texts of {name}", [model.source_url(file, source), model.source_mime(file, source)], 2 * [(0, 0)])
        expect("tables too short all the same", [model.ask(file, 0, 7, 99, source=9), model.lists(file, 7, 99, source=9)], 2 * [refused(26)])
    expect("a refusal all the same", model.lists(head(), source=9), refused(12))


def check_numbers():
    """By hand: which lists are of one source, of pfil and of each segment; None is no surl at all."""
    for name, of_pfil, lists, wanted in [
            ("one", [b"u"], [None, None], [0, 0]), ("own ones", [b"u"], [[b"a"], [b"b"], [b"a"], [b"c"], [b"b"]], [0, 1, 0, 2, 1]),
            ("that of pfil later", [b"u"], [[b"a"], None, [b"a"], None], [0, 1, 0, 1]),
            ("that of pfil by its own list", [b"u"], [[b"u"], None, [b"a"], [b"u"]], [0, 0, 1, 0]), ("that of pfil never used", [b"u"], [[b"a"], [b"b"]], [0, 1]),
            ("none in pfil", [], [[b"a"], [b"b"], [b"a"]], [0, 1, 0]),
            ("another order", [b"u"], [[b"a", b"b"], [b"b", b"a"], [b"a", b"b"]], [0, 1, 0]),
            ("a part of a list", [b"a", b"b"], [[b"a"], None, [b"b"], [b"a", b"b"], [b"a", b"b", b"c"]], [0, 1, 2, 1, 3]),
            ("twice the same", [b"u"], [[b"u"], [b"u", b"u"], None, [b"u", b"u", b"u"]], [0, 1, 0, 2]),
            ("empty URLs", [b""], [[b""], [b"", b""], None, [b"", b"", b""], [b"a", b""], [b"", b"a"]], [0, 1, 0, 2, 3, 4]),
            ("cut in another way", [b"u"], [[b"ab", b"c"], [b"a", b"bc"], [b"abc"], [b"ab", b"c"]], [0, 1, 2, 0]), ("one letter", [b"A"], [[b"a"], None, [b"A"], [b"a "]], [0, 1, 1, 2]),
            ("any bytes", [b"u"], [[b"\xff\x01"], [b"\xff"], [b"\xff\x01"]], [0, 1, 0]), ("long ones", [300 * b"u"], [[299 * b"u"], None, [300 * b"u"], [300 * b"u" + b"v"]], [0, 1, 1, 2])]:
        file = bare_head(surls(of_pfil)) + b"".join(opened(*(urls or [])) for urls in lists)
        expect(f"numbers, {name}", [row[7] for row in model.read(file)[1]], wanted)
    mimes = head(b"u", b"m") + opened(b"u", mime=b"n") + opened() + opened(b"a", mime=b"m") + opened(b"a", mime=b"") + opened(b"a", b"b", mime=b"m")
    expect("numbers, MIME texts that differ", [row[7] for row in model.read(mimes)[1]], [0, 0, 1, 1, 2])
    around = box(b"pseg", pshd(0), surl(b"a", large=True), ploc(0, 0, []), box(b"free"), surl(b"b"))
    forms = head() + around + opened(b"a", b"b") + box(b"pseg", pshd(0), surl(b"b"), ploc(0, 0, []), surl(b"a"))
    expect("numbers, surl boxes before ploc and behind", [row[7] for row in model.read(forms)[1]], [0, 0, 1])


def check_own_segments_alone():
    """By hand: lengths, states and places of one source do not reach another on the same positions."""
    pdat = box(b"pdat", b"abcdefgh")
    segments, place = [], len(head()) + 16
    for offset, flag_byte, size, at, flags, urls in [(0, 0xC0, 4, 0, 0, [b"v"]), (0, 0x40, 4, 4, 1, []), (2, 0x40, 4, 2, 0, [b"v"]), (0, 0x40, 8, 0, 0, [b"w"])]:
        begins = place + sum(map(len, segments))
        segments.append(box(b"pseg", pshd(offset, flags), ploc(1, 2, [entry(flag_byte, 1, size, 2, len(head()) + 8 + at - begins)]), surls(urls)))
    file = head() + pdat + b"".join(segments)
    expect("lengths apart", [model.length(file, source)[1:] for source in (0, 1, 2)], [(6, False), (4, True), (8, False)])
    expect("chunks in file order", model.read(file)[2], [(0, 0, 0, 4, 1, 63), (1, 0, 0, 4, 2, 67), (2, 0, 2, 4, 2, 65), (3, 0, 0, 8, 2, 63)])
    expect("served apart", [model.serve(file, 2, source=source) for source in (0, 1, 2)], [(65, 4), (69, 2), (65, 6)])
    expect("names apart", model.map_text(file),
           b"source\t6\topen\nheld\t0\t2\nhave\t2\t4\ntotal\t4\t2\t0\nsource\t4\tclosed\nhave\t0\t4\ntotal\t4\t0\t0\nsource\t8\topen\nhave\t0\t8\ntotal\t8\t0\t0\n")
    ends = head() + opened(offset=5) + opened(b"v", offset=LIMIT) + lost(9, b"w", flags=1)
    expect("ends apart", [model.length(ends, source)[1:] for source in (0, 1, 2)], [(5, False), (LIMIT, False), (9, True)])


# Refusals.

def check_ill_formed():
    """11 and 16 are for an ill-formed surl alone, each in its container."""
    expect("no surl in pfil", model.heading(bare_head() + opened(b"a")), ("heading", 0, 3, 1, 0, 0, 0, 0))
    expect("no surl in pfil, texts", [model.url(bare_head() + opened(b"a")), model.mime(bare_head() + opened(b"a"))], 2 * [(0, 0)])
    expect("no surl in pfil, no segment", [model.heading(bare_head())[0], model.read(bare_head())], ["heading", refused(12)])
    for body in ILL_FORMED:
        bad = box(b"surl", body)
        for name, file, number in [
                ("pfil", bare_head(bad) + opened(b"a"), 11), ("pfil beside a right one", head(parts=bad) + opened(b"a"), 11), ("pfil, no segment", bare_head(bad), 11),
                ("a second pseg", head() + opened() + open_segment(0, parts=bad), 16),
                ("a pseg beside a right one", bare_head() + open_segment(0, parts=surl() + bad), 16), ("a pseg before a right one", head() + open_segment(0, parts=bad + surl()), 16),
                ("a pseg, before 17", head() + box(b"pseg", pshd(0), bad, box(b"ploc")), 16), ("a pseg, behind 15", head() + box(b"pseg", pshd(0), bad), 15),
                ("a pseg, behind 14", head() + box(b"pseg", bad, pshd(0), ploc(0, 0, [])), 14),
                ("the file", head() + bad + opened(), 0), ("a pseg, before 25 and 40", head() + lost(3, flags=1) + opened(offset=4) + nine_sources() + open_segment(0, parts=bad), 16)]:
            expect(f"surl of {body} in {name}", number_of(model.read(file)), number)


def nine_sources(size=0, flags=0):
    return b"".join(lost(size, bytes([url]), flags=flags) for url in b"123456789")


def check_41():
    """41 where neither has one, in the order of the segments."""
    bad, cut = box(b"surl"), box(b"ploc")
    for name, file, number in [
            ("alone", bare_head() + opened(), 41), ("behind one that has", bare_head() + opened(b"a") + opened(), 41), ("before one that has", bare_head() + opened() + opened(b"a"), 41),
            ("one in the file", bare_head() + surl() + opened(), 41),
            ("one in a box that is skipped", bare_head(box(b"free", surl())) + opened(), 41), ("with one in pfil", head() + opened(), 0),
            ("with an empty URL in pfil", head(b"") + opened(), 0), ("with an empty URL", bare_head() + opened(b""), 0),
            ("before 17", bare_head() + box(b"pseg", pshd(0), cut), 41), ("behind 15", bare_head() + box(b"pseg", pshd(0)), 15), ("before 22", bare_head() + lost_segment(0, 1025 * [1]), 41),
            ("before 23", bare_head() + opened(offset=LIMIT + 1), 41),
            ("before a later 16", bare_head() + opened() + open_segment(0, parts=bad), 41), ("behind an earlier 16", bare_head() + open_segment(0, parts=bad) + opened(), 16),
            ("behind an earlier 17", bare_head() + box(b"pseg", pshd(0), cut, surl()) + opened(), 17),
            ("before a later 14", bare_head() + opened() + box(b"pseg"), 41), ("before 25 and 40", bare_head() + lost(3, b"1", flags=1) + lost(4, b"1") + nine_sources() + opened(), 41),
            ("behind 13", bare_head() + 65 * opened(), 13)]:
        expect(f"41, {name}", number_of(model.read(file)), number)


def check_25_and_40():
    """Sizes agree per source; the ninth source is refused after that, and before any index."""
    eight = b"".join(lost(size, bytes([48 + size]), flags=1) for size in range(8))
    for name, file, number in [
            ("two sizes of two sources", head() + lost(3, flags=1) + lost(4, b"a", flags=1), 0), ("an end above that of another", head() + lost(3, flags=1) + lost(9, b"a"), 0),
            ("an open offset above that of another", head() + lost(3, flags=1) + opened(b"a", offset=9), 0),
            ("two sizes of the second source", head() + lost(3, flags=1) + lost(4, b"a", flags=1) + lost(5, b"a", flags=1), 25),
            ("an end above in the second source", head() + lost(3, b"a") + lost(2, flags=1) + lost(1, offset=2), 25),
            ("two sizes of one list in pfil and in a segment", head(b"u") + lost(3, flags=1) + lost(4, b"u", flags=1), 25),
            ("an open offset above, other MIME text", head() + lost(3, b"a", flags=1) + opened(b"a", offset=4, mime=b"m"), 25),
            ("eight sources of eight sizes", bare_head() + eight, 0), ("a ninth", bare_head() + eight + opened(b"x"), 40), ("a ninth, of pfil", head() + eight + opened(), 40),
            ("eight, that of pfil among them", head(b"3") + eight + lost(1), 0),
            ("nine, the first twice", bare_head() + nine_sources() + opened(b"1"), 40), ("a tenth and an eleventh", bare_head() + nine_sources() + opened(b"x") + opened(b"y"), 40),
            ("64 sources", bare_head() + b"".join(opened(bytes([url])) for url in range(1, 65)), 40),
            ("25 in the ninth source", bare_head() + nine_sources(4, 1) + lost(5, b"9"), 25), ("25 in the first of nine", bare_head() + nine_sources(4, 1) + lost(5, b"1"), 25),
            ("25 in a tenth source", bare_head() + nine_sources() + lost(5, b"x", flags=1) + lost(6, b"x", flags=1), 25),
            ("40 before 36", head(parts=WRONG) + nine_sources(), 40), ("40 before 37", head(parts=NINTH) + nine_sources(), 40),
            ("40 before 38", head(parts=fidx()) + nine_sources() + open_segment(0, parts=surl(b"1") + fidx()), 40),
            ("40 before 39", head(parts=fidx(bidx(0))) + nine_sources(), 40),
            ("24 before 40", bare_head() + nine_sources() + box(b"pseg", pshd(0), ploc(1, 1, [entry(0x40, 1, 1, 1, 0)]), surl()), 24)]:
        expect(f"sources, {name}", number_of(model.read(file)), number)
    expect("40 before 26", [model.read(bare_head() + nine_sources(), 0, 0), model.lists(bare_head() + nine_sources(), 0, 0, 0, 0, 9)], 2 * [refused(40)])
    expect("maps of nine", [model.map_text(bare_head() + nine_sources()), model.missmap_text(bare_head() + nine_sources())], 2 * [b"refused\t40\n"])
    expect("rows of eight", [row[7] for row in model.read(head(b"3") + eight + lost(1))[1]], [0, 1, 2, 3, 4, 5, 6, 7, 3])


# Indexes.

def rows(*stated):
    """Rows with the type in letters."""
    return ("index", [(level, place, size, int.from_bytes(b"moov", "big"), served) for level, place, size, served in stated])


def good(size, *urls, offset=0, flags=0, parts=b""):
    """A segment of one good chunk behind its data."""
    return box(b"pdat", bytes(size)) + box(b"pseg", pshd(offset, flags), ploc(1, 1, [entry(0x40, 1, size, 1, -size)]), surls(urls), parts)


def check_indexes():
    """An index in pfil is of the source of the list there, one in a segment of that segment's."""
    to_end, ten = fidx(bidx(0)), fidx(bidx(10), bidx(10))
    for name, file, wanted in [
            ("in pfil, of its source", head(parts=ten) + good(20, b"a") + good(15), rows((1, 0, 10, 2), (1, 10, 10, 1))),
            ("in pfil, that source by its own list", head(b"u", parts=ten) + good(20, b"a") + good(10, b"u"), rows((1, 0, 10, 2), (1, 10, 10, 0))),
            ("in pfil, no segment of its source", head(parts=ten) + good(20, b"a"), rows((1, 0, 10, 0), (1, 10, 10, 0))),
            ("in pfil, which has no list", bare_head(ten) + good(20, b"a", flags=1), rows((1, 0, 10, 0), (1, 10, 10, 0))),
            ("in pfil, to the end of its source", head(parts=to_end) + good(30, b"a", flags=1) + good(20, flags=1), rows((1, 0, 20, 2))),
            ("in pfil, to the end that another tells", head(parts=to_end) + good(30, b"a", flags=1) + good(20), refused(39)),
            ("in pfil, to the end, no segment of its source", head(parts=to_end) + good(30, b"a", flags=1), refused(39)),
            ("in pfil, to the end, and no list", bare_head(to_end) + good(30, b"a", flags=1), refused(39)),
            ("in pfil, a size 0 inside, no segment of its source", head(parts=fidx(bidx(40, b"moov", bidx(0)))) + good(30, b"a"), rows((1, 0, 40, 0), (2, 8, 32, 0))),
            ("in pfil, seven bytes left of its source", head(parts=fidx(bidx(13), bidx(0))) + good(30, b"a", flags=1) + good(20, flags=1), refused(36)),
            ("in pfil, seven bytes left of another", head(parts=fidx(bidx(13), bidx(0))) + good(20, b"a", flags=1) + good(30, flags=1), rows((1, 0, 13, 2), (1, 13, 17, 2))),
            ("in segments, each of its own", head() + good(20, flags=1, parts=to_end) + good(12, b"a", offset=4, flags=1, parts=to_end), rows((1, 0, 20, 2), (1, 4, 12, 2))),
            ("in a segment, its source open", head() + good(20, flags=1) + good(12, b"a", parts=to_end), refused(39)),
            ("in a segment, ended by another of its source", head() + good(20, flags=1) + open_segment(0, parts=surl(b"a") + to_end) + good(12, b"a", offset=4, flags=1),
             rows((1, 0, 16, 1))),
            ("in a segment, served by another source", head() + good(20, flags=1) + open_segment(0, parts=surl(b"a") + ten), rows((1, 0, 10, 0), (1, 10, 10, 0))),
            ("in pfil and a segment of another source", head(parts=fidx()) + opened() + open_segment(0, parts=surl(b"a") + fidx()), refused(38))]:
        expect(f"index {name}", model.index(file), wanted)


# Texts.

def part(file, place_and_length):
    place, length = place_and_length
    return file[place:place + length]


def check_texts():
    """The texts of pfil, of a source and of a segment, each by itself."""
    file = head(b"u", b"m") + opened(b"a", b"bc", mime=b"n") + opened() + opened(b"a", b"bc", mime=b"later") + opened(b"u", mime=b"own") + opened(b"", mime=b"")
    expect("numbers", [row[7] for row in model.read(file)[1]], [0, 1, 0, 1, 2])
    expect("of pfil", [part(file, model.url(file)), part(file, model.mime(file))], [b"u", b"m"])
    expect("of sources", [(part(file, model.source_url(file, source)), part(file, model.source_mime(file, source))) for source in (0, 1, 2, 3)],
           [(b"a", b"n"), (b"u", b"m"), (b"", b""), (b"", b"")])
    empty = file.rindex(b"surl") + 8
    expect("an empty text has its place", [model.source_url(file, 2), model.source_mime(file, 2)], [(empty, 0), (empty + 1, 0)])
    expect("of segments", [model.texts(file, segment)[1:] for segment in range(7)],
           [(b"anbcn", [1, 1, 2, 1]), (b"", []), (b"alaterbclater", [1, 5, 2, 5]), (b"uown", [1, 3]), (b"", [0, 0]), (b"", []), (b"", [])])
    expect("of no segment", [model.texts(file, segment, 0, 0) for segment in (5, 64, 2 ** 64 - 1)], 3 * [("texts", b"", [])])
    expect("rooms", [number_of(model.texts(file, 0, *given)) for given in ((5, 4), (4, 4), (5, 3), (0, 4), (5, 0), (6, 5))], [0, 26, 26, 26, 26, 0])
    expect("rooms of empty texts", [number_of(model.texts(file, 4, *given)) for given in ((0, 2), (0, 1), (9, 0))], [0, 26, 26])
    own = head() + opened(b"u", mime=b"own") + opened()
    expect("of the source of pfil, from its first segment", part(own, model.source_mime(own, 0)), b"own")
    expect("refused", [model.texts(head(), 0), model.source_url(head(), 0), model.source_mime(head(), 0)], [refused(12), (0, 0), (0, 0)])


# Append.

def append(file, texts, lengths, chunk_list=(), data=b"", offset=0, last=False, room=20_000, outside=False):
    return model.append(file + bytes(room), len(file), offset, 0, last, outside, list(chunk_list), data, texts, lengths)


def appended(file, texts, lengths, *more, **named):
    answer, buffer = append(file, texts, lengths, *more, **named)
    assert answer[0] == "length", answer
    return buffer[:answer[1]]


def check_written():
    """By hand: each surl behind ploc, in the 32-bit form, of version 0 and flags 0."""
    for name, texts, lengths, written in [
            ("none", b"", [], ""), ("one", b"ab", [1, 1], "00000010 7375726c 00000000 61 00 62 00"), ("a URL alone", b"a", [1, 0], "0000000f 7375726c 00000000 61 00 00"),
            ("a MIME text alone", b"a", [0, 1], "0000000f 7375726c 00000000 00 61 00"),
            ("two empty texts", b"", [0, 0], "0000000e 7375726c 00000000 00 00"),
            ("two boxes", b"abcdef", [1, 2, 3, 0], "00000011 7375726c 00000000 61 00 6263 00 00000011 7375726c 00000000 646566 00 00"),
            ("any bytes", b"\xff\x01", [2, 0], "00000010 7375726c 00000000 ff01 00 00")]:
        parts = bytes.fromhex(written)
        expect(f"an open segment with {name}", appended(head(), texts, lengths, offset=7), head() + open_segment(7, parts=parts))
        wanted = head() + box(b"pdat", b"xyz") + box(b"pseg", pshd(0, 1), ploc(1, 1, [entry(0x40, 1, 3, 1, -3)]), parts)
        expect(f"a good one with {name}", appended(head(), texts, lengths, [3, 2], b"xyz", last=True), wanted)
        expect(f"exactly, with {name}", append(head(), texts, lengths, [3, 2], b"xyz", last=True, room=len(wanted) - len(head()))[0], ("length", len(wanted)))
        expect(f"one byte short, with {name}", append(head(), texts, lengths, [3, 2], b"xyz", last=True, room=len(wanted) - len(head()) - 1)[0], refused(33))
    mixed = head(brand=b"pmff")
    outside = mixed + box(b"moof") + box(b"pseg", pshd(0), ploc(1, 1, [entry(0x40, 1, 8, 1, -8)]), surl(b"a", b"b"))
    expect("behind a box outside", appended(mixed, b"ab", [1, 1], [8, 2], box(b"moof"), outside=True), outside)
    expect("to a pfil without any", appended(bare_head(), b"a", [1, 0], offset=7), bare_head() + open_segment(7, parts=surl(b"a")))


def check_joined():
    """Which source an addition is of, and that the others stay as they were."""
    file = film()
    for name, texts, lengths, numbers, lengths_after in [
            ("no text", b"", [], [0, 1, 0], [10, 5, 0]), ("the URL of pfil", b"u", [1, 0], [0, 1, 0], [10, 5, 0]), ("that and a MIME text", b"um", [1, 1], [0, 1, 0], [10, 5, 0]),
            ("the other URL", b"v", [1, 0], [0, 1, 1], [10, 9, 0]),
            ("a new URL", b"w", [1, 0], [0, 1, 2], [10, 5, 9]), ("both URLs", b"uv", [1, 0, 1, 0], [0, 1, 2], [10, 5, 9]), ("an empty URL", b"v", [0, 1], [0, 1, 2], [10, 5, 9])]:
        after = appended(file, texts, lengths, [9, 2], 9 * b"x")
        expect(f"numbers after {name}", [row[7] for row in model.read(after)[1]], numbers)
        expect(f"lengths after {name}", [model.length(after, source)[1] for source in (0, 1, 2)], lengths_after)
        for source in {0, 1} - {numbers[2]}:
            expect(f"source {source} after {name}", said(after, source), said(file, source))
    expect("its own size alone", [number_of(append(film(), texts, [len(texts), 0] if texts else [], [11, 0], last=last)[0]) for texts in (b"", b"v", b"w") for last in (False, True)],
           [25, 25, 0, 0, 0, 0])
    expect("a size below its own end", [number_of(append(film(), texts, [1, 0], [4, 0], last=True)[0]) for texts in (b"u", b"v", b"w")], [25, 25, 0])


def check_append_order():
    """30, the file's own, 31, 32, 35, 34, 1, 6, 13, 41, 22, 23, 25, 40, 36, 37, 39, 33."""
    closed, bare, many = head() + lost(4, flags=1), bare_head(), head() + 64 * opened()
    for name, file, given, number in [
            ("30 before 31", head(), dict(texts=b"", lengths=[1], stated=99_999), 30), ("own before 31", head() + b"x", dict(texts=b"", lengths=[1]), 2),
            ("own 41 before 31", bare + opened(), dict(texts=b"", lengths=[1]), 41),
            ("own 40 before 31", head() + nine_sources(), dict(texts=b"", lengths=[1]), 40), ("31, one length", head(), dict(texts=b"a", lengths=[1]), 31),
            ("31, three lengths", head(), dict(texts=b"abc", lengths=[1, 1, 1]), 31),
            ("31 of texts before 32 of data", head(), dict(texts=b"", lengths=[0], data=b"x"), 31),
            ("31 of chunks before 32 of texts", head(), dict(texts=b"x", lengths=[], chunk_list=[1]), 31), ("32, no length", head(), dict(texts=b"x", lengths=[]), 32),
            ("32, one too many", head(), dict(texts=b"abc", lengths=[1, 1]), 32), ("32, one too few", head(), dict(texts=b"a", lengths=[1, 1]), 32),
            ("32, sums do not wrap", head(), dict(texts=b"ab", lengths=[2 ** 64 - 1, 3]), 32),
            ("32, twice 2^63", head(), dict(texts=b"", lengths=[2 ** 63, 2 ** 63]), 32),
            ("32 before 35", head(), dict(texts=b"x", lengths=[], chunk_list=[1, 2], data=b"x", outside=True), 32),
            ("35 before 34", head(), dict(texts=b"\0", lengths=[1, 0], chunk_list=[1, 2], data=b"x", outside=True), 35),
            ("34 in a URL", head(), dict(texts=b"a\0b", lengths=[2, 1]), 34), ("34 in a MIME text", head(), dict(texts=b"ab\0", lengths=[1, 2]), 34),
            ("34 in the second URL", head(), dict(texts=b"ab\0", lengths=[1, 1, 1, 0]), 34), ("32 before 34", head(), dict(texts=b"\0", lengths=[]), 32),
            ("34 before 6", head(), dict(texts=b"\0", lengths=[1, 0] + 1200 * [0]), 34), ("34 before 13", many, dict(texts=b"\0", lengths=[1, 0]), 34),
            ("6 of the segment before 13", many, dict(texts=b"", lengths=1022 * [0]), 6),
            ("6 of the file before 13", many + 446 * box(b"free"), dict(texts=b"a", lengths=[1, 0]), 6), ("13 before 41", bare + 64 * opened(b"a"), dict(texts=b"", lengths=[]), 13),
            ("41 of a file begun", bare, dict(texts=b"", lengths=[]), 41),
            ("41 of a file with segments", bare + opened(b"a"), dict(texts=b"", lengths=[]), 41),
            ("41 before 22 and 23", bare, dict(texts=b"", lengths=[], chunk_list=1025 * [1, 0], offset=LIMIT), 41), ("41 before 36", bare_head(WRONG), dict(texts=b"", lengths=[]), 41),
            ("22 before 25", closed, dict(texts=b"", lengths=[], chunk_list=1024 * [1, 0]), 22),
            ("23 before 25 and 40", head() + nine_sources(4, 1)[:-len(lost(4, b"9"))], dict(texts=b"x", lengths=[1, 0], chunk_list=[1, 0], offset=LIMIT), 23),
            ("25 of its source", closed, dict(texts=b"u", lengths=[1, 0], chunk_list=[5, 0]), 25), ("no 25 of another", closed, dict(texts=b"v", lengths=[1, 0], chunk_list=[5, 0]), 0),
            ("40", head() + eight_sources(), dict(texts=b"x", lengths=[1, 0]), 40),
            ("40 by pfil's list", head() + eight_sources(), dict(texts=b"", lengths=[]), 40),
            ("no 40 by a list that is there", head() + eight_sources(), dict(texts=b"8", lengths=[1, 0]), 0),
            ("40 before 33", head() + eight_sources(), dict(texts=b"x", lengths=[1, 0], room=0), 40),
            ("33", head(), dict(texts=b"x", lengths=[1, 0], room=63), 33), ("32 before 33", head(), dict(texts=b"x", lengths=[0, 0], room=0), 32),
            ("34 before 33", head(), dict(texts=b"\0", lengths=[1, 0], room=0), 34)]:
        stated, room = given.pop("stated", len(file)), given.pop("room", 20_000)
        buffer = file + bytes(room)
        answer, after = model.append(buffer, stated, given.get("offset", 0), 0, False, given.get("outside", False), given.get("chunk_list", []), given.get("data", b""), given["texts"],
                                     given["lengths"])
        expect(f"append {name}", number_of(answer), number)
        if number:
            expect(f"append {name}, the buffer", after, buffer)


def eight_sources():
    return b"".join(opened(bytes([url])) for url in b"12345678")


def check_many_texts():
    """6 where the segment itself would have 513 boxes: pshd, ploc and 511 surl."""
    for count, number in [(1, 0), (510, 0), (511, 6), (600, 6)]:
        expect(f"{count} surl", number_of(append(head(), b"", 2 * count * [0])[0]), number)
        expect(f"{count} surl of a byte each", number_of(append(head(), count * b"a", count * [1, 0])[0]), number)
    full_segment = appended(head(), 510 * b"ab", 510 * [1, 1])
    expect("510 of them read", model.texts(full_segment, 0), ("texts", 510 * b"ab", 1020 * [1]))


def check_append_index():
    """36, 37 and 39 of a file that is only begun, whose index is that of pfil's source."""
    to_end = fidx(bidx(0))
    for name, file, texts, chunk_list, last, number in [
            ("39, to another source", head(parts=to_end), b"a", [20, 0], True, 39), ("39, to a source beside no list", bare_head(to_end), b"a", [20, 0], True, 39),
            ("taken, to its source", head(parts=to_end), b"u", [20, 0], True, 0), ("taken, by no text", head(parts=to_end), b"", [20, 0], True, 0),
            ("36, to another source", head(parts=WRONG), b"a", [20, 0], True, 36), ("37, to another source", head(parts=NINTH), b"a", [20, 0], True, 37),
            ("stated sizes, to another source", head(parts=fidx(bidx(99))), b"a", [20, 0], True, 0),
            ("no 36 by the end of another", head(parts=fidx(bidx(13), bidx(0))), b"a", [20, 0], True, 39),
            ("36 by its own end", head(parts=fidx(bidx(13), bidx(0))), b"u", [20, 0], True, 36)]:
        answer = append(file, texts, [len(texts), 0] if texts else [], chunk_list, last=last)[0]
        expect(f"index, {name}", number_of(answer), number)
    stated = head(parts=fidx(bidx(10), bidx(99))) + good(20, b"a", flags=1)
    expect("more is served of pfil's source", [model.index(appended(stated, texts, [len(texts), 0] if texts else [], [12, 2], bytes(12), last=True))[1] for texts in (b"", b"u", b"b")],
           [rows((1, 0, 10, 2), (1, 10, 99, 1))[1], rows((1, 0, 10, 2), (1, 10, 99, 1))[1], rows((1, 0, 10, 0), (1, 10, 99, 0))[1]])


def check_lowered_file_limit():
    """34 before 1 and 1 before 6, 13 and 41, with a limit that a short file passes."""
    held = model.LIMITS["file"]
    model.LIMITS["file"] = 119
    for name, file, texts, lengths, number in [
            ("at the limit", head(), b"a", [1, 0], 0), ("one over", head(), b"ab", [1, 1], 1), ("34 before 1", head(), b"a\0", [2, 0], 34), ("1 before 6", head(), b"", 1200 * [0], 1),
            ("1 before 41 and 23", bare_head(box(b"free", bytes(23))), b"", [], 1)]:
        expect(f"file limit, {name}", number_of(append(file, texts, lengths, room=200)[0]), number)
    model.LIMITS["file"] = held


# Random runs of additions.

LISTS = [[], [b"u"], [b"a"], [b"a", b"b"], [b"b", b"a"], [b""], [b"", b""], [b"ab"]]


def said(file, source):
    """All that a source says: its length, lists and served bytes."""
    described = model.length(file, source)
    served = b"".join(part(file, model.serve(file, p, source=source))[:1] for p in range(min(described[1], 99)))
    return described, model.lists(file, source=source), served


def numbers_by_urls(file):
    """The number of each source by its list of URLs."""
    found = {}
    for number, row in enumerate(model.read(file)[1] if model.read(file)[0] == "read" else []):
        texts, lengths = model.texts(file, number)[1:]
        found[tuple(url for url, mime in model.surls_of(texts, lengths)) or (b"u",)] = row[7]
    return found


def check_one_addition(rng, file):
    """Adds to some source; every other one keeps its number and says the same. Gives the file after it."""
    urls = rng.choice(LISTS)
    mimes = [rng.choice([b"", b"m", b"text/plain"]) for _ in urls]
    texts = b"".join(url + mime for url, mime in zip(urls, mimes))
    lengths = [len(text) for pair in zip(urls, mimes) for text in pair]
    before = numbers_by_urls(file)
    source = before.get(tuple(urls or [b"u"]), len(before))
    described, closed = model.length(file, source)[1:] if before else (0, False)
    size = rng.randint(1, 9)
    offset = rng.randint(0, max(0, described - size) if closed else 30)
    last = not closed and offset + size >= described and rng.random() < 0.3
    answer, buffer = append(file, texts, lengths, [size, 2], rng.randbytes(size), offset, last)
    if closed and offset + size > described:
        expect("an addition past the size", answer, refused(25))
        return file
    after = buffer[:answer[1]]
    expect("the source of an addition", model.read(after)[1][-1][7], source)
    expect("its texts", model.texts(after, len(model.read(after)[1]) - 1), ("texts", texts, lengths))
    for other in set(before.values()) - {source}:
        expect("another source", said(after, other), said(file, other))
    expect("numbers that stay", numbers_by_urls(after), before | {tuple(urls or [b"u"]): source})
    return after


def check_random_runs(rng, runs):
    for _ in range(runs):
        file = head()
        for _ in range(rng.randint(2, 10)):
            file = check_one_addition(rng, file)


def check(rng):
    for step in (check_two_layers, check_absent, check_numbers, check_own_segments_alone, check_ill_formed, check_41, check_25_and_40, check_indexes, check_texts, check_written,
                 check_joined,
                 check_append_order, check_many_texts, check_append_index, check_lowered_file_limit):
        step()
    check_random_runs(rng, 150)
