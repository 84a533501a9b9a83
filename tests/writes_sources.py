"""Makes runs on the texts of additions: what is written of them, to which source an addition goes, wrong texts, files
without a list, a ninth source, and indexes of files begun."""

from boxes import bare_head, bidx, box, fidx, head, open_segment, surl
from corpus_index import NINTH, WRONG
from foreign import LIMIT
from model import PMFF
from writes_mixed import MOOF
from writes_refusals import begun
from writes_run import LAST, add, begin, given_list, outside, run, to_source, with_texts

FREE = box(b"free")
TOP = 2 ** 64
GOOD, OPEN = add(0, "good 4"), add(7, "")
TO_THE_END = fidx(bidx(0))


def opened(*urls, offset=0):
    return open_segment(offset, parts=b"".join(surl(url) for url in urls))


# What is written.

def written():
    every = bytes(range(1, 256))
    for name, texts in [("one URL", (b"v", b"")), ("both texts", (b"http://a/1", b"video/mp4")), ("a MIME text alone", (b"", b"m")), ("two empty texts", (b"", b"")),
                        ("two boxes", (b"a", b"m", b"bc", b"n")), ("the list of pfil", (b"u", b"")),
                        ("three boxes, one empty", (b"a", b"", b"", b"", b"ccc", b"mm")), ("every byte but zero", (every, every[::-1]))]:
        yield begun("texts", f"{name}, open", [to_source(OPEN, *texts)], [0])
        yield begun("texts", f"{name}, each state", [to_source(add(3, "good 4, lost 6, damaged 3, elsewhere 2", LAST), *texts)], [0])
        exact = run("33", f"{name}, exactly", [begin(), to_source(GOOD, *texts)], [0, 0], spare=0)
        yield exact
        yield begun("33", f"{name}, one short", [to_source(GOOD, *texts), to_source(GOOD, *texts)], [33, 33], lent=exact.lent - 1)
    yield run("texts", "behind a box outside", [begin(brand=PMFF), to_source(outside(0, MOOF, ("damaged", b"abc")), b"a", b"m")], [0, 0])
    yield begun("texts", "far in the source", [to_source(add(LIMIT - 4, "good 4"), b"a", b"m")], [0])
    yield begun("6", "510 surl, and no more", [with_texts(OPEN, b"", [0, 0], 1020), with_texts(OPEN, b"", [0, 0], 1022), with_texts(OPEN, 600 * b"a", [1, 0], 1200)], [0, 6, 6], spare=99)
    yield begun("6", "511 surl", [with_texts(OPEN, 511 * b"a", [1, 0], 1022), with_texts(GOOD, b"", [0, 0], 1022)], [6, 6], spare=9_000)


# To which source.

def layers():
    """A film of two layers and more, by appends alone; the lengths of the first two are read."""
    base, second = add(0, "good 4, lost 6", LAST), to_source(add(2, "good 3"), b"v", b"m")
    yield begun("sources", "two layers", [base, second], [0, 0])
    yield begun("sources", "two layers, turned", [second, base], [0, 0])
    yield begun("sources", "repairs of both", [base, second, add(4, "good 6"), to_source(add(0, "good 2"), b"v", b""), to_source(add(5, "lost 9", LAST), b"v", b"other")], [0, 0, 0, 0, 0])
    yield begun("sources", "the list in pfil by texts", [base, to_source(add(4, "good 6"), b"u", b"m"), to_source(add(4, "good 7"), b"u", b"")], [0, 0, 25], spare=99)
    yield begun("sources", "another order is another source",
                [to_source(GOOD, b"a", b"", b"b", b""), to_source(add(4, "good 9"), b"b", b"", b"a", b""), to_source(add(4, "lost 1"), b"a", b"x", b"b", b"y")], [0, 0, 0])
    yield begun("sources", "an empty URL is another source", [GOOD, to_source(add(0, "good 9"), b"", b""), to_source(add(0, "lost 20", LAST), b"", b"", b"", b"")], [0, 0, 0])
    yield begun("sources", "a part of a list is another source", [to_source(GOOD, b"u", b"", b"u", b""), add(0, "good 9"), to_source(add(0, "lost 20"), b"uu", b"")], [0, 0, 0])
    yield run("sources", "a film of another writer", [GOOD, to_source(GOOD, b"v", b""), to_source(add(0, "good 9"), b"u", b"")], [0, 0, 0],
              file=head() + opened(b"v", offset=20) + opened(offset=2))


def sizes():
    closed = [add(0, "lost 10", LAST), to_source(add(0, "lost 4", LAST), b"v", b"")]
    for name, texts, wanted in [("of the first", (), [25, 25, 25, 0]), ("of the first by its list", (b"u", b"m"), [25, 25, 25, 0]), ("of the second", (b"v", b"m"), [25, 25, 25, 25]),
                                ("of a third", (b"w", b""), [0, 0, 25, 0])]:
        calls = [to_source(add(9, "lost 2"), *texts), to_source(add(11, ""), *texts), to_source(add(0, "good 5", LAST), *texts), to_source(add(5, "good 5"), *texts)]
        yield begun("25", f"sizes {name} of three sources", [*closed, *calls], [0, 0, *wanted], spare=400)
    yield begun("25", "a size above every end of its source", [add(0, "lost 10"), to_source(add(0, "good 4", LAST), b"v", b""), add(0, "good 4", LAST), add(0, "lost 10", LAST)],
                [0, 0, 25, 0], spare=99)


def many():
    """Eight sources and no ninth, in a file of begin and of another writer."""
    eight = [to_source(OPEN, bytes([97 + at]), b"") for at in range(8)]
    yield begun("40", "nine sources by append", [*eight, to_source(OPEN, b"x", b""), OPEN, to_source(OPEN, b"c", b"m"), to_source(OPEN, b"b", b"", b"a", b"")], [0] * 8 + [40, 40, 0, 40],
                spare=99)
    yield begun("40", "that of pfil and eight more", [OPEN, *eight, OPEN], [0] * 8 + [40, 0], spare=99)
    full = bare_head() + b"".join(opened(bytes([url])) for url in b"12345678")
    yield run("40", "a ninth beside no list", [to_source(OPEN, b"x", b""), to_source(OPEN, b"8", b""), OPEN], [40, 0, 41], file=full, spare=199)
    yield run("40", "a ninth in no room", [to_source(OPEN, b"x", b""), to_source(OPEN, b"8", b"")], [40, 33], file=full, lent=len(full))
    yield run("40", "25 before 40",
              [to_source(add(0, "lost 4", LAST), b"8", b""), to_source(add(5, "lost 1"), b"8", b""), to_source(add(LIMIT + 1, ""), b"x", b""), to_source(OPEN, b"x", b"")], [0, 25, 23, 40],
              file=full, spare=199)


def without_a_list():
    bare = bare_head()
    yield run("41", "a file begun without a list", [OPEN, GOOD, to_source(GOOD, b"a", b""), add(4, "good 1"), to_source(add(4, "good 1"), b"a", b"")], [41, 41, 0, 41, 0], file=bare,
              spare=99)
    yield run("41", "a film without a list in pfil", [OPEN, to_source(OPEN, b"b", b""), to_source(OPEN, b"", b""), OPEN], [41, 0, 0, 41], file=bare + opened(b"a"), spare=99)
    yield run("41", "41 before 22, 23 and 33", [given_list(LIMIT + 1, [1, 0], count=2050), add(LIMIT + 1, "")], [41, 41], file=bare)
    yield run("41", "13 before 41", [OPEN], [13], file=bare + 64 * opened(b"a"), spare=99)
    yield run("41", "6 before 41", [OPEN], [6], file=bare + 510 * FREE, spare=99)
    yield run("41", "the file's own 41 before 31", [with_texts(OPEN, b"", [0]), to_source(OPEN, b"a", b"")], [41, 41], file=bare + open_segment(0), spare=99)
    yield run("41", "41 before 36", [OPEN, to_source(OPEN, b"a", b"")], [41, 36], file=bare_head(WRONG), spare=99)


# Wrong texts.

def wrong():
    for name, texts, lengths in [("one length", b"a", [1]), ("one length of 0", b"", [0]), ("three lengths", b"abc", [1, 1, 1]), ("one length and no byte", b"", [1]),
                                 ("the largest length alone", b"", [TOP - 1])]:
        yield begun("31", f"texts of {name}", [with_texts(GOOD, texts, lengths), GOOD], [31, 0])
    for name, texts, lengths in [("no length", b"a", []), ("one byte too few", b"a", [1, 1]), ("one byte too many", b"abc", [1, 1]), ("no byte", b"", [1, 0]),
                                 ("lengths that wrap", b"ab", [TOP - 1, 3]), ("lengths that wrap to none", b"", [2 ** 63, 2 ** 63]),
                                 ("a length of 2^32 more", b"a", [2 ** 32 + 1, 0]), ("lengths that wrap at the last", b"abcd", [1, 2, TOP - 1, 2])]:
        yield begun("32", f"texts with {name}", [with_texts(GOOD, texts, lengths), GOOD], [32, 0])
    for name, texts, lengths in [("first of a URL", b"\0a", [2, 0]), ("last of a URL", b"a\0", [2, 0]), ("all of a URL", b"\0", [1, 0]), ("first of a MIME text", b"a\0m", [1, 2]),
                                 ("all of a MIME text", b"\0", [0, 1]), ("in the second URL", b"abc\0", [1, 1, 2, 0]),
                                 ("last of all", b"abcd\0", [1, 1, 1, 2])]:
        yield begun("34", f"a zero byte in texts, {name}", [with_texts(GOOD, texts, lengths), GOOD], [34, 0])


def orders():
    odd, short, zero = ([0], b""), ([1, 0], b""), ([1, 0], b"\0")
    calls = [with_texts(call, texts, lengths) for call, (lengths, texts) in [
        (add(0, "", stated=9_999), odd), (given_list(0, [4, 2], b"x"), odd), (given_list(0, [4]), short), (given_list(0, [18, 2], MOOF, outside=True), short),
        (given_list(0, [18, 2], MOOF, outside=True), zero), (add(LIMIT + 1, ""), zero)]]
    yield begun("34", "30, 31, 31, 32, 35, 34 in turn", calls, [30, 31, 31, 32, 35, 34], spare=99)
    full = head() + 64 * open_segment(0) + 446 * FREE
    yield run("34", "34 before 6 and 13", [to_source(OPEN, b"\0", b""), to_source(OPEN, b"a", b"")], [34, 6], file=full, spare=99)
    yield run("6", "6 of the segment before 13", [with_texts(OPEN, b"", [0, 0], 1022), OPEN], [6, 13], file=head() + 64 * open_segment(0), spare=99)
    yield begun("34", "34 of texts before 33", [to_source(OPEN, b"\0", b"")], [34], lent=55)
    yield begun("31", "31 and 32 of texts before 33", [with_texts(OPEN, b"", [0]), with_texts(OPEN, b"x", [])], [31, 32], lent=55)


def indexes():
    """The index in pfil is that of the source of the list there."""
    closing, other = add(0, "lost 100", LAST), to_source(add(0, "lost 100", LAST), b"v", b"")
    yield run("39", "index to the end, closed in another source", [other, to_source(closing, b"u", b"m"), other], [39, 0, 0], file=head(parts=TO_THE_END), spare=199)
    yield run("39", "index to the end, no list in pfil", [other, OPEN], [39, 41], file=bare_head(TO_THE_END), spare=99)
    yield run("index", "index of stated sizes, another source first", [other, add(0, "lost 7", LAST)], [0, 0], file=head(parts=fidx(bidx(8), bidx(99))), spare=99)
    yield run("36", "index spoiled, another source", [other, closing], [36, 36], file=head(parts=WRONG), spare=199)
    yield run("37", "index of nine levels, another source", [other], [37], file=head(parts=NINTH), spare=199)
    yield run("36", "index that another source leaves too little for", [to_source(add(0, "lost 7", LAST), b"v", b""), add(0, "lost 7", LAST), add(0, "lost 8", LAST)], [39, 36, 0],
              file=head(parts=TO_THE_END), spare=199)


def runs():
    for part in (written, layers, sizes, many, without_a_list, wrong, orders, indexes):
        yield from part()
