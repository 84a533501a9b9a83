"""Makes runs on files of another writer that are only begun and have a box index, which append judges with the first
segment, and on files whose index is right already."""

from boxes import bidx, box, fidx, ftyp, pfhd, surl
from corpus_index import NINTH, SIZE, UNKNOWN, WRONG, chain, in_pfil, in_segment
from foreign import LIMIT
from writes_run import LAST, add, given_list, outside, run

FREE = box(b"free")
CLOSING = add(0, f"lost {SIZE}", LAST)
FOUR_GOOD = add(0, "good 4")


def begun(*parts, brand=b"paff"):
    """A file without a segment, with these boxes in its pfil."""
    return ftyp([brand], brand) + box(b"pfil", pfhd(), surl(), *parts)


def first(name, index, calls, wanted, **more):
    """A run on a file begun with this index, the last answer of which names its kind."""
    kind = next((str(number) for number in wanted if number), "index")
    return run(kind, f"index {name}", calls, wanted, file=begun(index), **{"spare": 99, **more})


def right():
    for name, index in [("that is empty", fidx()), ("of two boxes", fidx(bidx(8), bidx(99))), ("of eight levels", fidx(chain(8, 8))), ("up to the limit", fidx(bidx(LIMIT, large=True))),
                        ("with a size 0 inside", fidx(bidx(60, b"moov", bidx(0)))), ("with boxes that are skipped", fidx(FREE, bidx(8, b"moov", box(b"frpa", bytes(30)), box(b"dint", b"x"))))]:
        yield first(f"{name}, an open segment", index, [add(9, "")], [0])
        yield first(f"{name}, three segments", index, [FOUR_GOOD, add(4, "damaged 2, elsewhere 3"), CLOSING], [0, 0, 0])
    yield first("behind the size of the source", fidx(bidx(60), bidx(60)), [CLOSING, FOUR_GOOD], [0, 0])
    yield run("index", "index of a mixed file", [outside(0, FREE, box(b"mdat", b"abc"))], [0], file=begun(fidx(bidx(8), bidx(11)), brand=b"pmff"))


def to_the_end():
    """A size 0 needs a first segment that tells the size of the source, and room."""
    yield first("to the end", UNKNOWN, [FOUR_GOOD, add(SIZE, "", LAST), CLOSING, FOUR_GOOD], [39, 39, 0, 0])
    yield first("to the end inside the end", fidx(bidx(8), bidx(0, b"moov", bidx(0))), [FOUR_GOOD, CLOSING], [39, 0])
    yield first("to the end, eight bytes", UNKNOWN, [add(0, "lost 7", LAST), add(0, "lost 8", LAST)], [36, 0])
    yield first("to the end, a segment from the end on", UNKNOWN, [add(7, "", LAST), add(4, "good 4", LAST), add(0, "good 4")], [39, 0, 0])
    yield first("with 92 before the end", fidx(bidx(92), bidx(0)), [add(0, "good 4, lost 95", LAST), add(0, "lost 50", LAST), FOUR_GOOD, CLOSING], [36, 36, 39, 0])
    yield first("to the end, with a box inside that fills it", fidx(bidx(0, b"moov", bidx(92))), [add(0, "lost 99", LAST), FOUR_GOOD, CLOSING], [36, 39, 0])
    yield first("to the end, the source up to the limit", UNKNOWN, [add(0, f"lost {LIMIT}", LAST)], [0])


SPOILED = [
    ("a byte in fidx", fidx(b"\0")), ("a byte in a bidx", fidx(bidx(8, b"moov", b"\0"))), ("513 boxes", fidx(513 * FREE)), ("a field cut", fidx(box(b"bidx", bytes(7)))),
    ("a size under its header", WRONG), ("size 0 not last", fidx(bidx(0), bidx(0))), ("not filled", fidx(bidx(40, b"moov", bidx(31)))),
    ("two front parts", fidx(bidx(8, b"moov", box(b"frpa"), box(b"frpa")))), ("over the limit", fidx(bidx(LIMIT + 1, large=True))), ("twice", fidx() + fidx()),
]


def refused():
    for name, index in SPOILED:
        yield first(name, index, [CLOSING, add(9, "")], [36, 36])
    yield first("of nine levels", NINTH, [CLOSING, FOUR_GOOD], [37, 37])
    yield first("of nine levels, to the end", fidx(chain(8, 8, bidx(8)), bidx(0)), [FOUR_GOOD, CLOSING], [37, 37])
    yield first("of nine levels and a size under its header", fidx(chain(8, 8, bidx(8)), bidx(7)), [FOUR_GOOD], [36])
    yield first("over the limit in an end that is not known", fidx(bidx(0, b"moov", bidx(LIMIT - 7, large=True))), [FOUR_GOOD, CLOSING], [36, 36])


def orders():
    for number, index in [(36, WRONG), (37, NINTH), (39, UNKNOWN)]:
        name = f"before which others come, {number}"
        calls = [add(0, "", stated=9_999), given_list(0, [0, 0]), given_list(0, [4, 2]), outside(0, FREE), given_list(0, [1, 0], count=2050), add(LIMIT + 1, "")]
        yield first(name, index, calls, [30, 31, 32, 35, 22, 23])
        yield first(f"before 33, {number}", index, [FOUR_GOOD, FOUR_GOOD], [number, number], lent=len(begun(index)))
        full = begun(index) + 510 * FREE
        yield run(str(number), f"6 before {number}", [add(0, "")], [6], file=full, spare=99)
        yield run(str(number), f"{number} with 512 boxes", [add(0, "")], [number], file=full[:-8], spare=99)


def accepted():
    """The index of an accepted file stays right, whatever is added."""
    stated = fidx(bidx(60, b"moov", bidx(52)), bidx(99))
    for name, made in [("pfil", in_pfil), ("a segment", in_segment)]:
        file = made(stated, flags=0)
        yield run("index", f"index in {name} of an accepted file", [FOUR_GOOD, add(0, f"lost {SIZE}", LAST), add(96, "good 5")], [0, 0, 25], file=file, spare=99)
        yield run("index", f"index to the end in {name} of an accepted file", [FOUR_GOOD, add(4, "", LAST), add(0, "lost 99", LAST)], [0, 0, 25], file=made(UNKNOWN), spare=99)
        yield run("own", f"39 in {name}, closed too late", [CLOSING], [39], file=made(UNKNOWN, flags=0), spare=99)
        yield run("own", f"36 in {name} before 31 and 33", [given_list(0, [0])], [36], file=made(WRONG))


def runs():
    for part in (right, to_the_end, refused, orders, accepted):
        yield from part()
