"""Checks the model on box indexes worked out by hand: the rows of right ones, the refusals of every call that reads, and
what append judges."""

import corpus_index
import model
from boxes import bidx, box, entry, fidx, ftyp, open_segment, pfhd, ploc, pshd, surl
from corpus_index import NINTH, UNKNOWN, VENDOR, WRONG, chain, in_pfil, in_segment
from expecting import expect

LIMIT = 1_099_511_627_775
NONE, SOME, ALL = 0, 1, 2


def refused(number):
    return ("refused", number)


def film(*parts, closed=True, in_first=(), offset=0):
    """A source of 100 bytes: 40 good, 20 lost, 40 good, in one segment, and an open one behind that holds other boxes."""
    pfil = box(b"pfil", pfhd(), surl(), *parts)
    located = ploc(1, 1, [entry(0x40, 1, 40, 1, -80), entry(0x80, 1, 20), entry(0x40, 1, 40, 1, -40)])
    first = box(b"pdat", bytes(range(80))) + box(b"pseg", pshd(0, 1 if closed else 0), located)
    return ftyp() + pfil + first + box(b"pseg", pshd(offset), ploc(0, 0, []), *in_first)


def rows(*stated):
    """Rows with the type in letters."""
    return ("index", [(level, place, size, int.from_bytes(kind, "big"), served) for level, place, size, kind, served in stated])


# The table.

def check_served():
    """None, some and all: each edge of what is had and of what is missing."""
    for place, size, served in [
            (0, 40, ALL), (0, 39, ALL), (0, 41, SOME), (8, 32, ALL), (8, 33, SOME), (32, 8, ALL), (33, 8, SOME), (39, 8, SOME), (40, 8, NONE), (40, 20, NONE), (40, 21, SOME),
            (41, 19, NONE), (52, 8, NONE), (53, 8, SOME), (59, 41, SOME), (60, 40, ALL), (60, 41, SOME), (92, 8, ALL), (93, 8, SOME), (99, 8, SOME), (100, 8, NONE), (0, 100, SOME),
            (0, 101, SOME), (10, 80, SOME), (100, LIMIT - 100, NONE), (0, LIMIT, SOME)]:
        before = [bidx(place)] if place > 0 else []
        found = model.index(film(fidx(*before, bidx(size, b"mdat", large=size >= 2 ** 32))))
        expect(f"{size} from {place} on", found[1][-1], (1, place, size, int.from_bytes(b"mdat", "big"), served))
    repaired = film(fidx(bidx(100))) + box(b"pdat", bytes(20)) + box(b"pseg", pshd(40), ploc(1, 1, [entry(0x40, 1, 20, 1, -20)]))
    expect("all once it is repaired", model.index(repaired), rows((1, 0, 100, b"moov", ALL)))
    damaged = film(fidx(bidx(40), bidx(20))) + box(b"pdat", bytes(20)) + box(b"pseg", pshd(40), ploc(1, 1, [entry(0xC0, 1, 20, 1, -20)]))
    expect("none that is damaged", model.index(damaged), rows((1, 0, 40, b"moov", ALL), (1, 40, 20, b"moov", NONE)))


def check_places():
    """Inner places come after the header in its form, the user type and the body of the front part."""
    inner = bidx(8, b"trak")
    for name, made, place in [
            ("a header of 8", bidx(16, b"moov", inner), 8), ("a header of 16", bidx(24, b"moov", inner, large=True), 16), ("a user type", bidx(32, b"uuid", VENDOR, inner), 24),
            ("a user type in the large form", bidx(40, b"uuid", VENDOR, inner, large=True), 32), ("a front part", bidx(21, b"moov", box(b"frpa", bytes(5)), inner), 13),
            ("a front part behind", bidx(21, b"moov", inner, box(b"frpa", bytes(5))), 13), ("a front part in the large form", bidx(21, b"moov", box(b"frpa", bytes(5), large=True), inner), 13),
            ("an integrity box", bidx(16, b"moov", box(b"dint", bytes(5)), inner), 8)]:
        size, kind = 8 + place, b"uuid" if "user type" in name else b"moov"
        expect(f"inside behind {name}", model.index(film(fidx(bidx(20, b"ftyp"), made))),
               rows((1, 0, 20, b"ftyp", ALL), (1, 20, size, kind, ALL if 20 + size <= 40 else SOME), (2, 20 + place, 8, b"trak", ALL if 28 + place <= 40 else SOME if place < 20 else NONE)))
    tree = fidx(bidx(20, b"ftyp"), bidx(40, b"moov", bidx(8, b"mvhd"), bidx(24, b"trak", bidx(0, b"mdia"))), bidx(0, b"mdat"))
    wanted = [(1, 0, 20, b"ftyp", ALL), (1, 20, 40, b"moov", SOME), (2, 28, 8, b"mvhd", ALL), (2, 36, 24, b"trak", SOME), (3, 44, 16, b"mdia", NONE), (1, 60, 40, b"mdat", ALL)]
    expect("a box before those inside it", model.index(film(tree)), rows(*wanted))
    expect("from the offset of a segment", model.index(film(in_first=[tree], offset=0)), rows(*wanted))
    expect("to the end of the source and not of the segment", model.index(film(in_first=[fidx(bidx(8), bidx(0))], offset=52)), rows((1, 52, 8, b"moov", NONE), (1, 60, 40, b"moov", ALL)))
    expect("eight levels", model.index(film(fidx(chain(8, 8)))), rows(
        (1, 0, 64, b"moov", SOME), (2, 8, 56, b"moov", SOME), (3, 16, 48, b"moov", SOME), (4, 24, 40, b"moov", SOME), (5, 32, 32, b"moov", SOME),
        (6, 40, 24, b"moov", SOME), (7, 48, 16, b"moov", SOME), (8, 56, 8, b"free", SOME)))


def check_orders_of_rows():
    """Segments in file order, whatever their offsets; no row for an empty index or one that is skipped."""
    late, early = box(b"pseg", pshd(60), ploc(0, 0, []), fidx(bidx(9))), box(b"pseg", pshd(0), ploc(0, 0, []), fidx(bidx(8)))
    expect("segments in file order", model.index(film() + late + early), rows((1, 60, 9, b"moov", ALL), (1, 0, 8, b"moov", ALL)))
    expect("no index", model.index(film()), ("index", []))
    expect("an empty index", model.index(film(fidx())), ("index", []))
    expect("a bidx in pfil", model.index(film(bidx(8))), ("index", []))
    expect("fidx in fidx and in the file", model.index(film(fidx(fidx(bidx(8)), bidx(9))) + fidx(bidx(10))), rows((1, 0, 9, b"moov", ALL)))


def check_room():
    file = film(fidx(bidx(8), bidx(9)))
    expect("a table that just holds", model.index(file, 10)[0], "index")
    expect("a table one short", model.index(file, 9), refused(26))
    expect("no table", model.index(file, 0), refused(26))
    expect("no table for no rows", model.index(film(fidx()), 0), ("index", []))
    expect("36 before 26", model.index(in_pfil(WRONG), 0), refused(36))


# The refusals, of every call.

def answers(file):
    """What each call that reads answers: a number, 0 where it takes the file."""
    calls = [model.read(file), model.length(file), model.ask(file, 0), model.lists(file), model.index(file)]
    numbers = {answer[1] if answer[0] == "refused" else 0 for answer in calls}
    for text in (model.map_text(file), model.missmap_text(file)):
        numbers.add(int(text.split()[1]) if text.startswith(b"refused") else 0)
    return numbers


def check_refusals():
    for record in corpus_index.claims():
        wanted = 0 if record.wanted == 26 else record.wanted
        expect(f"every call on {record.name}", answers(record.file), {wanted})
        if wanted:
            expect(f"parts of {record.name}", [model.url(record.file), model.mime(record.file), model.serve(record.file, 0)], 3 * [(0, 0)])
            own = model.append(record.file + bytes(99), len(record.file), 0, 0, False, False, [], b"")[0]
            expect(f"append to {record.name}", own, refused(36 if wanted == 12 else wanted))


# Append.

def begun(*parts):
    return ftyp() + box(b"pfil", pfhd(), surl(), *parts)


def appended(file, offset, chunk_list, last=False, room=199):
    return model.append(file + bytes(room), len(file), offset, 0, last, False, chunk_list, b"")[0]


def check_append():
    for name, index, offset, chunk_list, last, number in [
            ("a right index", fidx(bidx(8)), 0, [4, 0], False, 0), ("a spoiled one", WRONG, 0, [4, 0], False, 36), ("a spoiled one, closed", WRONG, 0, [100, 0], True, 36),
            ("nine levels", NINTH, 0, [4, 0], True, 37), ("to the end, not closed", UNKNOWN, 0, [4, 0], False, 39), ("to the end, open", UNKNOWN, 100, [], True, 39),
            ("to the end, closed", UNKNOWN, 0, [8, 0], True, 0), ("to the end, closed at 7", UNKNOWN, 0, [7, 0], True, 36), ("to the end, closed at 8 from 5 on", UNKNOWN, 5, [3, 3], True, 0),
            ("behind 20, closed at 27", fidx(bidx(20), bidx(0)), 0, [27, 0], True, 36), ("behind 20, closed at 28", fidx(bidx(20), bidx(0)), 0, [28, 0], True, 0),
            ("behind 20, closed at 19", fidx(bidx(20), bidx(0)), 0, [19, 0], True, 36), ("past the end", fidx(bidx(200)), 0, [100, 0], True, 0),
            ("two indexes", fidx() + fidx(), 0, [4, 0], False, 36), ("36 before 39", fidx(bidx(0), bidx(7)), 0, [4, 0], False, 36),
            ("37 before 39", fidx(chain(8, 8, bidx(8)), bidx(0)), 0, [4, 0], False, 37), ("23 before 36", WRONG, LIMIT, [1, 0], False, 23), ("31 before 36", WRONG, 0, [0, 0], False, 31)]:
        file = begun(index)
        expect(f"read before: {name}", model.read(file), refused(12))
        answer = appended(file, offset, chunk_list, last)
        expect(f"append: {name}", answer[1] if answer[0] == "refused" else 0, number)
        if number in (36, 37, 39):
            expect(f"append in no room: {name}", appended(file, offset, chunk_list, last, 0), refused(number))
    expect("33 behind a right index", appended(begun(UNKNOWN), 0, [100, 0], True, 20), refused(33))


def check_append_to_accepted():
    """The file's own refusal, 38 too; an index that is right stays so when the source is closed."""
    both = in_pfil(fidx(), more=box(b"pseg", pshd(0), ploc(0, 0, []), fidx()))
    expect("append: the file's own 38", appended(both, 0, [4, 0]), refused(38))
    expect("append: the file's own 39", appended(in_segment(UNKNOWN, flags=0), 0, [100, 0], True), refused(39))
    file = in_pfil(fidx(bidx(60, b"moov", bidx(0)), bidx(99)), flags=0)
    answer, buffer = model.append(file + bytes(199), len(file), 0, 0, True, False, [100, 0], b"")
    expect("append: closed", answer[0], "length")
    expect("append: the same rows", model.index(buffer[:answer[1]]), model.index(file))
    other = film(fidx(bidx(40), bidx(20)))
    answer, buffer = model.append(other + bytes(199), len(other), 45, 0, False, False, [8, 2], bytes(8))
    expect("append: more is served", model.index(buffer[:answer[1]]), rows((1, 0, 40, b"moov", ALL), (1, 40, 20, b"moov", SOME)))


def check_index_changes_nothing():
    """The index never changes what is served."""
    plain = film()
    for index in (fidx(), fidx(bidx(8)), fidx(bidx(0)), fidx(chain(8, 8))):
        file = film(index)
        expect("lists with an index", model.lists(file), model.lists(plain))
        expect("maps with an index", [model.map_text(file), model.missmap_text(file)], [model.map_text(plain), model.missmap_text(plain)])
    expect("no end that is not known in an open source", model.index(begun(fidx(bidx(8))) + open_segment(7)), rows((1, 0, 8, b"moov", NONE)))


def check():
    check_served()
    check_places()
    check_orders_of_rows()
    check_room()
    check_refusals()
    check_append()
    check_append_to_accepted()
    check_index_changes_nothing()
