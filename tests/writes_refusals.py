"""Makes runs that meet the refusals of begin, and of append the stated length, the file's own, the chunk list, the data
and the room."""

import random

import generate
from boxes import box, head, lost_segment, open_segment
from writes_run import LAST, add, begin, data_of, given_list, run

SEED = 230_015
TOP = 2 ** 64
FOUR_GOOD = add(0, "good 4")
# The bytes of an open segment.
OPEN_SIZE = 49


def begun(kind, name, calls, wanted, **more):
    """A run of a begin that is taken, and these calls."""
    return run(kind, name, [begin(), *calls], [0, *wanted], **more)


# Begin.

def beginnings():
    yield run("begin", "P8, in exactly its bytes", [begin(b"a")], [0], spare=0)
    yield run("begin", "two empty texts, exactly", [begin(b"", b"")], [0], spare=0)
    yield run("begin", "an empty URL", [begin(b"", b"video/mp4")], [0])
    every = bytes(range(1, 256))
    yield run("begin", "every byte but zero", [begin(every, every[::-1])], [0])
    yield run("begin", "begun again, shorter", [begin(b"long" * 9, b"text/plain"), begin(b"u", b"v")], [0, 0])
    yield run("begin", "begun over a file", [begin(), add(0, "good 4"), begin(b"", b"m"), add(2, "lost 3")], [0, 0, 0, 0])
    yield run("begin", "begun over a foreign file", [begin()], [0], file=generate.foreign_file(random.Random(SEED)))


def beginnings_refused():
    for name, url, mime in [("first of the URL", b"\0ab", b"m"), ("within the URL", b"a\0b", b""), ("last of the URL", b"ab\0", b""),
                            ("all of the URL", b"\0", b""), ("first of the MIME text", b"u", b"\0m"), ("last of the MIME text", b"u", b"m\0"),
                            ("all of the MIME text", b"", b"\0"), ("both texts", b"\0", b"\0")]:
        yield run("34", f"a zero byte, {name}", [begin(url, mime)], [34], lent=90)
    yield run("34", "34 before 33", [begin(b"u\0", b"")], [34], lent=0)
    yield run("34", "34 over a file", [begin(), FOUR_GOOD, begin(b"", b"a\0"), add(4, "lost 2")], [0, 0, 34, 0])
    yield run("33", "begin in nothing", [begin()], [33], lent=0)
    yield run("33", "begin in one byte", [begin()], [33], lent=1)
    for url, mime in ((b"", b""), (b"u", b""), (b"url", b"text/plain"), (b"", b"m" * 300)):
        end = 54 + len(url) + len(mime)
        yield run("33", f"begin of {end} bytes, one short", [begin(url, mime)], [33], lent=end - 1)
    yield run("33", "a longer begin over a file", [begin(), FOUR_GOOD, begin(b"u" * 200, b""), FOUR_GOOD], [0, 0, 33, 0], lent=183)


# Append: the stated length, and what the file is refused for.

def stated_lengths():
    for over in (1, 2, 2 ** 31, 2 ** 32, 2 ** 63):
        yield run("30", f"{over} over the buffer", [begin(), add(0, "good 4", stated=100 + over)], [0, 30], lent=100)
    yield run("30", "the largest number", [begin(), add(0, "good 4", stated=TOP - 1)], [0, 30], lent=100)
    yield run("30", "one byte of an empty buffer", [add(0, "", stated=1)], [30], lent=0)
    yield run("30", "30 before the file's own", [add(0, "", stated=51)], [30], lent=50)
    yield run("30", "30 before 31", [begin(), given_list(0, [1], stated=101)], [0, 30], lent=100)
    yield run("cut", "an empty buffer", [add(0, "", stated=0)], [7], lent=0)
    yield run("cut", "no byte of a file", [begin(), add(0, "good 4", stated=0)], [0, 7])
    yield run("cut", "the ftyp alone", [begin(), add(0, "good 4", stated=20)], [0, 9])
    yield run("cut", "within the ftyp", [begin(), add(0, "good 4", stated=19)], [0, 5])
    yield run("cut", "within the front of the pfil", [begin(), add(0, "good 4", stated=27)], [0, 2])
    yield run("cut", "one byte too few", [begin(), add(0, "good 4", stated=54)], [0, 5])
    yield run("cut", "marks behind the file", [begin(), add(0, "good 4", stated=56)], [0, 2], lent=200)
    yield run("cut", "all of the buffer", [begin(), add(0, "good 4", stated=200)], [0, 5], lent=200)
    yield run("cut", "back to the file begun", [begin(), FOUR_GOOD, add(7, "damaged 2", stated=55)], [0, 0, 0])
    yield run("cut", "back to the data of a segment", [begin(), FOUR_GOOD, add(4, "good 2", stated=67), add(6, "good 1", stated=67)], [0, 0, 0, 0])
    yield run("cut", "back before the last segment", [begin(), add(0, "lost 9", LAST), add(4, "lost 8", stated=55)], [0, 0, 0])


def own_refusals():
    rng = random.Random(SEED + 1)
    for number in sorted(set(generate.FAULTS) - {12}):
        file = generate.faulty_file(rng, number)
        yield run("own", f"fault {number}", [FOUR_GOOD], [number], file=file, spare=120)
        if number != 6:
            yield run("own", f"fault {number} before 31 and 33", [given_list(0, [0])], [number], file=file, spare=0)
    yield run("own", "12 is none", [FOUR_GOOD, add(4, "lost 2", LAST)], [0, 0], file=head(b"url", b"mime"))
    yield run("own", "12 with other boxes", [FOUR_GOOD], [0], file=head() + box(b"free", b"abc") + box(b"pdat", b"defg"))
    twice = head() + lost_segment(0, [3], flags=LAST) + lost_segment(0, [4], flags=LAST)
    yield run("own", "25 before 31, 32 and 33", [given_list(0, [0, 2], b"a")], [25], file=twice, spare=0)


# Append: the chunk list and the data.

def lists_refused():
    for name, numbers in [("one number", [4]), ("three numbers", [4, 2, 1]), ("size 0, good", [0, 2]), ("size 0, damaged", [0, 1]),
                          ("size 0, lost", [0, 0]), ("size 0, held elsewhere", [0, 3]), ("size 0 at last", [4, 2, 0, 2]), ("size 0 at first", [0, 0, 4, 2]), ("state 4", [4, 4]),
                          ("state 4 at last", [4, 2, 1, 4]), ("state 4 at first", [1, 4, 4, 2]), ("state 5", [4, 5]), ("state 7", [4, 7]), ("state 255", [4, 255]),
                          ("state 256", [4, 256]), ("state 258", [4, 258]), ("state 259", [4, 259]), ("state 2^32", [4, 2 ** 32]), ("state 2^32 + 2", [4, 2 ** 32 + 2]),
                          ("state 2^32 + 3", [4, 2 ** 32 + 3]), ("state 2^63 + 2", [4, 2 ** 63 + 2]), ("state 2^63 + 3", [4, 2 ** 63 + 3]), ("the largest state", [4, TOP - 1]),
                          ("the largest size, state 4", [TOP - 1, 4]), ("state 4 behind state 3", [4, 2, 1, 3, 1, 4])]:
        yield begun("31", name, [given_list(0, numbers, data_of(4)), FOUR_GOOD], [31, 0])
    yield begun("31", "31 before 32 and 33", [given_list(0, [4, 2, 7])], [31], lent=60)
    yield begun("31", "31 before 22", [given_list(0, [1, 0], count=2051), given_list(0, [1, 0], count=131_073)], [31, 31])
    yield begun("31", "31 before 23", [given_list(TOP - 1, [0, 0])], [31])
    yield begun("31", "31 before 25", [add(0, "lost 4", LAST), given_list(4, [1, 4])], [0, 31])
    mixed = [1, 0, 1, 3] * 450 + [1, 4] + [1, 0] * 9
    yield begun("31", "state 4 behind 900 pairs", [given_list(0, mixed)], [31])


def data_refused():
    whole = [("nothing for four", [4, 2], 0), ("one too few", [4, 2], 3), ("one too many", [4, 2], 5), ("damaged, one too few", [4, 1], 3),
             ("damaged, none", [4, 1], 0), ("lost, as many", [4, 0], 4), ("lost, one", [4, 0], 1), ("no chunk, one", [], 1),
             ("held elsewhere, as many", [4, 3], 4), ("held elsewhere, one", [4, 3], 1), ("two and one held elsewhere", [4, 2, 9, 3, 3, 1], 16),
             ("held elsewhere, one for a good one of four", [1, 3, 4, 2], 1),
             ("two, the first alone", [4, 2, 3, 1], 4), ("two, the second alone", [4, 2, 3, 1], 3), ("two and a lost one", [4, 2, 9, 0, 3, 1], 16)]
    wrapped = [("the largest size", [TOP - 1, 2], 0), ("twice 2^63", [2 ** 63, 2] * 2, 0), ("twice 2^63 and 3", [2 ** 63, 2, 3, 2, 2 ** 63, 1], 3),
               ("the largest size and 5", [TOP - 1, 2, 5, 1], 4), ("5 and the largest size", [5, 2, TOP - 1, 2], 4),
               ("2^32 over four", [2 ** 32 + 4, 2], 4), ("four times 2^62", [2 ** 62, 1] * 4, 0),
               ("twice the largest, and 6", [TOP - 1, 2] * 2 + [6, 2], 4)]
    for name, numbers, size in whole + wrapped:
        yield begun("32", name, [given_list(0, numbers, data_of(size)), FOUR_GOOD], [32, 0])
    for state in (0, 3):
        yield begun("32", f"right, though sizes of state {state} wrap", [given_list(0, [4, 2, TOP - 1, state, 1, state], data_of(4))], [23])
    yield begun("32", "32 before 22", [given_list(0, [1, 2], data_of(1024), count=2050)], [32])
    yield begun("32", "32 before 23 and 33", [given_list(TOP - 1, [4, 2], b"")], [32], lent=60)
    yield begun("32", "32 before 25", [add(0, "lost 4", LAST), given_list(4, [1, 2], b"")], [0, 32])


# Append: the room.

def rooms():
    for name, call in [("an open segment", add(9, "")), ("a lost chunk", add(0, "lost 300")), ("a good chunk", FOUR_GOOD),
                       ("a chunk held elsewhere", add(0, "elsewhere 300")), ("all four states", add(5, "good 4, lost 6, elsewhere 7, damaged 3", LAST)),
                       ("300 bytes", add(0, "good 300"))]:
        exact = run("33", f"{name}, exactly", [begin(), call], [0, 0], spare=0)
        yield exact
        for short in (1, 2, 12):
            lent = exact.lent - short
            yield begun("33", f"{name}, {short} short", [call, add(1, "")], [33, 0 if lent >= 55 + OPEN_SIZE else 33], lent=lent)
        yield begun("33", f"{name}, no byte", [call], [33], lent=55)
    yield begun("33", "the longer refused, the shorter taken", [add(0, "good 60"), FOUR_GOOD], [33, 0], lent=125)
    yield begun("33", "25 before 33", [add(0, "lost 4", LAST), add(4, "lost 1")], [0, 25], spare=0)
    yield begun("33", "23 before 33", [add(2 ** 40, "")], [23], lent=55)
    yield run("33", "13 before 33", [add(0, "")], [13], file=head() + 64 * open_segment(0), spare=0)
    yield run("33", "6 before 33", [add(0, "")], [6], file=head() + 510 * box(b"free"), spare=0)


def runs():
    for part in (beginnings, beginnings_refused, stated_lengths, own_refusals, lists_refused, data_refused, rooms):
        yield from part()
