"""Makes records on overlapping, touching and repaired chunks, and on segments in any order."""

from itertools import permutations

from lists_record import file_of, listed, refused

LAST = 1

# Two ranges in each way that they can lie: the first, the second, and what both together have below 10.
PAIRS = [
    ("apart", (1, 3), (5, 2), [(1, 3), (5, 2)], [(0, 1), (4, 1), (7, 3)]),
    ("touching", (1, 3), (4, 2), [(1, 5)], [(0, 1), (6, 4)]),
    ("overlapping", (1, 4), (3, 5), [(1, 7)], [(0, 1), (8, 2)]),
    ("overlapping by one", (1, 4), (4, 4), [(1, 7)], [(0, 1), (8, 2)]),
    ("same end", (1, 6), (4, 3), [(1, 6)], [(0, 1), (7, 3)]),
    ("inside", (1, 6), (3, 2), [(1, 6)], [(0, 1), (7, 3)]),
    ("same start", (2, 3), (2, 6), [(2, 6)], [(0, 2), (8, 2)]),
    ("equal", (2, 5), (2, 5), [(2, 5)], [(0, 2), (7, 3)]),
    ("from the front", (0, 3), (2, 4), [(0, 6)], [(6, 4)]),
    ("to the end", (4, 6), (3, 7), [(3, 7)], [(0, 3)]),
    ("the whole", (0, 10), (3, 4), [(0, 10)], []),
    ("the whole in two", (0, 6), (6, 4), [(0, 10)], []),
]


def overlapping():
    """Each pair in both orders, closed at 10, and without a known size."""
    for name, one, two, had, missing in PAIRS:
        for order, pair in (("", (one, two)), (", turned", (two, one))):
            good = [(first, f"good {size}") for first, size in pair]
            yield listed("overlapping", f"{name}{order}", file_of(*good, (0, "lost 10", LAST)), had, missing)
            end = max(first + size for first, size in pair)
            short = [(first, size) for first, size in missing if first < end]
            yield listed("open", f"{name}{order}, size not known", file_of(*good), had, short)


def repaired():
    """A range of 4 that is not good between two that are, and a later good chunk over any part of it and of its
    neighbours."""
    for state in ("damaged", "lost", "elsewhere"):
        first = (0, f"good 4, {state} 4, good 4", LAST)
        yield listed("repaired", f"{state}, no repair", file_of(first), [(0, 4), (8, 4)], [(4, 4)])
        for start in (2, 4, 5, 7, 8):
            for end in (5, 6, 8, 10):
                if start < end:
                    name = f"{state}, repaired from {start} to {end}"
                    yield listed("repaired", name, file_of(first, (start, f"good {end - start}")), *repair(start, end))


def repair(start, end):
    """What 0 to 4 and 8 to 12 have with a repair of a part between."""
    if start <= 4 and end >= 8:
        return [(0, 12)], []
    if start >= 8:
        return [(0, 4), (8, 4)], [(4, 4)]
    if start <= 4:
        return [(0, end), (8, 4)], [(end, 8 - end)]
    if end >= 8:
        return [(0, 4), (start, 12 - start)], [(4, start - 4)]
    return [(0, 4), (start, end - start), (8, 4)], [(4, start - 4), (end, 8 - end)]


def repaired_again():
    whole = (0, "damaged 12", LAST)
    yield listed("repaired", "all damaged", file_of(whole), [], [(0, 12)])
    yield listed("repaired", "all damaged, then good", file_of(whole, (0, "good 12")), [(0, 12)], [])
    yield listed("repaired", "good, then all damaged", file_of((0, "good 12", LAST), (0, "damaged 12")), [(0, 12)], [])
    yield listed("repaired", "good, then good again", file_of((0, "good 12", LAST), (0, "good 12")), [(0, 12)], [])
    for state in ("lost", "elsewhere"):
        yield listed("repaired", f"good, then {state}", file_of((3, "good 5"), (0, f"{state} 12", LAST)), [(3, 5)], [(0, 3), (8, 4)])
        yield listed("repaired", f"{state}, then good", file_of((0, f"{state} 12", LAST), (3, "good 5")), [(3, 5)], [(0, 3), (8, 4)])
    thrice = file_of(whole, (4, "good 4"), (2, "good 8"), (0, "good 12"))
    yield listed("repaired", "repaired three times, each over the last", thrice, [(0, 12)], [])
    yield listed("repaired", "repaired by chunks", file_of(whole, (1, "good 2, lost 2, good 2, damaged 2, good 2")),
                 [(1, 2), (5, 2), (9, 2)], [(0, 1), (3, 2), (7, 2), (11, 1)])
    yield listed("repaired", "repaired with a damaged one", file_of(whole, (1, "damaged 10"), (2, "good 2")), [(2, 2)], [(0, 2), (4, 8)])
    yield refused("repaired", 25, "repaired past the known size", file_of(whole, (11, "good 2")))


def touching():
    for words in ("good 3, good 3, good 3", "good 9", "good 0, good 3, good 0, good 6, lost 0", "good 1, good 8"):
        yield listed("touching", words, file_of((0, words)), [(0, 9)], [])
    for words in ("lost 3, damaged 3, lost 3", "damaged 9", "lost 1, lost 8", "elsewhere 9", "lost 3, elsewhere 3, damaged 3", "elsewhere 4, elsewhere 5"):
        yield listed("touching", words, file_of((0, words)), [], [(0, 9)])
    yield listed("touching", "missing at both sides of a segment's end", file_of((0, "good 2, lost 3"), (5, "damaged 3, good 1")),
                 [(0, 2), (8, 1)], [(2, 6)])
    yield listed("touching", "had at both sides of a segment's end", file_of((5, "good 3, lost 1"), (0, "lost 2, good 3")),
                 [(2, 6)], [(0, 2), (8, 1)])


def unsorted():
    """Four segments in each of their orders."""
    parts = [(0, "good 3"), (3, "good 2, lost 2"), (6, "good 3"), (11, "lost 1, good 2", LAST)]
    for number, order in enumerate(permutations(parts)):
        yield listed("unsorted", f"order {number}", file_of(*order), [(0, 5), (6, 3), (12, 2)], [(5, 1), (9, 3)])
    for count in (5, 9):
        backward = [(2 * at, "good 2") for at in reversed(range(count))]
        yield listed("unsorted", f"{count} in a row, turned", file_of(*backward), [(0, 2 * count)], [])
        gaps = [(3 * at, "good 2") for at in reversed(range(count))]
        yield listed("unsorted", f"{count} with gaps, turned", file_of(*gaps),
                     [(3 * at, 2) for at in range(count)], [(3 * at + 2, 1) for at in range(count - 1)])


def records():
    for made in (overlapping, repaired, repaired_again, touching, unsorted):
        yield from made()
