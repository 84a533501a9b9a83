"""Makes files on what the map calls held and lost, each with the ranges that its map is to have, worked out by hand."""

from itertools import permutations

from boxes import head, open_segment
from foreign import DAMAGED, ELSEWHERE, GOOD, LIMIT, LOST
from lists_record import assembled, file_of
from plan import Data, Entry, Segment

LAST = 1
ABSENT = ("lost", "elsewhere")


def one_state():
    """Films of one chunk, and of none."""
    yield "one damaged", file_of((0, "damaged 9", LAST)), "held 0 9"
    yield "one damaged behind a gap", file_of((4, "damaged 5")), "lost 0 4, held 4 5"
    for state in ABSENT:
        yield f"one {state}", file_of((0, f"{state} 9", LAST)), "lost 0 9"
        yield f"one {state} behind a gap", file_of((4, f"{state} 5")), "lost 0 9"
    yield "one good", file_of((0, "good 9", LAST)), "have 0 9"
    yield "one open", file_of((9, "")), "lost 0 9"
    yield "none, and no length", file_of((0, "")), ""


def both():
    """Two segments on the same positions: whichever comes first, a good chunk is had, and what one damaged chunk covers
    and no good one is held."""
    parts = {"good": (2, "good 4"), "damaged": (4, "damaged 4"), "lost": (0, "lost 10", LAST), "elsewhere": (0, "elsewhere 10", LAST)}
    for absent in ABSENT:
        for order in permutations(["good", "damaged", absent]):
            yield ", ".join(order), file_of(*[parts[name] for name in order]), "lost 0 2, have 2 4, held 6 2, lost 8 2"
        for order in permutations(["damaged", absent]):
            yield ", ".join(order), file_of(*[parts[name] for name in order]), "lost 0 4, held 4 4, lost 8 2"
    for order in permutations(["good", "damaged"]):
        yield ", ".join(order), file_of(*[parts[name] for name in order]), "lost 0 2, have 2 4, held 6 2"
    for order in permutations(["damaged", "lost", "elsewhere"]):
        yield ", ".join(order), file_of(*[parts[name] for name in order]), "lost 0 4, held 4 4, lost 8 2"


def under_good():
    """Damage under a good chunk, wholly or in part, before it and behind it."""
    for name, damage, ranges in [
            ("the same", (4, "damaged 4"), "lost 0 4, have 4 4, lost 8 2"), ("inside", (5, "damaged 2"), "lost 0 4, have 4 4, lost 8 2"),
            ("over its start", (3, "damaged 2"), "lost 0 3, held 3 1, have 4 4, lost 8 2"), ("over its end", (7, "damaged 2"), "lost 0 4, have 4 4, held 8 1, lost 9 1"),
            ("around it", (1, "damaged 8"), "lost 0 1, held 1 3, have 4 4, held 8 1, lost 9 1"), ("up to it", (2, "damaged 2"), "lost 0 2, held 2 2, have 4 4, lost 8 2"),
            ("from its end", (8, "damaged 1"), "lost 0 4, have 4 4, held 8 1, lost 9 1"), ("over all", (0, "damaged 10"), "held 0 4, have 4 4, held 8 2"),
            ("one before", (3, "damaged 1"), "lost 0 3, held 3 1, have 4 4, lost 8 2")]:
        good, end = (4, "good 4"), (10, "lost 0", LAST)
        yield f"{name}, before a good one", file_of(damage, good, end), ranges
        yield f"{name}, behind a good one", file_of(good, end, damage), ranges
    yield "between two good ones that touch in it", file_of((0, "damaged 9", LAST), (2, "good 2"), (4, "good 2")), "held 0 2, have 2 4, held 6 3"
    yield "under two good ones with a gap", file_of((2, "good 2"), (1, "damaged 6"), (5, "good 1"), (9, "")), "lost 0 1, held 1 1, have 2 2, held 4 1, have 5 1, held 6 1, lost 7 2"


def several():
    """Damaged chunks beside each other, over each other and in each order are one range where they leave no gap."""
    for words in ("damaged 3, damaged 3, damaged 3", "damaged 9", "damaged 0, damaged 4, lost 0, damaged 5, good 0"):
        yield words, file_of((0, words)), "held 0 9"
    parts = [(0, "damaged 4"), (2, "damaged 4"), (6, "damaged 2"), (9, "damaged 1, lost 1", LAST)]
    for number, order in enumerate(permutations(parts)):
        yield f"four damaged, order {number}", file_of(*order), "held 0 8, lost 8 1, held 9 1, lost 10 1"
    yield "one inside another", file_of((0, "damaged 9"), (3, "damaged 2"), (11, "")), "held 0 9, lost 9 2"
    yield "held at both sides of a segment's end", file_of((0, "lost 2, damaged 3"), (5, "damaged 3, elsewhere 1")), "lost 0 2, held 2 6, lost 8 1"
    yield "lost at both sides of a segment's end", file_of((0, "damaged 2, lost 3"), (5, "elsewhere 3, damaged 1")), "held 0 2, lost 2 6, held 8 1"


def of_size_0():
    """An empty damaged chunk covers nothing."""
    yield "an empty damaged one", file_of((4, "damaged 0")), "lost 0 4"
    yield "an empty damaged one in a lost one", file_of((4, "damaged 0"), (0, "lost 9")), "lost 0 9"
    yield "an empty damaged one in a good one", file_of((4, "damaged 0"), (0, "good 9")), "have 0 9"
    yield "empty ones between held and lost", file_of((0, "damaged 2, lost 0, good 0, lost 3, damaged 0, elsewhere 1, damaged 1")), "held 0 2, lost 2 4, held 6 1"


def mended():
    """A damaged chunk that is mended bit by bit."""
    film = [(0, "good 4, damaged 8, lost 4", LAST)]
    yield "before it is mended", file_of(*film), "have 0 4, held 4 8, lost 12 4"
    for repair, ranges in [((6, "good 2"), "have 0 4, held 4 2, have 6 2, held 8 4, lost 12 4"), ((4, "good 2"), "have 0 8, held 8 4, lost 12 4"),
                           ((10, "damaged 4"), "have 0 8, held 8 6, lost 14 2"), ((8, "good 5"), "have 0 13, held 13 1, lost 14 2"), ((13, "good 3"), "have 0 16")]:
        film.append(repair)
        yield f"mended {len(film) - 1} times", file_of(*film), ranges


def turns(states, count):
    """One segment of so many chunks of one position, of these states in turn, with the ranges of its map."""
    words = {GOOD: "have", DAMAGED: "held", LOST: "lost", ELSEWHERE: "lost"}
    data = Data(bytes(range(251)))
    chosen = [states[at % len(states)] for at in range(count)]
    entries = [Entry(state, 1, data if state in (GOOD, DAMAGED) else None, at % 251) for at, state in enumerate(chosen)]
    ranges = []
    for at, state in enumerate(chosen):
        if ranges and ranges[-1][0] == words[state]:
            ranges[-1][2] += 1
        else:
            ranges.append([words[state], at, 1])
    return assembled([data, Segment(0, entries)]), ", ".join("%s %d %d" % tuple(one) for one in ranges)


def many():
    for name, states, most in [("held and lost", [DAMAGED, LOST], 1024), ("have and held", [GOOD, DAMAGED], 100), ("all in turn", [GOOD, DAMAGED, LOST, ELSEWHERE], 1024),
                               ("held, elsewhere and lost", [ELSEWHERE, DAMAGED, LOST], 100), ("held alone", [DAMAGED], 1024)]:
        for count in (9, most):
            yield f"{name}, {count} of them", *turns(states, count)
    behind = [(2 * at, "damaged 1") for at in reversed(range(63))]
    ranges = ", ".join("held %d 1, lost %d 1" % (2 * at, 2 * at + 1) for at in range(63))
    yield "63 turned, with gaps", file_of((126, ""), *behind), ranges


def far():
    """Ranges of every number of digits, up to the largest position."""
    for digits in range(1, 13):
        first = 10 ** digits - 1
        data = Data(b"abc")
        entries = [Entry(LOST, first), Entry(DAMAGED, 1, data, 0), Entry(GOOD, 1, data, 1), Entry(DAMAGED, 1, data, 2)]
        ranges = f"lost 0 {first}, held {first} 1, have {first + 1} 1, held {first + 2} 1"
        yield f"held from {first}", assembled([data, Segment(0, entries)]), ranges
    end = LIMIT
    data = Data(b"ab")
    last = Segment(end - 2, [Entry(DAMAGED, 1, data, 0), Entry(GOOD, 1, data, 1)], LAST)
    yield "held before the last position", assembled([data, last]), f"lost 0 {end - 2}, held {end - 2} 1, have {end - 1} 1"
    first = Segment(0, [Entry(DAMAGED, 2, data, 0), Entry(LOST, end - 2)])
    yield "lost up to the last position", assembled([data, first]), f"held 0 2, lost 2 {end - 2}"


def open_ones():
    """An open segment reaches to its offset, and covers nothing."""
    yield "damage up to an open segment", head() + open_segment(12) + file_of((3, "damaged 9"))[len(head()):], "lost 0 3, held 3 9"
    yield "damage and an open segment above", file_of((3, "damaged 4"), (12, "", LAST)), "lost 0 3, held 3 4, lost 7 5"


def files():
    """Names, files, and their ranges in words."""
    for made in (one_state, both, under_good, several, of_size_0, mended, many, far, open_ones):
        yield from made()
