"""Makes records on files of several sources: each listed, asked and served by itself, and sources that are not there."""

from itertools import permutations

from boxes import bare_head, head, lost_segment, open_segment, surl
from foreign import LIMIT
from lists_record import file_of, listed, refused

LAST = 1
A, B = [b"a"], [b"b"]


def of_each(name, file, *lists):
    """A record of each source of a file, with both its lists, and of the first that is not there."""
    for source, (had, missing) in enumerate([*lists, ([], [])]):
        yield listed("sources", f"{name}, source {source}", file, had, missing, source=source)


def layers():
    """The paper's P9 and P10 in two layers, whose segments stand in every order that keeps each layer's own."""
    ninth, repair = (0, "good 4, lost 6", LAST), (2, "good 5")
    yield from of_each("P9 beside P10", file_of(ninth, (*ninth, A), (*repair, 0, A)), ([(0, 4)], [(4, 6)]), ([(0, 7)], [(7, 3)]))
    parts = [ninth, repair, (0, "damaged 9", 0, A), (3, "good 2", 0, A)]
    for number, order in enumerate(permutations(parts)):
        of_pfil = 0 if order[0] in parts[:2] else 1
        yield listed("sources", f"two layers, order {number}, the first", file_of(*order), *[([(0, 7)], [(7, 3)]), ([(3, 2)], [(0, 3), (5, 4)])][of_pfil], positions=[0, 2, 3, 5, 9])
        yield listed("sources", f"two layers, order {number}, the second", file_of(*order), *[([(3, 2)], [(0, 3), (5, 4)]), ([(0, 7)], [(7, 3)])][of_pfil], positions=[0, 2, 3, 5, 9],
                     source=1)


def same_positions():
    """What is good in one source is missing in another, and the first good chunk is that of the source's own."""
    file = file_of((0, "good 8", 0, A), (0, "lost 8", LAST), (2, "good 3", 0, B), (4, "good 4"), (0, "damaged 9", LAST, B), (6, "good 2", 0, A))
    yield from of_each("three on the same positions", file, ([(0, 8)], []), ([(4, 4)], [(0, 4)]), ([(2, 3)], [(0, 2), (5, 4)]))
    lengths = file_of((5, ""), (LIMIT, "", 0, A), (0, "good 2, lost 7", LAST, B), (9, "", 0, B))
    yield from of_each("three lengths", lengths, ([], [(0, 5)]), ([], [(0, LIMIT)]), ([(0, 2)], [(2, 7)]))
    closed = file_of((0, "good 3", LAST, A), (9, "", LAST), (0, "good 6", 0, B), (0, "good 1"))
    yield from of_each("a size that another source has", closed, ([(0, 3)], []), ([(0, 1)], [(1, 8)]), ([(0, 6)], []))
    yield refused("sources", 25, "a size that its own source passes", file_of((0, "good 3", LAST, A), (0, "good 6"), (2, "good 2", 0, A)))


def lists_of_urls():
    """Segments that are of one source by their lists of URLs, and that are not."""
    for name, first, second, one in [("by none and the list in pfil", [], [b"u"], True), ("by a list and its order", [b"a", b"b"], [b"b", b"a"], False),
                                     ("by a list and the same", [b"a", b"b"], [b"a", b"b"], True),
                                     ("by a list and its front", [b"a", b"b"], [b"a"], False), ("by one empty URL and two", [b""], [b"", b""], False),
                                     ("by an empty URL and none", [b""], [], False)]:
        file = file_of((0, "good 2", 0, first), (4, "good 2, lost 1", 0, second))
        if one:
            yield from of_each(name, file, ([(0, 2), (4, 2)], [(2, 2), (6, 1)]))
        else:
            yield from of_each(name, file, ([(0, 2)], []), ([(4, 2)], [(0, 4), (6, 1)]))


def many():
    eight = [(at, f"good {at + 1}", at % 2, [bytes([97 + at])]) for at in range(8)]
    yield from of_each("eight sources", file_of(*eight), *[([(at, at + 1)], [(0, at)] if at else []) for at in range(8)])
    for source in (9, 63, 64, 255, 256, 65_535):
        yield listed("sources", f"eight sources, source {source}", file_of(*eight), [], [], source=source)
    yield refused("sources", 40, "nine sources", file_of(*eight, (0, "good 1")))
    yield refused("sources", 40, "nine sources in no room", file_of(*eight, (0, "good 1")), (0, 0, 0, 0))
    yield refused("sources", 41, "no list at all", bare_head() + open_segment(4))
    yield refused("sources", 25, "25 before 40", file_of(*eight, (0, "good 1"), (0, "lost 1", LAST, [b"b"])))
    turns = [(2 * at, "good 1", 0, A if at % 2 else B) for at in range(60)]
    yield listed("sources", "60 segments by turns, the first", file_of(*turns), [(4 * at, 1) for at in range(30)], [(4 * at + 1, 3) for at in range(29)],
                 positions=[0, 1, 2, 4, 116, 117, 118])
    yield listed("sources", "60 segments by turns, the second", file_of(*turns), [(4 * at + 2, 1) for at in range(30)], [(0, 2)] + [(4 * at + 3, 3) for at in range(29)],
                 positions=[0, 1, 2, 4, 118, 119], source=1)


def rooms():
    """Lists that just hold those of the source that is asked for, where those of another are longer."""
    file = file_of((0, "good 1, lost 1, good 1, lost 1, good 1, lost 1"), (0, "good 2, lost 3", LAST, A))
    for source, exact in [(0, (16, 48, 6, 6)), (1, (16, 48, 2, 2)), (2, (16, 48, 0, 0))]:
        lists = [([(0, 1), (2, 1), (4, 1)], [(1, 1), (3, 1), (5, 1)]), ([(0, 2)], [(2, 3)]), ([], [])][source]
        yield listed("sources", f"lists that just hold, source {source}", file, *lists, exact, source=source)
        for at, name in enumerate(["segments", "chunks", "had", "missing"]):
            short = tuple(room - (number == at) for number, room in enumerate(exact))
            if min(short) >= 0:
                yield refused("sources", 26, f"{name} too short by one, source {source}", file, short)._replace(source=source)
    far = head() + open_segment(9, parts=surl(b"a")) + lost_segment(0, [LIMIT], flags=LAST)
    yield from of_each("one up to the limit", far, ([], [(0, 9)]), ([], [(0, LIMIT)]))


def records():
    for made in (layers, same_positions, lists_of_urls, many, rooms):
        yield from made()
