"""Makes records on lists and tables that are empty, too short, exact and ample, and on files that are refused."""

import random

import generate
from boxes import head, lost_segment, open_segment
from lists_record import Record, file_of, listed, refused

LAST = 1
SEED = 230014

# Two segments and three chunks, 16 and 18 numbers; one range each, 2 and 2.
TENTH = file_of((0, "good 4, lost 6", LAST), (2, "good 5"))
TENTH_LISTS = [(0, 7)], [(7, 3)]
# Four segments and nine chunks, 32 and 54 numbers; three ranges and two, 6 and 4.
FOUR = file_of((0, "good 2, elsewhere 3, good 2"), (7, "damaged 2, good 1, lost 0, lost 1", LAST), (9, "good 2"), (4, "good 1"))
FOUR_LISTS = [(0, 2), (4, 3), (9, 2)], [(2, 2), (7, 2)]


def of_rooms(name, file, found, rooms, needed, positions):
    """The record of these rooms, refused if one is too short; where all are exact, it is asked at every position."""
    positions = None if rooms == needed else positions
    title = f"{name} in {rooms[0]}, {rooms[1]}, {rooms[2]} and {rooms[3]} numbers"
    if any(room < numbers for room, numbers in zip(rooms, needed)):
        return refused("lent", 26, title, file, rooms, positions)
    return listed("lent", title, file, *found, rooms, positions)


def lists_of_small_files():
    needed = (16, 18, 2, 2)
    for had in (0, 1, 2, 3, 2050):
        for missing in (0, 1, 2, 3, 2050):
            yield of_rooms("10", TENTH, TENTH_LISTS, (16, 18, had, missing), needed, [2, 7, 10])
    needed = (32, 54, 6, 4)
    for had in (0, 4, 5, 6, 7):
        for missing in (0, 2, 3, 4, 5):
            yield of_rooms("11 positions", FOUR, FOUR_LISTS, (33, 56, had, missing), needed, [4])


def lists_of_one_class():
    whole = file_of((0, "good 3, good 4", LAST))
    for rooms in ((8, 12, 2, 0), (8, 12, 2, 1), (8, 12, 1, 0), (8, 12, 0, 0), (8, 12, 3, 3)):
        yield of_rooms("nothing missing", whole, ([(0, 7)], []), rooms, (8, 12, 2, 0), [0, 6, 7])
    none = file_of((0, "lost 3, damaged 4", LAST))
    for rooms in ((8, 12, 0, 2), (8, 12, 1, 2), (8, 12, 0, 1), (8, 12, 0, 0), (8, 12, 3, 3)):
        yield of_rooms("nothing had", none, ([], [(0, 7)]), rooms, (8, 12, 0, 2), [0, 6, 7])
    empty = head() + open_segment(0)
    for rooms in ((8, 0, 0, 0), (7, 0, 0, 0), (9, 1, 1, 1), (0, 9, 9, 9)):
        yield of_rooms("nothing described", empty, ([], []), rooms, (8, 0, 0, 0), [0, 1])


def tables():
    needed = (32, 54, 6, 4)
    for segments in (0, 24, 31, 32, 512):
        for chunks in (0, 48, 53, 54, 6144):
            yield of_rooms("11 positions", FOUR, FOUR_LISTS, (segments, chunks, 6, 4), needed, [0, 3, 11])


def with_refusals():
    rng = random.Random(SEED)
    for number in sorted(generate.FAULTS):
        file = generate.faulty_file(rng, number)
        yield refused("refused", number, f"fault {number}", file, (20, 20, 9, 9))
        if number != 6:
            yield refused("refused", number, f"fault {number}, nothing lent", file, (0, 0, 0, 0))
    yield refused("refused", 7, "an empty file", b"")
    yield refused("refused", 12, "only begun", head())
    yield refused("refused", 25, "25 before 26", head() + lost_segment(0, [3], flags=LAST) + open_segment(4), (15, 5, 0, 0))


def generated():
    rng = random.Random(SEED + 1)
    for index in range(90):
        yield Record("generated", f"foreign {index}", None, generate.foreign_file(rng), source=rng.choice([0, 0, 0, 1, 1, 2]))
    for index in range(20):
        yield Record("generated", f"spoiled {index}", None, generate.spoil(rng, generate.foreign_file(rng)), source=rng.choice([0, 0, 1]))


def records():
    for made in (lists_of_small_files, lists_of_one_class, tables, with_refusals, generated):
        yield from made()
