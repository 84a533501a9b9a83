"""Makes records of generated files: as other writers make them, spoiled, and with one fault."""

import random

import generate
import model
from record import Record, refused

SEED = 23001


def with_some_room(rng, name, file):
    """The file with tables to spare, some source and some segment, and sometimes once more with tables that may be too
    short."""
    yield Record(name, None, file, source=rng.choice([0, 0, 1, 1, 2, 8]), segment=rng.choice([0, 0, 1, 2, 9]))
    answer = model.read(file)
    if answer[0] == "read" and rng.random() < 0.3:
        needed = (8 * len(answer[1]), 6 * len(answer[2]))
        rooms = [max(0, numbers + rng.choice([-6, -1, 0, 0, 1])) for numbers in needed]
        yield Record(f"{name}, tables of {rooms[0]} and {rooms[1]}", None, file, *rooms)


def records():
    rng = random.Random(SEED)
    for index in range(40):
        yield from with_some_room(rng, f"foreign {index}", generate.foreign_file(rng))
    for index in range(60):
        yield from with_some_room(rng, f"spoiled {index}", generate.spoil(rng, generate.foreign_file(rng)))
    for number in sorted(generate.FAULTS):
        for index in range(1 if number == 6 else 3):
            yield refused(number, f"fault {number}, {index}", generate.faulty_file(rng, number))
