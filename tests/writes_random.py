"""Makes seeded runs: a file begun or a foreign one, and appends to it, most of them taken, with other lengths and other
faults between."""

import random

import additions
import additions_texts
import generate
from writes_run import LARGEST, Begin, length_after, lent_buffer, longest, made, of_arguments, run

SEED = 2_300_114
RUNS = 150
LONGEST_FILE = 1_200
FAULTS = {31: additions.spoil_lists, 32: additions.spoil_data, 35: additions.spoil_outside, 34: additions_texts.put_zero, 23: additions.overstep_limit, 25: additions.overstep_size}


def other_length(rng, length, earlier):
    """A stated length that is not the file's: cut there or at an earlier end, with bytes behind it, or past every
    buffer."""
    return rng.choice([rng.randint(0, length), rng.choice(earlier), rng.choice(earlier), length + rng.randint(1, 20),
                       rng.choice([LARGEST + 1, 2 ** 32 + length, 2 ** 64 - 1])])


def asked(rng, file):
    """Arguments of append, one in four with a fault; those that would change the file first are not taken over."""
    given = additions.acceptable(rng, file)
    if rng.random() < 0.25:
        FAULTS[rng.choice(sorted(FAULTS))](rng, given)
    return given if given["buffer"] == file else additions.acceptable(rng, file)


def some_append(rng, file, earlier):
    given = asked(rng, file)
    stated = other_length(rng, len(file), earlier) if rng.random() < 0.12 else len(file)
    others = rng.getrandbits(31) * 2 if rng.random() < 0.2 else 0
    return of_arguments(given, stated, others + given["last"])


def some_calls(rng, file, calls):
    """The calls and some appends behind them, made in a buffer that is long enough for all."""
    buffer, earlier, found = lent_buffer(file, LARGEST), [len(file)], []
    for turn in range(len(calls) + rng.randint(2, 8)):
        call = calls[turn] if turn < len(calls) else some_append(rng, buffer[:earlier[-1]], earlier)
        answer, buffer = made(buffer, call)
        earlier.append(length_after(answer, earlier[-1]))
        found.append(call)
    return found


def foreign(rng):
    while True:
        file = generate.foreign_file(rng)
        if len(file) < LONGEST_FILE:
            return file


def some_run(rng, index):
    """In a buffer that just holds what is written, with bytes to spare, or too short for the last of it."""
    file, calls = (b"", [Begin(rng.choice(additions.BRANDS), *additions.texts(rng))]) if rng.random() < 0.65 else (foreign(rng), [])
    calls = some_calls(rng, file, calls)
    spare = rng.choice([0, 0, 1, 7, rng.randint(0, 60), -1, -rng.randint(1, 80)])
    lent = max(len(file), longest(file, calls) + spare)
    return run("random", f"random {index}", calls, file=file, lent=lent)


def runs():
    rng = random.Random(SEED)
    for index in range(RUNS):
        yield some_run(rng, index)
