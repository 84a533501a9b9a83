"""Makes the cases of salvage: the copy of a file in buffers of every awkward length, and the lines on what is dropped with
limits for the input around the file's length."""

import model
import model_salvage
import salvage_files
from scale_reading import awkward, number_of
from scale_stream import COPY, FILE, NONE, TEXT, Memory

# Refusals of the copy, and of the program, which 33 is not one of; and the numbers of what is dropped.
REFUSALS = set(range(1, 12)) | {33}
IN_LINES = set(range(1, 12)) | {27}
DROPPED = {0} | set(range(2, 10)) - {8} | set(range(13, 26)) - {21} | {40, 41}


def numbers_in(text):
    """The numbers of a text, and whether that is of a refusal."""
    numbers = [int(told.split(b"\t")[1]) for told in text.splitlines()]
    return numbers, text.startswith(b"refused")


def note_lines(stream, text):
    """Counts the refusals in texts, and the numbers of what is dropped."""
    numbers, refusal = numbers_in(text)
    (stream.refusals_in_texts["salvage_lines"] if refusal else stream.dropped).update(numbers)


def copy_case(stream, file, copy, room):
    refusal = model.attempt(model_salvage.check_copy, file, room)[0]
    buffer = Memory(room, NONE, NONE if refusal else COPY)
    stream.call("salvage", refusal, (), [stream.whole(FILE), buffer], (len(copy),))


def copy_cases(stream, rng, file, count):
    """An exact buffer, and so many others."""
    number, copy = model.attempt(model_salvage.salvaged, file)
    copy = b"" if number else copy
    stream.hold(COPY, copy)
    rooms = [*awkward(len(copy)), min(len(file), 2 * len(copy) + 99)]
    for room in [len(copy), *rng.sample(rooms, count)]:
        copy_case(stream, file, copy, room)


def lines_cases(stream, rng, file, most, count):
    """The same for the lines."""
    text = model_salvage.salvage_text(file, most)
    note_lines(stream, text)
    stream.hold(TEXT, text)
    for room in [len(text), *rng.sample(awkward(len(text)), count)]:
        refusal = model.BUFFER_TOO_SHORT if room < len(text) else 0
        buffer = Memory(room, NONE, NONE if refusal else TEXT)
        stream.call("salvage_lines", refusal, (most,), [stream.whole(FILE), buffer], (len(text),))


def salvage_cases(stream, rng, file, count=1):
    """Both calls on a file; the lines once where they are told, and once with some other limit."""
    stream.hold(FILE, file)
    copy_cases(stream, rng, file, count)
    lines_cases(stream, rng, file, rng.choice([len(file), 2 ** 64 - 1]), count)
    lines_cases(stream, rng, file, rng.choice([max(0, len(file) - 1), model.LIMITS["program input"], 0, len(file) + 1]), 0)


def spoiled_cases(stream, rng):
    """Those of a spoiled file."""
    salvage_cases(stream, rng, salvage_files.salvage_file(rng), 2)
