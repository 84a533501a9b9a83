"""Writes the corpus of crates/reading_run and the model's answers to it, or says whether the ones there are these.

usage: python3 tests/corpus.py [--check]

A record of `stdin` is six numbers of two bytes, most significant first: the length of its name, the numbers lent for
segment rows and for chunk rows, the length of its file, the number of a source and that of a segment. Then the name and
the file. The texts of the segment are asked for in a buffer of 64 bytes and a list of 8 numbers. `stdout` is made of the
model's answers alone.
"""

import os
import sys
from collections import Counter

import corpus_boxes
import corpus_chunks
import corpus_elsewhere
import corpus_index
import corpus_mixed
import corpus_orders
import corpus_random
import corpus_segments
import corpus_sources
import corpus_tables
import model
from faults import FAULTS
from record import taken

ROOT = os.path.join(os.path.dirname(os.path.abspath(__file__)), "..")
CRATE = os.path.join(ROOT, "crates", "reading_run")
LARGEST_FILE = 65_535
MOST_BYTES = 630_000
FULL_TABLES = (512, 6144)
TEXT_ROOMS = (64, 8)
TO_SPARE = 3


# The records.

def sample():
    with open(os.path.join(ROOT, "samples", "lesson.paff"), "rb") as file:
        return taken("samples/lesson.paff", file.read())


def records():
    made = [sample()]
    for part in (corpus_boxes, corpus_segments, corpus_chunks, corpus_mixed, corpus_elsewhere, corpus_index, corpus_sources, corpus_orders, corpus_tables, corpus_random):
        made += part.records()
    return made


# Their bytes.

def rooms(record):
    """How many numbers are lent for each table where none are stated: some to spare, and for a refused file full
    tables."""
    answer = model.read(record.file)
    ample = FULL_TABLES
    if answer[0] == "read":
        needed = (8 * len(answer[1]), 6 * len(answer[2]))
        ample = [min(most, numbers + TO_SPARE) for most, numbers in zip(FULL_TABLES, needed)]
    stated = (record.segment_room, record.chunk_room)
    return [spare if room is None else room for spare, room in zip(ample, stated)]


def encoded(record):
    name = record.name.encode("ascii")
    assert len(record.file) <= LARGEST_FILE
    numbers = [len(name), *rooms(record), len(record.file), record.source, record.segment]
    return b"".join(number.to_bytes(2, "big") for number in numbers) + name + record.file


# What the program is to write.

def line(word, *fields):
    return " ".join([word, *[str(field) for field in fields]]) + "\n"


def kept(room, rows, width):
    """The line on the numbers that no row takes."""
    rest = room - width * len(rows)
    return line("kept", rest, "of", rest)


def table(word, rows, room, width):
    return "".join(line(word, *row) for row in rows) + kept(room, rows, width)


def hexes(content):
    return ["%02x" % byte for byte in content]


def text(word, file, part):
    place, length = part
    return line(word, *hexes(file[place:place + length]))


def texts_of_segment(file, segment):
    """The texts of a segment and their lengths, and how many bytes and numbers of what is lent for them are kept."""
    answer = model.texts(file, segment, *TEXT_ROOMS)
    if answer[0] == "refused":
        return line("texts", *answer) + "".join(line("kept", room, "of", room) for room in TEXT_ROOMS)
    texts, lengths = answer[1:]
    rest = [room - len(part) for room, part in zip(TEXT_ROOMS, (texts, lengths))]
    front = line("texts", len(texts), len(lengths)) + line("bytes", *hexes(texts)) + line("lengths", *lengths)
    return front + "".join(line("kept", room, "of", room) for room in rest)


def read_line(file, segments, chunks, source):
    """What is told of a file that is read, and of one of its sources."""
    described, closed = model.length(file, source)[1:]
    return line("read", segments, chunks, model.sources(file)[1], described, "closed" if closed else "open")


def answers(record):
    file = record.file
    lent = rooms(record)
    answer = model.read(file, *lent)
    if answer[0] == "refused":
        front, rows = line("refused", answer[1]), ([], [])
    else:
        rows = answer[1:]
        front = read_line(file, *map(len, rows), record.source)
    tables = table("segment", rows[0], lent[0], 8) + table("chunk", rows[1], lent[1], 6)
    texts = text("url", file, model.url(file)) + text("mime", file, model.mime(file))
    texts += text("source_url", file, model.source_url(file, record.source)) + text("source_mime", file, model.source_mime(file, record.source))
    return line("=", record.name) + front + tables + texts + texts_of_segment(file, record.segment)


# The command.

def number_of(record):
    answer = model.read(record.file, *rooms(record))
    return answer[1] if answer[0] == "refused" else 0


def checked(made):
    """How many records have each number; each has the one that is wanted, and none is missing."""
    for record in made:
        assert record.wanted in (None, number_of(record)), (record.name, number_of(record))
    names = Counter(record.name for record in made)
    assert max(names.values()) == 1, names.most_common(3)
    numbers = Counter(number_of(record) for record in made)
    assert set(numbers) == {0, 26} | set(FAULTS), sorted(numbers)
    return numbers


def differs(path, content):
    with open(path, "rb") as file:
        return file.read() != content


def command(crate, made, kinds, encoded, answers, most_bytes):
    """Writes what a crate is run on and is to write, or compares them; the exit status."""
    stdin = b"".join(encoded(record) for record in made)
    assert len(stdin) <= most_bytes, len(stdin)
    stdout = "".join(answers(record) for record in made).encode("ascii")
    paths = {os.path.join(crate, "stdin"): stdin, os.path.join(crate, "stdout"): stdout}
    if sys.argv[1:] == ["--check"]:
        wrong = [path for path, content in paths.items() if differs(path, content)]
        print("\n".join("differs: " + path for path in wrong) or f"{len(made)} records")
        return 1 if wrong else 0
    for path, content in paths.items():
        with open(path, "wb") as file:
            file.write(content)
    print(f"{len(made)} records: " + ", ".join(f"{kind}: {kinds[kind]}" for kind in sorted(kinds)))
    return 0


def main():
    made = records()
    return command(CRATE, made, checked(made), encoded, answers, MOST_BYTES)


if __name__ == "__main__":
    raise SystemExit(main())
