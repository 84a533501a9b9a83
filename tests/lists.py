"""Writes the corpus of crates/listing_run and the model's answers to it, or says whether the ones there are these.

usage: python3 tests/lists.py [--check]

A record of `stdin` is eight numbers of two bytes, most significant first: the length of its name, the length of its
file, the numbers lent for segment rows, for chunk rows, for the list of what is had and for that of what is missing, how
many positions are asked, and the number of the source. Then the name, the file and the positions, eight bytes each.
`stdout` is made of the model's answers alone.
"""

import os
from collections import Counter

import lists_files
import lists_lent
import lists_overlaps
import lists_sources
import model
from corpus import LARGEST_FILE, ROOT, TO_SPARE, command, line
from faults import FAULTS
from lists_record import listed
from sums import sum_of

CRATE = os.path.join(ROOT, "crates", "listing_run")
MOST_BYTES = 300_000
LONGEST = (512, 6144, 2050, 2050)
SMALL = 24
SHORT = 12
OF_A_REFUSED_FILE = (0, 1, 2 ** 64 - 1)
FAR = (2 ** 32 - 1, 2 ** 32, 2 ** 40 - 1, 2 ** 40, 2 ** 64 - 1)


# The records.

def sample():
    with open(os.path.join(ROOT, "samples", "lesson.paff"), "rb") as file:
        return listed("paper", "samples/lesson.paff", file.read(), [(0, 7)], [(7, 3)])


def records():
    made = [sample()]
    for part in (lists_files, lists_overlaps, lists_sources, lists_lent):
        made += part.records()
    return made


# What is lent and asked where a record does not state it.

def needed(file, source):
    """How many numbers an accepted file fills of each table and list; none for a refused one."""
    rows, found = model.read(file), model.lists(file, source=source)
    if rows[0] == "refused":
        return 0, 0, 0, 0
    return 8 * len(rows[1]), 6 * len(rows[2]), 2 * len(found[1]), 2 * len(found[2])


def rooms(record):
    ample = [min(most, numbers + TO_SPARE) for most, numbers in zip(LONGEST, needed(record.file, record.source))]
    return [spare if room is None else room for spare, room in zip(ample, record.rooms)]


def positions(record):
    """Every position of a small source and two behind it; of another those at the edges of chunks, and some far
    away."""
    if record.positions is not None:
        return record.positions
    described = model.length(record.file, record.source)
    if described[0] == "refused" or record.source >= model.sources(record.file)[1]:
        return OF_A_REFUSED_FILE
    if described[1] <= SMALL:
        return [*range(described[1] + 3), *FAR]
    chunks = model.accept(record.file).sources[record.source].chunks
    edges = {0, described[1]} | {chunk[2] for chunk in chunks} | {chunk[2] + chunk[3] for chunk in chunks}
    return sorted({edge + step for edge in edges for step in (-1, 0, 1, 2) if edge + step >= 0} | set(FAR))


def encoded(record):
    name, asked = record.name.encode("ascii"), positions(record)
    assert len(record.file) <= LARGEST_FILE
    numbers = [len(name), len(record.file), *rooms(record), len(asked), record.source]
    front = b"".join(number.to_bytes(2, "big") for number in numbers)
    return front + name + record.file + b"".join(p.to_bytes(8, "big") for p in asked)


# What the program is to write.

def mark_at(place):
    return 2 ** 64 - 1 - place


def filled(rows, room):
    """A lent table or list, with these rows at its front and its marks behind them."""
    numbers = [number for row in rows for number in row]
    return numbers + [mark_at(place) for place in range(len(numbers), room)]


def kept(table):
    return sum(1 for place, number in enumerate(table) if number == mark_at(place))


def sum_of_tables(*tables):
    return sum_of(half for table in tables for number in table for half in divmod(number, 2 ** 32))


def list_lines(word, found, room):
    rest = room - 2 * len(found)
    return "".join(line(word, *one) for one in found) + line("kept", rest, "of", rest)


def table_line(word, table):
    return line(word, "kept", kept(table), "of", len(table), "sum", sum_of_tables(table))


def listing(file, lent, source):
    """The answer of list, both lists, and how the tables were left."""
    answer = model.lists(file, *lent, source=source)
    rows = model.read(file, *lent[:2])
    if answer[0] == "refused":
        front, found, rows = line("refused", answer[1]), ([], []), ("", [], [])
    else:
        found = answer[1:3]
        front = line("lists", len(found[0]), len(found[1]), *answer[3:])
    lists = list_lines("had", found[0], lent[2]) + list_lines("missing", found[1], lent[3])
    tables = table_line("segments", filled(rows[1], lent[0])) + table_line("chunks", filled(rows[2], lent[1]))
    return front + lists + tables


def tables_read(file, lent):
    """The sum of both tables after asking or serving."""
    answer = model.read(file, *lent[:2])
    rows = answer[1:] if answer[0] == "read" else ([], [])
    return sum_of_tables(filled(rows[0], lent[0]), filled(rows[1], lent[1]))


def part_of(part):
    if len(part) <= SHORT:
        return ["%02x" % byte for byte in part]
    return ["sum", sum_of(part)]


def asking(file, lent, source, p, tables):
    place, length = model.serve(file, p, *lent[:2], source=source)
    part = file[place:place + length]
    assert len(part) == length
    asked = line("ask", p, *model.ask(file, p, *lent[:2], source=source), "tables", tables)
    return asked + line("serve", p, length, *part_of(part), "tables", tables)


def answers(record):
    lent = rooms(record)
    tables = tables_read(record.file, lent)
    lines = [asking(record.file, lent, record.source, p, tables) for p in positions(record)]
    return line("=", record.name) + listing(record.file, lent, record.source) + "".join(lines)


# The command.

def found_of(record):
    answer = model.lists(record.file, *rooms(record), source=record.source)
    return answer[1] if answer[0] == "refused" else (answer[1], answer[2])


def checked(made):
    """How many records there are of each kind; each answers what is wanted, and no refusal is missing."""
    found = [found_of(record) for record in made]
    for record, answer in zip(made, found):
        assert record.wanted in (None, answer), (record.name, answer)
    names = Counter(record.name for record in made)
    assert max(names.values()) == 1, names.most_common(3)
    assert {answer for answer in found if isinstance(answer, int)} == {26} | set(FAULTS)
    return Counter(record.kind for record in made)


def main():
    made = records()
    return command(CRATE, made, checked(made), encoded, answers, MOST_BYTES)


if __name__ == "__main__":
    raise SystemExit(main())
