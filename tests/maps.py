"""Writes the corpus of crates/mapping_run and the model's answers to it, or says whether the ones there are these.

usage: python3 tests/maps.py [--check]

A record of `stdin` is three numbers, most significant byte first: the length of its name in two bytes, then the length
of its file and that of the lent buffer in three bytes each. Then the name and the file. `stdout` is made of the model's
answers alone: that of the map, and then that of the map which does not name damage, each in a buffer of so many bytes.
"""

import os
from collections import Counter, namedtuple

import corpus
import lists
import maps_damage
import maps_sources
import model
from boxes import box
from corpus import ROOT, TO_SPARE, command, line
from faults import FAULTS
from foreign import DAMAGED, GOOD, LOST
from lists_record import assembled
from plan import Data, Entry, Other, Segment

CRATE = os.path.join(ROOT, "crates", "mapping_run")
MOST_BYTES = 590_000
LARGEST_FILE = 65_537
LARGEST_BUFFER = 65_600
LAST = 1
BUFFER_TOO_SHORT = 33
TEXTS = (model.map_text, model.missmap_text)

# A file with the lists of its source and the lines of its map but the first and the last that are stated of it, None
# where only the model says, and a file with a buffer of so many bytes.
File = namedtuple("File", "kind name content stated named", defaults=(None, None))
Record = namedtuple("Record", "name file room")


# The files.

def of_lists():
    """The files of the corpus of lists, without what is lent there and the source that is asked of."""
    for record in lists.records():
        name = record.name.partition(" in ")[0] if record.kind == "lent" else record.name.partition(", source")[0]
        several = model.sources(record.file)[0] == "sources" and model.sources(record.file)[1] > 1
        yield File(record.kind, name, record.file, None if record.kind == "lent" or several else record.wanted)


def of_damage():
    """Those whose maps are stated by name, and the sample that has each name."""
    for name, content, words in maps_damage.files():
        yield File("damage", name, content, named=words)
    with open(os.path.join(ROOT, "samples", "damaged.paff"), "rb") as file:
        yield File("paper", "samples/damaged.paff", file.read(), named="have 0 6, held 6 3, have 9 3, lost 12 1, held 13 2, lost 15 2, have 17 3")


def of_sources():
    for name, content, words in maps_sources.files():
        yield File("sources", name, content, named=words)


def refused_shortest():
    """Of the files that the corpus of reading has for each refusal of a file, the shortest."""
    made = {}
    for record in corpus.records():
        number = refusal_in(model.map_text(record.file))
        if number and (number not in made or len(record.file) < len(made[number].file)):
            made[number] = record
    for number, record in sorted(made.items()):
        yield File("refused", f"shortest with {number}, {record.name}", record.file, number)


def of_size(size):
    """A file of so many bytes, nearly all of them in a box between its data and the segment that points back to
    them."""
    data = Data(bytes(range(7, 16)))
    entries = [Entry(GOOD, 4, data, 0), Entry(LOST, 3), Entry(DAMAGED, 2, data, 4), Entry(GOOD, 3, data, 6)]

    def around(free):
        return assembled([data, Other(box(b"free", bytes(free))), Segment(1, entries, LAST)])

    near = size - 1000
    return around(near + size - len(around(near)))


def largest():
    most = model.LIMITS["program input"]
    yield File("largest", f"a file of {most} bytes", of_size(most), ([(1, 4), (10, 3)], [(0, 1), (5, 5)]))
    yield File("largest", f"a file of {most + 1} bytes", of_size(most + 1), 27)


def files():
    """All of them, each once."""
    made = {}
    for file in [*of_damage(), *of_sources(), *of_lists(), *refused_shortest(), *largest()]:
        made.setdefault(file.content, file)
    return list(made.values())


# Their buffers.

def rooms(file, turn):
    """For all files a buffer that is exact for the map, whose text is never the shorter one, and one of the others; all
    of them for the paper's."""
    needed, without_names = [len(text_of(file.content)) for text_of in TEXTS]
    if file.kind == "largest":
        return [LARGEST_BUFFER if file.stated != 27 else needed]
    others = [without_names, needed - 1, without_names - 1, needed + 1, 0, without_names + 1, needed + TO_SPARE]
    others = [room for room in dict.fromkeys(others) if room != needed]
    if file.kind == "paper":
        return [needed, *others, LARGEST_BUFFER]
    return [needed, others[turn % len(others)]]


def records():
    made = []
    for turn, file in enumerate(files()):
        made += [Record(f"{file.name}, in {room} bytes", file, room) for room in rooms(file, turn)]
    return made


def encoded(record):
    name, content = record.name.encode("ascii"), record.file.content
    assert len(content) <= LARGEST_FILE and record.room <= LARGEST_BUFFER
    return len(name).to_bytes(2, "big") + len(content).to_bytes(3, "big") + record.room.to_bytes(3, "big") + name + content


# What the program is to write.

def answer(text, room):
    """A text where the buffer holds it; what lies behind it, or else all of the buffer, is as it was."""
    if len(text) > room:
        front, rest = line("refused", BUFFER_TOO_SHORT), room
    else:
        front, rest = line("length", len(text)) + text.decode("ascii"), room - len(text)
    return front + line("kept", rest, "of", rest)


def answers(record):
    return line("=", record.name) + "".join(answer(text_of(record.file.content), record.room) for text_of in TEXTS)


# The command.

def refusal_in(text):
    """The number in the line of a refusal or framing error, the last of a text and alone of two fields; else 0."""
    last = text[text.rfind(b"\n", 0, -1) + 1:].split(b"\t")
    return int(last[1]) if len(last) == 2 else 0


def ranges_in(text, word):
    fields = [one.split(b"\t") for one in text.splitlines() if one.startswith(word)]
    return [(int(first), int(length)) for found, first, length in fields]


def stated_in(text):
    """What a map without names says, in the form in which a file's lists are stated."""
    return refusal_in(text) or (ranges_in(text, b"have"), ranges_in(text, b"miss"))


def named_in(text):
    """The lines of a map in words, but the first and the last."""
    return ", ".join(one.replace("\t", " ") for one in text.decode("ascii").splitlines()[1:-1])


def numbers_of(record):
    """The number that each of the two calls answers with or has in its text."""
    for text_of in TEXTS:
        text = text_of(record.file.content)
        yield refusal_in(text) if len(text) <= record.room else BUFFER_TOO_SHORT


def checked(made):
    """How many answers have each number, 0 for a map; each text says what is stated, and no number is missing."""
    for file in {record.file.name: record.file for record in made}.values():
        assert file.stated in (None, stated_in(model.missmap_text(file.content))), file.name
        assert file.named in (None, named_in(model.map_text(file.content))), file.name
    names = Counter(record.name for record in made)
    assert max(names.values()) == 1, names.most_common(3)
    numbers = Counter(number for record in made for number in numbers_of(record))
    assert set(numbers) == {0, 27, BUFFER_TOO_SHORT} | set(FAULTS), sorted(numbers)
    return numbers


def main():
    made = records()
    return command(CRATE, made, checked(made), encoded, answers, MOST_BYTES)


if __name__ == "__main__":
    raise SystemExit(main())
