"""Writes the stream that tests/scale/driver.c reads: blocks of bytes, and calls with what the model says must come of
them.

A record opens with a byte. 0 is a block that the driver holds from then on: its index in a byte, its length, its bytes.
1 to 18 are the calls, in the order of FORMS: a byte that says how memory is lent; the answer; the call's numbers; for
each memory its length in elements, the index of the block that it starts with and of the block that it must start with
afterwards, a byte each, 255 for none; then how many numbers are told, in a byte, and these, none after a refusal. 254
is a block of zeros that is too large to be sent: its index in a byte, its length. 255 ends the stream, with how many
calls it has. Numbers have eight bytes, the least significant first.
"""

import struct
from collections import Counter, namedtuple

# How many numbers and memories a call takes.
Form = namedtuple("Form", "kind numbers memories")
FORMS = {"read": Form(1, 1, 3), "url": Form(2, 0, 1), "mime": Form(3, 0, 1), "serve": Form(4, 2, 3), "ask": Form(5, 2, 3), "list": Form(6, 1, 5),
         "map": Form(7, 1, 2), "begin": Form(8, 1, 3), "append": Form(9, 5, 5), "boxes": Form(10, 1, 2), "missmap": Form(11, 1, 2),
         "heading": Form(12, 0, 1), "index": Form(13, 0, 2), "source_url": Form(14, 1, 1), "source_mime": Form(15, 1, 1), "texts": Form(16, 1, 3),
         "salvage": Form(17, 0, 2), "salvage_lines": Form(18, 1, 2)}
BLOCK, ZEROS, END = 0, 254, 255
# A block from this length on is all zeros, and is not sent.
TOO_LARGE = 1 << 29

# The blocks, by what stands in them.
FILE, SEGMENTS, CHUNKS, HAD, MISSING, TEXT, BEFORE, AFTER, LIST, DATA, URL, MIME, TABLE, TEXTS, LENGTHS, COPY = range(16)
NONE = 255
NAMES = ["file", "segments", "chunks", "had", "missing", "text", "before", "after", "list", "data", "url", "mime", "table", "texts", "lengths", "copy"]

# How memory is lent, as tests/scale/lent.h has it: at an odd address, at none where the length is 0, before a page that
# nobody may touch.
NOWHERE, AT_END = 8, 16
WAYS = [0, 0, NOWHERE, 1, 3 + NOWHERE, 5, 7 + NOWHERE, AT_END, AT_END, AT_END + NOWHERE]

# A memory of so many elements, with the blocks that it starts with before and after.
Memory = namedtuple("Memory", "length before after")


class Shown(Exception):
    """The case that was to be shown has been."""


def packed(numbers):
    return struct.pack("<%dQ" % len(numbers), *numbers)


class Stream:
    """The records of one run, and what they meet: refusals by number, those of salvage by themselves, those that the
    texts of a call state, and the numbers in the lines of salvage."""

    def __init__(self, rng, write, shown=None):
        self.rng = rng
        self.write = write
        self.shown = shown
        self.held = {}
        self.cases = 0
        self.refusals = Counter()
        self.refusals_of_salvage = Counter()
        self.refusals_in_texts = {"map": Counter(), "missmap": Counter(), "boxes": Counter(), "salvage_lines": Counter()}
        self.dropped = Counter()

    def hold(self, block, content):
        """Has the driver hold these bytes, which it may do already."""
        if self.held.get(block) == content:
            return
        self.held[block] = content
        if len(content) < TOO_LARGE:
            self.write(struct.pack("<BBQ", BLOCK, block, len(content)) + content)
        else:
            self.write(struct.pack("<BBQ", ZEROS, block, len(content)))

    def whole(self, block, width=1):
        """The memory that holds a block and nothing else, and must keep it."""
        return Memory(len(self.held[block]) // width, block, block)

    def call(self, name, refusal, numbers, memories, told):
        """A call that the model refuses with a number, or with 0 takes and tells something."""
        form, told = FORMS[name], () if refusal else told
        fields = [field for memory in memories for field in memory]
        layout = "<BBQ" + form.numbers * "Q" + form.memories * "QBB" + "B" + len(told) * "Q"
        how = self.rng.choice(WAYS)
        self.cases += 1
        self.refusals[refusal] += 1
        if name == "salvage":
            self.refusals_of_salvage[refusal] += 1
        if self.cases == self.shown:
            self.show(name, how, refusal, numbers, memories, told)
        self.send(name, refusal, numbers, struct.pack(layout, form.kind, how, refusal, *numbers, *fields, len(told), *told))

    def send(self, name, refusal, numbers, record):
        """Sends the record of a call; a stream for two drivers leaves out those that only one has."""
        self.write(record)

    def show(self, name, how, refusal, numbers, memories, told):
        print(f"case {self.cases}: {name}, lent {how}, numbers {list(numbers)}, wanted {refusal}, told {list(told)}")
        for length, before, after in memories:
            for when, block in (("before", before), ("after", after)):
                content = b"" if block == NONE else self.held[block]
                written = content.hex() if len(content) < TOO_LARGE else "of zeros"
                print(f"    {length} elements, {when}: {'marks' if block == NONE else NAMES[block]} {written}")
        raise Shown

    def end(self):
        self.write(struct.pack("<BQ", END, self.cases))
