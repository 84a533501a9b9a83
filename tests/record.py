"""Holds one record of the corpus: a file with its name, the refusal that is wanted of it, the room of the lent tables,
and the numbers of the source and of the segment that are asked."""

from collections import namedtuple

# `wanted` is the number of the refusal, 0 if the file is to be taken, None where only the model says. A room of None is
# one to spare.
Record = namedtuple("Record", "name wanted file segment_room chunk_room source segment", defaults=(None, None, 0, 0))


def taken(name, file, segment_room=None, chunk_room=None, source=0, segment=0):
    return Record(name, 0, file, segment_room, chunk_room, source, segment)


def refused(number, name, file, segment_room=None, chunk_room=None):
    return Record(name, number, file, segment_room, chunk_room)
