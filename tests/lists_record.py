"""Holds one record of the corpus of lists: a file with its name, what is wanted of it, the room of what is lent, the
positions to ask, and the source that is asked of."""

from collections import namedtuple

from boxes import ftyp, pfhd, surl
from foreign import DAMAGED, ELSEWHERE, GOOD, LOST
from plan import Data, Entry, Plan, Segment

# `wanted` is the number of the refusal, the pair of lists, or None where only the model says. A room of None is one to
# spare, and positions of None are those that `lists.py` chooses.
Record = namedtuple("Record", "kind name wanted file rooms positions source", defaults=((None, None, None, None), None, 0))

STATES = {"good": GOOD, "damaged": DAMAGED, "lost": LOST, "elsewhere": ELSEWHERE}
PRESENT = ("good", "damaged")


def listed(kind, name, file, had, missing, rooms=(None, None, None, None), positions=None, source=0):
    return Record(kind, name, (had, missing), file, rooms, positions, source)


def refused(kind, number, name, file, rooms=(None, None, None, None), positions=None):
    return Record(kind, name, number, file, rooms, positions)


def chunks(words):
    """The states and sizes of "good 4, lost 6"."""
    return [(word.split()[0], int(word.split()[1])) for word in words.split(",") if word.strip()]


def segment(number, offset, words, flags=0, urls=()):
    """A pdat that holds all that is present, each byte its own, and the segment, with these URLs behind its ploc."""
    given = chunks(words)
    kept = sum(size for state, size in given if state in PRESENT)
    data = Data(bytes((61 * number + 7 * at + 1) % 256 for at in range(kept)))
    entries, at = [], 0
    for state, size in given:
        entries.append(Entry(STATES[state], size, data if state in PRESENT else None, at))
        at += size if state in PRESENT else 0
    made = Segment(offset, entries, flags)
    made.after = [surl(url) for url in urls]
    return [data, made] if any(state in PRESENT for state, size in given) else [made]


def assembled(items, brand=b"paff"):
    return Plan(ftyp([brand]), [pfhd(), surl()], items).assemble()


def file_of(*segments):
    """A file of segments, each an offset, its chunks in words (none: open), and its flags and URLs where it has any."""
    items = []
    for number, given in enumerate(segments):
        items += segment(number, *given)
    return assembled(items)
