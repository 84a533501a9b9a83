"""Holds one run of the corpus of writing, a lent buffer with a file at its front and the calls on it, and has the model
make the calls."""

from collections import namedtuple

import model
from lists_record import chunks

# Of an append, `stated` is the length of the file that it states, `given` the front of its chunk list, which goes on
# with the same numbers again up to `count`, and `flags` all 32 bits of the flags; so does the list of text lengths, of
# which `lengths` is the front, up to `length_count`.
Begin = namedtuple("Begin", "brand url mime")
Append = namedtuple("Append", "stated offset repair flags outside given count data texts lengths length_count", defaults=(b"", (), 0))

# `wanted` has for each call the number of its refusal, 0 where it is to be taken; it is None where only the model says.
Run = namedtuple("Run", "kind name wanted lent file calls")

LARGEST = 65_535
TO_SPARE = 9
LAST = 1
STATES = {"lost": 0, "damaged": 1, "good": 2, "elsewhere": 3}
PRESENT = (1, 2)


# The calls.

def begin(url=b"u", mime=b"", brand=model.PAFF):
    return Begin(brand, url, mime)


def given_list(offset, numbers, data=b"", flags=0, repair=0, stated=None, count=None, outside=False):
    """An append of a chunk list in numbers; a stated length of None is that of the file so far."""
    return Append(stated, offset, repair, flags, outside, tuple(numbers), len(numbers) if count is None else count, data)


def with_texts(call, texts, lengths, count=None):
    """The append with text bytes and a list of their lengths."""
    return call._replace(texts=texts, lengths=tuple(lengths), length_count=len(lengths) if count is None else count)


def to_source(call, *texts):
    """The append with these texts, URL and MIME text by turns."""
    return with_texts(call, b"".join(texts), [len(text) for text in texts])


def outside(offset, *chunks, flags=0, repair=0):
    """An append whose good chunks go outside: bytes are good, a pair is damaged bytes or the size of a chunk that is
    not present."""
    numbers, data = [], b""
    for chunk in chunks:
        state, content = (STATES["good"], chunk) if isinstance(chunk, bytes) else (STATES[chunk[0]], chunk[1])
        numbers += [len(content) if state in PRESENT else content, state]
        data += content if state in PRESENT else b""
    return given_list(offset, numbers, data, flags, repair, outside=True)


def of_arguments(given, stated=None, flags=None):
    """The append of arguments as tests/additions.py makes them, with another stated length or other flags where they
    are given."""
    numbers = tuple(given["chunk_list"])
    return Append(given["stated_length"] if stated is None else stated, given["source_offset"], given["repair_time"],
                  int(given["last"]) if flags is None else flags, given["outside"], numbers, len(numbers), given["data"],
                  given["texts"], tuple(given["lengths"]), len(given["lengths"]))


def data_of(size):
    """So many bytes, near ones of which differ."""
    return bytes((7 * at + at // 256 + 1) % 256 for at in range(size))


def add(offset, words, flags=0, repair=0, stated=None):
    """An append of chunks in words, as "good 4, lost 6", with the data that they need."""
    pairs = [(size, STATES[word]) for word, size in chunks(words)]
    kept = sum(size for size, state in pairs if state in PRESENT)
    return given_list(offset, [number for pair in pairs for number in pair], data_of(kept), flags, repair, stated)


def chunk_list(call):
    return [call.given[at % len(call.given)] for at in range(call.count)]


def text_lengths(call):
    return [call.lengths[at % len(call.lengths)] for at in range(call.length_count)]


# What the model makes of them.

def marked(length):
    return bytes(255 - place % 251 for place in range(length))


def lent_buffer(file, lent):
    return file + marked(lent)[len(file):]


def made(buffer, call):
    """The answer of a call, and the buffer after it."""
    if isinstance(call, Begin):
        return model.begin(buffer, call.brand, call.url, call.mime)
    last = call.flags % 2 == 1
    return model.append(buffer, call.stated, call.offset, call.repair, last, call.outside, chunk_list(call), call.data, call.texts, text_lengths(call))


def length_after(answer, length):
    return answer[1] if answer[0] == "length" else length


def stated_now(call, length):
    """The call with the length of the file, where it states none."""
    return call._replace(stated=length) if isinstance(call, Append) and call.stated is None else call


def performed(file, lent, calls):
    """The calls as they are made, each with its answer and the buffer after it."""
    buffer, length, found = lent_buffer(file, lent), len(file), []
    for call in calls:
        call = stated_now(call, length)
        answer, buffer = made(buffer, call)
        length = length_after(answer, length)
        found.append((call, answer, buffer))
    return found


def longest(file, calls):
    """The length of the longest file that the calls leave in a buffer that holds it."""
    return max([len(file)] + [answer[1] for call, answer, buffer in performed(file, LARGEST, calls) if answer[0] == "length"])


def run(kind, name, calls, wanted=None, file=b"", lent=None, spare=TO_SPARE):
    """A run in a buffer of that length, or of one with bytes to spare behind the longest file."""
    lent = longest(file, calls) + spare if lent is None else lent
    stated = [call for call, answer, buffer in performed(file, lent, calls)]
    return Run(kind, name, wanted, lent, file, stated)
