"""Makes the cases on files, texts and data of as many bytes as a file may have, or one more; all their bytes are 0, so
that they need not be sent."""

import additions
import model
from boxes import head
from scale_reading import file_cases
from scale_salvaging import salvage_cases
from scale_writing import append_case, begin_case
from writes_run import Append, Begin

MOST = model.LIMITS["file"]
# The bytes of a surl with a URL of one byte.
SURL = 15


def data_to_end_at(end):
    """The data with which a file that is begun ends there, all in one chunk, whose size and offset take four bytes
    each."""
    without = len(head()) + additions.added_length(0, [MOST, 2], b"") + 4
    return bytes(end - without)


def salvage_cases_of_largest(stream, rng):
    for length in (MOST, MOST + 1):
        salvage_cases(stream, rng, bytes(length))


def largest_cases(stream, rng):
    for length in (MOST, MOST + 1):
        zeros = bytes(length)
        file_cases(stream, rng, zeros)
        append_case(stream, zeros, Append(length, 0, 0, 0, False, (), 0, b""), length)
        begin_case(stream, Begin(model.PMFF, b"u", zeros), 99)
        data = data_to_end_at(length)
        append_case(stream, head(), Append(len(head()), 0, 0, 1, False, (len(data), 2), 2, data), 4_000)
        data = data_to_end_at(length - SURL)
        append_case(stream, head(), Append(len(head()), 0, 0, 1, False, (len(data), 2), 2, data, b"a", (1, 0), 2), 4_000)
        append_case(stream, head(), Append(len(head()), 0, 0, 1, False, (), 0, b"", zeros, (length, 0), 2), 4_000)
