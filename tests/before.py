"""Says of a call whether a request changed its answer: by the model as it is, and by the model with the rule that held
before the request."""

import struct
from unittest.mock import patch

import model
import vendors

# The model's own reading, without what it may remember of a file.
READ = model.read_earlier
STATE_OF = model.state_of
READ_SURLS = model.read_surls
# What a chunk neither corrupted nor present was refused with before request 4.
NEITHER_BIT = 21
# The highest source position or end before request 5.
HIGHEST_BEFORE = 4_294_967_295
# The refusals of an index.
OF_AN_INDEX = range(36, 40)


def number_of(file):
    """The number that a file is refused with; 0 where append takes it."""
    return model.attempt(READ, file)[0]


def refused_with(call, old, before, numbers):
    """Whether the call's file was refused with one of these numbers, which the old answer tells, and is not any more. A
    map has its number in its text."""
    told = call.name in ("map", "missmap") or old == before
    return told and before in numbers and number_of(call.file) != before


def by_vendors(call, old):
    """Request 1: a uuid without room for its user type."""
    return vendors.refused_for_its_size(call.file)


def by_mixed_files(call, old):
    """Request 2: a file with the brand of mixed files, refused with 8 or 24."""
    with patch.object(model, "PMFF", None):
        before = number_of(call.file)
    return refused_with(call, old, before, {model.NEITHER_BRAND, model.MAY_NOT_LIE_THERE})


def state_or_neither(flag_byte):
    state = STATE_OF(flag_byte)
    model.refuse_if(state == model.ELSEWHERE, NEITHER_BIT)
    return state


def numbers_in(packed):
    return struct.unpack("<%dQ" % (len(packed) // 8), packed)


def wants_elsewhere(chunk_list):
    """Whether a chunk list is right and has a chunk held elsewhere."""
    return len(chunk_list) % 2 == 0 and 0 not in chunk_list[0::2] and max(chunk_list[1::2], default=0) == model.ELSEWHERE


def by_elsewhere(call, old):
    """Request 4: a file with a chunk held elsewhere, refused with 21, or such a chunk in the list of an append, refused
    with 31."""
    with patch.object(model, "state_of", state_or_neither):
        before = number_of(call.file)
    if call.name == "append" and before == 0 and old == model.LIST_FAULT:
        return wants_elsewhere(numbers_in(call.packed_list))
    return refused_with(call, old, before, {NEITHER_BIT})


def end_of(call):
    """Where the chunks of an append would end in the source."""
    return call.numbers[1] + sum(numbers_in(call.packed_list)[0::2])


def by_longer_recordings(call, old):
    """Request 5: a file with a source offset or end over the limit before, or an append to one, refused with 23."""
    with patch.dict(model.LIMITS, source=HIGHEST_BEFORE):
        before = number_of(call.file)
    if call.name == "append" and before == 0 and old == model.SOURCE_OVER_LIMIT:
        return end_of(call) > HIGHEST_BEFORE
    return refused_with(call, old, before, {model.SOURCE_OVER_LIMIT})


def by_names(call, old):
    """Request 6: the map of an accepted file. Its total line has one number more, so that its text is longer, and is
    another wherever the old one was written."""
    return call.name == "map" and old == 0 and len(call.file) <= call.numbers[0] and model.attempt(model.accept, call.file)[0] == 0


def no_index(file, boxes, starts, sizes):
    return [[] for start in starts]


def by_index(call, old):
    """Request 7: a file that is refused with 36 to 39 and was not refused before, or an append whose result would be. A
    map tells its number in its text, which is written unless there is no room for the old text nor for the new one."""
    with patch.object(model, "indexed_boxes", no_index):
        before = number_of(call.file)
    if before != 0:
        return False
    if call.name in ("map", "missmap"):
        number = model.attempt(model.accept, call.file)[0]
        return number in OF_AN_INDEX and len(call.file) <= call.numbers[0] and 0 in (old, call.answer)
    return call.answer in OF_AN_INDEX


def surls_of_one_source(file, parts, number):
    """Some surl in pfil, and none in a segment."""
    found = model.of_kind(parts, b"surl")
    model.refuse_if(bool(found) != (number == model.SURL_FAULT), number)
    return READ_SURLS(file, parts, number)


def by_sources(call, old):
    """Request 8: a file without a surl in pfil, refused with 11, or with one in a segment, refused with 16."""
    with patch.object(model, "read_surls", surls_of_one_source):
        before = number_of(call.file)
    return refused_with(call, old, before, {model.SURL_FAULT, model.SURL_FAULT_IN_PSEG})


# Of each request that changes answers, whether it may change that of a call from the old one; and those that change it
# exactly then.
CHANGES = {1: by_vendors, 2: by_mixed_files, 4: by_elsewhere, 5: by_longer_recordings, 6: by_names, 7: by_index, 8: by_sources}
EXACT = {6, 7}
