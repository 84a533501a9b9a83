"""Models the limits, the refusals, the fields and the framing that every part of the model takes."""

from collections import namedtuple

# Sizes we hold to.

LIMITS = {
    "file": 1_073_741_824,
    "boxes in one container": 512,
    "segments": 64,
    "chunks": 1_024,
    "source": 1_099_511_627_775,
    "sources": 8,
    "program input": 65_536,
}

# Refusal numbers.

FILE_OVER_LIMIT = 1
HEADER_CUT_SHORT = 2
SIZE_FIELD_0 = 3
SIZE_BELOW_HEADER = 4
BOX_ENDS_AFTER_CONTAINER = 5
TOO_MANY_BOXES = 6
FTYP_FAULT = 7
NEITHER_BRAND = 8
PFIL_FAULT = 9
PFHD_FAULT = 10
SURL_FAULT = 11
NO_PSEG = 12
TOO_MANY_SEGMENTS = 13
PSHD_FAULT = 14
NOT_ONE_PLOC = 15
SURL_FAULT_IN_PSEG = 16
PLOC_FAULT = 17
WIDTH_OVER_8 = 18
DATA_REFERENCE = 19
RESERVED_BIT = 20
TOO_MANY_CHUNKS = 22
SOURCE_OVER_LIMIT = 23
MAY_NOT_LIE_THERE = 24
SIZES_DISAGREE = 25
LENT_TABLE_TOO_SHORT = 26
INPUT_OVER_LIMIT = 27
STATED_LENGTH_OVER_BUFFER = 30
LIST_FAULT = 31
BYTES_NOT_AS_LISTED = 32
BUFFER_TOO_SHORT = 33
ZERO_BYTE_IN_TEXT = 34
NOT_TO_GO_OUTSIDE = 35
INDEX_FAULT = 36
NINTH_LEVEL = 37
INDEXES_IN_BOTH = 38
END_NOT_KNOWN = 39
TOO_MANY_SOURCES = 40
NO_SURL = 41

USER_TYPE_LENGTH = 16

Box = namedtuple("Box", "kind place user_type body end")


class Refused(Exception):
    """A refusal, with its number."""

    def __init__(self, number):
        super().__init__(number)
        self.number = number


def refuse_if(fault, number):
    if fault:
        raise Refused(number)


def attempt(step, *given):
    """The refusal number (0 if none) and the value of a step."""
    try:
        return 0, step(*given)
    except Refused as refusal:
        return refusal.number, None


# Fields.

def unsigned(file, place, width):
    """`width` bytes, most significant first; width 0 has value 0."""
    value = 0
    for byte in file[place:place + width]:
        value = 256 * value + byte
    return value


def signed(file, place, width):
    """The same bytes in two's complement."""
    value = unsigned(file, place, width)
    if width > 0 and file[place] >= 0x80:
        value -= 256 ** width
    return value


# Framing.

def frame_box(file, place, end):
    """The box at a place of a container that ends at `end`."""
    header = 8
    refuse_if(end - place < header, HEADER_CUT_SHORT)
    size, kind = unsigned(file, place, 4), file[place + 4:place + 8]
    refuse_if(size == 0, SIZE_FIELD_0)
    if size == 1:
        header = 16
        refuse_if(end - place < header, HEADER_CUT_SHORT)
        size = unsigned(file, place + 8, 8)
    user_type = place + header
    if kind == b"uuid":
        header += USER_TYPE_LENGTH
    refuse_if(size < header, SIZE_BELOW_HEADER)
    refuse_if(place + size > end, BOX_ENDS_AFTER_CONTAINER)
    body = place + header
    return Box(kind, place, file[user_type:body], body, place + size)


def framed(file, place, end):
    """The boxes of one container one by one, from a place to its end or up to the first fault."""
    count = 0
    while place < end:
        refuse_if(count == LIMITS["boxes in one container"], TOO_MANY_BOXES)
        box = frame_box(file, place, end)
        yield box
        count, place = count + 1, box.end


def frame(file, place, end):
    """All boxes of one container."""
    return list(framed(file, place, end))


def of_kind(boxes, kind):
    return [box for box in boxes if box.kind == kind]
