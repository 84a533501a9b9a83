"""Finds the vendor boxes of a file, and those that have no room for their user type, by the model's own walk."""

import model


def containers(file):
    """The file and, where its framing has no fault, each pfil and pseg in it: name, first place and end."""
    yield "file", 0, len(file)
    number, boxes = model.attempt(model.frame, file, 0, len(file))
    for box in [] if number else boxes:
        if box.kind in (b"pfil", b"pseg"):
            yield box.kind.decode(), box.body, box.end


def header_at(file, place):
    """What stands in a header, whatever follows it: the type, the size, and the length of the size and the type."""
    size, kind = model.unsigned(file, place, 4), file[place + 4:place + 8]
    return (kind, model.unsigned(file, place + 8, 8), 16) if size == 1 else (kind, size, 8)


def fault_in(file, place, end):
    """The number and the place of the first fault in the framing of a container; 0 where there is none."""
    try:
        for box in model.framed(file, place, end):
            place = box.end
    except model.Refused as refusal:
        return refusal.number, place
    return 0, end


def faulty_vendors(file):
    """Of each container whose framing breaks off at a uuid: its name, the number, what stands in the header, and how
    many bytes are left."""
    for name, place, end in containers(file):
        number, at = fault_in(file, place, end)
        if number and file[at + 4:min(at + 8, end)] == b"uuid":
            yield name, number, header_at(file, at), end - at


def refused_for_its_size(file):
    """Whether a file is refused with 4 for a uuid whose size holds the header of another type, so that it was no such
    fault before request 1."""
    if model.attempt(model.read_earlier, file)[0] != model.SIZE_BELOW_HEADER:
        return False
    return any(number == model.SIZE_BELOW_HEADER and size >= plain for name, number, (kind, size, plain), left in faulty_vendors(file))
