"""Checks what the paper promises of salvage, over generated files and by reading alone: what the copy and the lines of the
model say is held against the old file with every box that is dropped made unknown in its place.

usage: python3 tests/salvage_properties.py [--files N] [--seed S]
"""

import argparse
import random
import sys

import model
import model_salvage
import salvage_files
from expecting import close, expect

CONTAINERS = (b"pfil", b"pseg")
# Later boxes of these types are dropped with these numbers.
OF_LATER = {b"ftyp": model.FTYP_FAULT, b"pfil": model.PFIL_FAULT}
# So many segments of a file that are left out, and so many of all, are judged again one by one.
JUDGED = 8


def told_in(text):
    """The places and numbers of the lines."""
    return [tuple(int(field) for field in line.split(b"\t")) for line in text.splitlines()]


def walked(file):
    """The whole boxes of a file, and where they end."""
    boxes = []
    try:
        for box in model.framed(file, 0, len(file)):
            boxes.append(box)
    except model.Refused:
        pass
    return boxes, boxes[-1].end if boxes else 0


# The old file, without what is dropped but with every byte in its place.

def retyped(file, places, kind):
    """The file with another type for the boxes at these places."""
    changed = bytearray(file)
    for place in places:
        changed[place + 4:place + 8] = kind
    return bytes(changed)


def indexes_in(file, boxes):
    """The places of the fidx boxes that pfil and the segments hold, as far as these are framed."""
    found = []
    for container in boxes:
        try:
            found += [part.place for part in model.framed(file, container.body, container.end) if part.kind == b"fidx"] if container.kind in CONTAINERS else []
        except model.Refused:
            pass
    return found


def in_place(file, keeping, kind):
    """The whole boxes of the old file; of the segments and of later ftyp and pfil those that are not kept are of an
    unknown type, or of that of data, in which no run of boxes lies, and no box holds an index."""
    boxes, end = walked(file)
    gone = [box.place for box in boxes[2:] if box.kind in (b"ftyp", b"pfil", b"pseg") and box.place not in keeping]
    return retyped(retyped(file[:end], indexes_in(file, boxes[:2] + [box for box in boxes if box.place in keeping]), b"free"), gone, kind)


# The promises.

def check_lines(name, file, copy, told):
    """Each box that the copy has not is named once, none that it has, and then the error that ended the walk."""
    boxes, end = walked(file)
    dropped = [place for place, number in told if place < end]
    expect(f"{name}: ascending", [place for place, number in told], sorted({place for place, number in told}))
    expect(f"{name}: an error where the walk ended", [place for place, number in told if place >= end], [end] if end < len(file) else [])
    expect(f"{name}: boxes that were there", set(dropped) <= {box.place for box in boxes[2:]})
    numbers = dict(told)
    expect(f"{name}: each pdat is kept", [box.place for box in boxes if box.kind == b"pdat" and box.place in numbers], [])
    expect(f"{name}: later heads", [numbers.get(box.place) for box in boxes[2:] if box.kind in OF_LATER], [OF_LATER[box.kind] for box in boxes[2:] if box.kind in OF_LATER])
    kept = [box for box in boxes if box.place not in dropped]
    expect(f"{name}: the others are kept", [box.kind for box in kept], [box.kind for box in walked(copy)[0]])
    for box, other in zip(kept, walked(copy)[0]):
        check_box(name, file, box, copy, other)


def without_offsets(file, ploc):
    """A ploc whose offsets are all 0, and the offsets of its empty chunks."""
    length_size, offset_size, chunk_count = model.read_ploc_head(file, ploc)
    content, cursor, of_empty = file[ploc.place:ploc.body + 9], ploc.body + 9, []
    for _ in range(chunk_count):
        width = offset_size if file[cursor] & model.PRESENT else 0
        size, end = model.unsigned(file, cursor + 1, length_size), cursor + 1 + length_size + width
        content += file[cursor:end - width] + bytes(width)
        of_empty += [file[end - width:end]] if size == 0 else []
        cursor = end
    return content, of_empty


def check_box(name, file, box, copy, other):
    """A box that is kept says the same but for its size, its index and its offsets."""
    if box.kind not in CONTAINERS:
        expect(f"{name}: {box.kind} byte for byte", copy[other.place:other.end], file[box.place:box.end])
        return
    expect(f"{name}: form of {box.kind}", other.body - other.place, box.body - box.place)
    old = [part for part in model.frame(file, box.body, box.end) if part.kind != b"fidx"]
    new = model.frame(copy, other.body, other.end)
    expect(f"{name}: parts of {box.kind}", [part.kind for part in new], [part.kind for part in old])
    for part, now in zip(old, new):
        if box.kind == b"pseg" and part.kind == b"ploc":
            found, of_empty = without_offsets(copy, now)
            expect(f"{name}: ploc but for its offsets", found, without_offsets(file, part)[0])
            expect(f"{name}: offsets of empty chunks", b"".join(of_empty).strip(b"\0"), b"")
        else:
            expect(f"{name}: {part.kind} in {box.kind}", copy[now.place:now.end], file[part.place:part.end])


def supplied(file, source):
    """Each position that a source supplies, with its byte."""
    found = {}
    for chunk in source.chunks:
        if chunk.state == model.GOOD:
            for at in range(chunk.size):
                found.setdefault(chunk.start + at, file[chunk.place + at])
    return found


def said(file, reading, number):
    """All that a source says, wherever its bytes stand."""
    source = reading.sources[number]
    chunks = [(chunk.segment, chunk.index, chunk.start, chunk.size, chunk.state, file[chunk.place:chunk.place + chunk.size] if chunk.place else b"") for chunk in source.chunks]
    return source.described, source.closed, model.urls_of(file, source.surls), chunks, supplied(file, source)


def check_supplied(name, file, copy, told):
    """The copy is acceptable or has only refusal 12; every source of it supplies what the kept segments did, and no
    more."""
    left_out = {place for place, number in told}
    keeping = {box.place for box in walked(file)[0] if box.kind == b"pseg"} - left_out
    wanted = 0 if keeping else model.NO_PSEG
    expect(f"{name}: acceptable", model.attempt(model.accept, copy)[0], wanted)
    before = in_place(file, keeping, b"free")
    expect(f"{name}: the kept segments alone", model.attempt(model.accept, before)[0], wanted)
    if keeping:
        now, then = model.accept(copy), model.accept(before)
        expect(f"{name}: as many sources", len(now.sources), len(then.sources))
        expect(f"{name}: all that they say", [said(copy, now, number) for number in range(len(now.sources))], [said(before, then, number) for number in range(len(then.sources))])
        expect(f"{name}: rows but for places", [segment[1:5] + segment[6:9] for segment in now.segments], [segment[1:5] + segment[6:9] for segment in then.segments])


def check_judged(name, rng, file, told):
    """Each segment is left out with the number by which reading refuses it beside those that are kept before it, and
    kept where reading takes it. Of a misplaced chunk one of both unknown types would make a right one."""
    psegs, numbers = [box.place for box in walked(file)[0] if box.kind == b"pseg"], dict(told)
    left_out = [place for place in psegs if place in numbers]
    expect(f"{name}: something was wrong with each that is left out", all(numbers[place] for place in left_out))
    for place in rng.sample(psegs, min(len(psegs), JUDGED)) + rng.sample(left_out, min(len(left_out), JUDGED)):
        keeping = {other for other in psegs if other < place and other not in numbers} | {place}
        found = {model.attempt(model.accept, in_place(file, keeping, kind))[0] for kind in (b"free", b"pdat")}
        wanted = numbers.get(place, 0)
        expect(f"{name}: segment at {place}", wanted in found if wanted == model.MAY_NOT_LIE_THERE else found, True if wanted == model.MAY_NOT_LIE_THERE else {wanted})


def check_boxes_of_chunks(name, file, copy, told):
    """A box of another type stays in a mixed file exactly where a good chunk of a kept segment lies in it."""
    numbers = dict(told)
    boxes = [box for box in walked(file)[0][2:] if box.kind not in (b"ftyp", b"pfil", b"pseg", b"pdat")]
    keeping = {box.place for box in walked(file)[0] if box.kind == b"pseg"} - set(numbers)
    chunks = model.accept(in_place(file, keeping, b"free")).chunks if keeping else []
    used = [chunk for chunk in chunks if chunk.state == model.GOOD and chunk.size > 0]
    expect(f"{name}: boxes of chunks", [numbers.get(box.place) for box in boxes],
           [None if any(chunk.place <= box.place < chunk.place + chunk.size for chunk in used) else 0 for box in boxes])


def check_refused(name, file, number, text):
    """A refusal is that of the first two boxes: the framing of both, and then what reading says of them alone."""
    boxes, end = walked(file)
    wanted = model.attempt(model.read_head, file[:boxes[1].end] if len(boxes) > 1 else file)[0]
    expect(f"{name}: refused", (number, text), (wanted, b"refused\t%d\n" % wanted))


def check_file(name, rng, file):
    """All promises on one file; whether it is salvaged."""
    answer, buffer = model_salvage.salvage(file, bytes(len(file)))
    text = model_salvage.salvage_text(file, len(file))
    if answer[0] == "refused":
        check_refused(name, file, answer[1], text)
        return False
    copy, told = buffer[:answer[1]], told_in(text)
    check_lines(name, file, copy, told)
    check_supplied(name, file, copy, told)
    check_judged(name, rng, file, told)
    check_boxes_of_chunks(name, file, copy, told)
    expect(f"{name}: not longer", len(copy) <= len(file))
    expect(f"{name}: an exact buffer, and one too short", [model_salvage.salvage(file, bytes(room))[0] for room in (len(copy), len(copy) - 1)], [answer, ("refused", 33)])
    expect(f"{name}: twice", (model_salvage.salvage(copy, bytes(len(copy))), model_salvage.salvage_text(copy, len(copy))), ((("length", len(copy)), copy), b""))
    return True


def check(rng, files):
    """How many of so many files were salvaged."""
    return sum(check_file(f"spoiled file {number}", rng, salvage_files.salvage_file(rng)) for number in range(files))


def main():
    parser = argparse.ArgumentParser(description=__doc__.split("\n\n")[0])
    parser.add_argument("--files", type=int, default=1_000)
    parser.add_argument("--seed", type=int, default=1)
    given = parser.parse_args()
    print(f"{check(random.Random(given.seed), given.files)} of {given.files} files salvaged")
    return close()


if __name__ == "__main__":
    sys.exit(main())
