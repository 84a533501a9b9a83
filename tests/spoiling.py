"""Spoils a file: cuts, flips, splices, wrong sizes and types, boxes dropped, doubled or swapped, in an index too, and
the texts of sources."""


def boxes_in(file, place, end):
    """Place, end and header length, that of the size and the type, of the boxes in reach, also in pfil, pseg and an
    index."""
    found = []
    while end - place >= 8:
        size, header = int.from_bytes(file[place:place + 4], "big"), 8
        if size == 1 and end - place >= 16:
            size, header = int.from_bytes(file[place + 8:place + 16], "big"), 16
        if size < header or place + size > end:
            break
        found.append((place, place + size, header))
        if file[place + 4:place + 8] in (b"pfil", b"pseg", b"fidx"):
            found += boxes_in(file, place + header, place + size)
        elif file[place + 4:place + 8] == b"bidx":
            found += boxes_in(file, place + header + stated_length(file, place + header), place + size)
        place += size
    return found


def stated_length(file, place):
    """The length of what a bidx states of its box."""
    large, vendor = file[place:place + 4] == bytes([0, 0, 0, 1]), file[place + 4:place + 8] == b"uuid"
    return 8 + (8 if large else 0) + (16 if vendor else 0)


def with_size(file, place, header, size):
    """The file with another value in one size field."""
    if header == 16:
        return file[:place + 8] + (size % 2 ** 64).to_bytes(8, "big") + file[place + 16:]
    return file[:place] + (size % 2 ** 32).to_bytes(4, "big") + file[place + 4:]


def edit(rng, file, first, end, new):
    """Puts new bytes for a range; mostly the sizes of the boxes around it follow."""
    follow = rng.random() < 0.7
    for place, box_end, header in boxes_in(file, 0, len(file)) if follow else []:
        if place + header <= first < box_end and end <= box_end:
            file = with_size(file, place, header, box_end - place + len(new) - (end - first))
    return file[:first] + new + file[end:]


def cut(rng, file):
    return file[:rng.randint(0, len(file))]


def cut_out(rng, file):
    first = rng.randint(0, len(file))
    return edit(rng, file, first, min(len(file), first + rng.randint(1, 9)), b"")


def flip(rng, file):
    if not file:
        return file
    at = rng.randrange(len(file))
    byte = rng.choice([0, 0xFF, rng.randrange(256), file[at] ^ 1 << rng.randrange(8)])
    return file[:at] + bytes([byte]) + file[at + 1:]


def insert(rng, file):
    at = rng.randint(0, len(file))
    return edit(rng, file, at, at, rng.randbytes(1))


def splice(rng, file):
    """Puts a part of the file over, or into, another."""
    first, at = rng.randint(0, len(file)), rng.randint(0, len(file))
    part = file[first:first + rng.randint(1, 40)]
    end = min(len(file), at + rng.choice([0, len(part)]))
    return edit(rng, file, at, end, part)


def resize(rng, file):
    """Sets a size field to a value that is seldom right."""
    boxes = boxes_in(file, 0, len(file))
    if not boxes:
        return insert(rng, file)
    place, end, header = rng.choice(boxes)
    if header == 16 and rng.random() < 0.6:
        return with_size(file, place, 16, rng.choice([0, 15, 16, 31, 32, 2 ** 64 - 1]))
    return with_size(file, place, 8, rng.choice(
        [0, 1, 7, 8, 23, 24, 2 ** 32 - 1, end - place - 1, end - place + 1]))


def retype(rng, file):
    """Makes a vendor's box of another, which mostly has no room for a user type, or another of it."""
    boxes = boxes_in(file, 0, len(file))
    if not boxes:
        return file
    place = rng.choice(boxes)[0]
    kind = b"free" if file[place + 4:place + 8] == b"uuid" else b"uuid"
    return file[:place + 4] + kind + file[place + 8:]


def restate(rng, file):
    """Sets the size that a bidx states to another, or makes a bidx of any box."""
    boxes = boxes_in(file, 0, len(file))
    stating = [(place, end, header) for place, end, header in boxes if file[place + 4:place + 8] == b"bidx" and end - place >= header + 8]
    if not stating:
        place = rng.choice(boxes)[0] if boxes else 0
        return file[:place + 4] + rng.choice([b"bidx", b"fidx", b"frpa"]) + file[place + 8:]
    place, end, header = rng.choice(stating)
    stated = int.from_bytes(file[place + header:place + header + 4], "big")
    size = rng.choice([0, 0, 1, 7, 8, stated + 1, stated - 1, stated + 8, stated - 8, 2 ** 32 - 1])
    return with_size(file, place + header, 8, size)


def relabel(rng, file):
    """Puts a surl into the place of another box, or beside it, mostly of another surl; or makes a text of its shorter or
    longer by a zero byte."""
    boxes = boxes_in(file, 0, len(file))
    labels = [one for one in boxes if file[one[0] + 4:one[0] + 8] == b"surl"]
    if not labels:
        return flip(rng, file)
    place, end, header = rng.choice(labels)
    if rng.random() < 0.3 and end > place + header + 4:
        at = rng.randint(place + header + 4, end - 1)
        return edit(rng, file, at, at + rng.choice([0, 1]), rng.choice([b"\0", b"a", b""]))
    over = rng.choice(labels if rng.random() < 0.5 else boxes)
    return edit(rng, file, over[0], rng.choice(over[:2]), file[place:end])


def drop(rng, file):
    boxes = boxes_in(file, 0, len(file))
    if not boxes:
        return file
    place, end, header = rng.choice(boxes)
    return edit(rng, file, place, end, b"")


def double(rng, file):
    boxes = boxes_in(file, 0, len(file))
    if not boxes:
        return file
    place, end, header = rng.choice(boxes)
    return edit(rng, file, place, place, file[place:end])


def swap(rng, file):
    """Lets two boxes that do not hold one another change places."""
    boxes = sorted(boxes_in(file, 0, len(file)))
    pairs = [(one, two) for one in boxes for two in boxes if one[1] <= two[0]]
    if not pairs:
        return file
    one, two = rng.choice(pairs)
    return (file[:one[0]] + file[two[0]:two[1]] + file[one[1]:two[0]]
            + file[one[0]:one[1]] + file[two[1]:])


SPOILINGS = [cut, cut_out, flip, flip, flip, flip, insert, splice, resize, retype, restate, relabel, relabel, drop, double, swap]


def spoil(rng, file):
    """One to three spoilings."""
    for _ in range(rng.choice([1, 1, 1, 2, 2, 3])):
        file = rng.choice(SPOILINGS)(rng, file)
    return file
