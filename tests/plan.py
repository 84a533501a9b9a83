"""Holds the plan of a file, whose places are not known yet, and assembles it."""

from boxes import box, full, pshd


class Data:
    """A pdat of the file."""

    count = 1

    def __init__(self, body, large=False):
        self.body = body
        self.large = large
        self.header = 16 if large else 8

    def bytes_at(self, place, places):
        return box(b"pdat", self.body, large=self.large)


class Other:
    """Any other bytes at the level of the file."""

    count = 1

    def __init__(self, content):
        self.content = content

    def bytes_at(self, place, places):
        return self.content


class Whole:
    """Neighbouring boxes of the file, one or several of which a good chunk of a mixed file may be."""

    header = 0

    def __init__(self, boxes):
        self.boxes = boxes
        self.count = len(boxes)

    def edges(self):
        """Where the boxes begin and end, from the first byte on."""
        return [len(b"".join(self.boxes[:number])) for number in range(self.count + 1)]

    def bytes_at(self, place, places):
        return b"".join(self.boxes)


class Entry:
    """A chunk: present ones lie `at` a byte of a Data or a Whole, at a place, or anywhere."""

    def __init__(self, flag_byte, size, data=None, at=0, place=None, wild=0):
        self.flag_byte = flag_byte
        self.size = size
        self.data = data
        self.at = at
        self.place = place
        self.wild = wild

    def offset(self, pseg_place, places):
        """The offset that leads there, None for a wild one."""
        if self.data is not None:
            return places[self.data] + self.data.header + self.at - pseg_place
        if self.place is not None:
            return self.place - pseg_place
        return None

    def bytes_at(self, length_size, offset_size, offset):
        size = (self.size % 256 ** length_size).to_bytes(length_size, "big")
        if not self.flag_byte & 0x40:
            return bytes([self.flag_byte]) + size
        if offset is None:
            offset = self.wild
        field = (offset % 256 ** offset_size).to_bytes(offset_size, "big")
        return bytes([self.flag_byte]) + size + field


class Segment:
    """A pseg, with every field and every place where a fault can be put."""

    count = 1

    def __init__(self, offset, entries, flags=0, version=0):
        self.offset = offset
        self.entries = entries
        self.flags = flags
        self.version = version
        self.repair_time = 0
        self.length_size = 0
        self.offset_size = 0
        self.reference = 0
        self.large = self.pshd_large = self.ploc_large = False
        self.first, self.between, self.after = [], [], []
        self.pshd_body = None
        self.ploc_front = full()
        self.ploc_body = None
        self.ploc_count = 1
        self.more_count = 0
        self.widths = None
        self.tail = b""

    def end(self):
        return self.offset + sum(entry.size for entry in self.entries)

    def is_open(self):
        return not self.entries

    def widen(self, pseg_place, places):
        """Makes both widths hold what they must; whether that changed any."""
        widths = (self.length_size, self.offset_size)
        for entry in self.entries:
            while entry.size >= 256 ** self.length_size:
                self.length_size += 1
            offset = entry.offset(pseg_place, places)
            while offset is not None and not in_reach(offset, self.offset_size):
                self.offset_size += 1
        return widths != (self.length_size, self.offset_size)

    def width_byte(self):
        length_size, offset_size = self.widths or (self.length_size, self.offset_size)
        return 16 * length_size + offset_size

    def pshd(self):
        if self.pshd_body is not None:
            return box(b"pshd", self.pshd_body, large=self.pshd_large)
        return pshd(self.offset, self.flags, self.repair_time, self.version or None, self.pshd_large)

    def ploc(self, pseg_place, places):
        if self.ploc_body is not None:
            return box(b"ploc", self.ploc_body, large=self.ploc_large)
        head = self.ploc_front + bytes([self.width_byte()])
        head += self.reference.to_bytes(2, "big")
        head += (len(self.entries) + self.more_count).to_bytes(2, "big")
        for entry in self.entries:
            offset = entry.offset(pseg_place, places)
            head += entry.bytes_at(self.length_size, self.offset_size, offset)
        return box(b"ploc", head, self.tail, large=self.ploc_large)

    def bytes_at(self, place, places):
        plocs = self.ploc_count * [self.ploc(place, places)]
        return box(b"pseg", *self.first, self.pshd(), *self.between, *plocs, *self.after,
                   large=self.large)


def in_reach(offset, width):
    """Whether an offset fits `width` bytes of two's complement."""
    return -(256 ** width) <= 2 * offset < 256 ** width


class Plan:
    """A file: ftyp, pfil and its parts, then the items in their order."""

    def __init__(self, ftyp, pfil_parts, items, pfil_large=False, mixed=False):
        self.ftyp = ftyp
        self.pfil_parts = pfil_parts
        self.pfil_large = pfil_large
        self.mixed = mixed
        self.items = items
        self.tail = b""

    def segments(self):
        return [item for item in self.items if isinstance(item, Segment)]

    def datas(self):
        return [item for item in self.items if isinstance(item, Data)]

    def wholes(self):
        return [item for item in self.items if isinstance(item, Whole)]

    def box_count(self):
        """How many boxes the file has, ftyp and pfil among them."""
        return 2 + sum(item.count for item in self.items)

    def pfil(self):
        return box(b"pfil", *self.pfil_parts, large=self.pfil_large)

    def places(self, guess):
        """The place of each item, as lengths do not depend on places."""
        places, place = {}, len(self.ftyp) + len(self.pfil())
        for item in self.items:
            places[item] = place
            place += len(item.bytes_at(place, guess))
        return places

    def assemble(self):
        """The bytes of the file, widths made large enough first."""
        places = self.places({item: 0 for item in self.items})
        while any([segment.widen(places[segment], places) for segment in self.segments()]):
            places = self.places(places)
        items = [item.bytes_at(places[item], places) for item in self.items]
        return self.ftyp + self.pfil() + b"".join(items) + self.tail
