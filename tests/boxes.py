"""Builds boxes from their fields, in any form that a writer may choose."""


def box(kind, *parts, large=False):
    """A box with the 32-bit form of its size, or the 64-bit form."""
    body = b"".join(parts)
    if large:
        return bytes([0, 0, 0, 1]) + kind + (16 + len(body)).to_bytes(8, "big") + body
    return (8 + len(body)).to_bytes(4, "big") + kind + body


def sized(size, kind=b"free"):
    """The header of a box in the 32-bit form, whatever its size says."""
    return size.to_bytes(4, "big") + kind


def sized_large(size, kind=b"free"):
    """The same in the 64-bit form."""
    return sized(1, kind) + size.to_bytes(8, "big")


def full(version=0, flags=0):
    """The version and flags at the front of a full box."""
    return bytes([version]) + flags.to_bytes(3, "big")


def ftyp(brands=(b"paff",), major=b"paff", minor=0, large=False):
    return box(b"ftyp", major, minor.to_bytes(4, "big"), *brands, large=large)


def pfhd(flags=0, large=False):
    return box(b"pfhd", full(flags=flags), large=large)


def surl(url=b"u", mime=b"", large=False):
    return box(b"surl", full(), url, b"\0", mime, b"\0", large=large)


def bare_head(*parts, brand=b"paff"):
    """The ftyp and pfil that every file begins with, in their plainest form; these boxes of pfil stand at its end."""
    return ftyp([brand], brand) + box(b"pfil", pfhd(), *parts)


def head(url=b"u", mime=b"", brand=b"paff", parts=b""):
    """The same with the surl that begin writes, and other boxes behind it."""
    return bare_head(surl(url, mime), parts, brand=brand)


def version_for(offset):
    """The version of a pshd that holds an offset: 0 where 32 bits do."""
    return 0 if offset < 2 ** 32 else 1


def pshd(offset, flags=0, repair_time=0, version=None, large=False):
    """A pshd of a version, or of that which the offset needs."""
    version = version_for(offset) if version is None else version
    width = 4 if version == 0 else 8
    return box(b"pshd", full(version, flags), offset.to_bytes(width, "big"),
               repair_time.to_bytes(8, "big"), large=large)


def ploc(length_size, offset_size, entries, count=None, reference=0, large=False):
    """A ploc from entries that are bytes already."""
    if count is None:
        count = len(entries)
    return box(b"ploc", full(), bytes([16 * length_size + offset_size]),
               reference.to_bytes(2, "big"), count.to_bytes(2, "big"), *entries, large=large)


def entry(flag_byte, length_size, size, offset_size=0, offset=None):
    """One entry; a chunk that is not present has no offset field, so its offset is None."""
    field = b"" if offset is None else offset.to_bytes(offset_size, "big", signed=True)
    return bytes([flag_byte]) + size.to_bytes(length_size, "big") + field


def bidx(size, kind=b"moov", *parts, large=False):
    """The index of a box; a large size stands in 64 bits, and the user type of a uuid opens the parts."""
    stated = sized_large(size, kind) if large else sized(size, kind)
    return box(b"bidx", stated, *parts)


def fidx(*parts):
    return box(b"fidx", *parts)


def lost_segment(offset, sizes, flags=0, version=None, width=None, flag_byte=0x80, parts=b""):
    """A pseg of chunks that are not present: lost, or by another flag byte held elsewhere. Their sizes have four bytes,
    or more where they need them. Other boxes stand at its end."""
    if width is None:
        width = max([4] + [(size.bit_length() + 7) // 8 for size in sizes])
    entries = [entry(flag_byte, width, size) for size in sizes]
    return box(b"pseg", pshd(offset, flags, version=version), ploc(width, 0, entries), parts)


def open_segment(offset, flags=0, version=None, parts=b""):
    """The shortest pseg there is: one chunk of unknown size. Other boxes stand at its end."""
    return box(b"pseg", pshd(offset, flags, version=version), ploc(0, 0, []), parts)
