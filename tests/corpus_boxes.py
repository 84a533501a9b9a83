"""Makes records on the boxes of a file, of pfil and of pseg: framing, heads, and how many boxes there are."""

from boxes import box, ftyp, full, head, open_segment, pfhd, ploc, pshd, sized, sized_large, surl
from record import refused, taken

FREE = box(b"free")
PFIL = box(b"pfil", pfhd(), surl())
SEGMENT = open_segment(7)


FRAMES = [
    (2, "1 byte", b"\0"),
    (2, "7 bytes", bytes(7)),
    (2, "a large size of no byte", sized(1)),
    (2, "a large size of 7 bytes", sized(1) + bytes(7)),
    (3, "size 0", sized(0)),
    (3, "size 0 and 9 bytes more", sized(0) + bytes(9)),
    (3, "a pdat of size 0", sized(0, b"pdat") + b"abc"),
    (3, "size 0 before 1 byte", FREE + sized(0) + b"\0"),
    (4, "size 2", sized(2)),
    (4, "size 7", sized(7)),
    (4, "large size 0", sized_large(0)),
    (4, "large size 8", sized_large(8)),
    (4, "large size 15", sized_large(15)),
    (5, "size 9 of 8", sized(9)),
    (5, "size 4294967295", sized(2 ** 32 - 1)),
    (5, "large size 17 of 16", sized_large(17)),
    (5, "large size 4294967312", sized_large(2 ** 32 + 16)),
    (5, "large size 9223372036854775824", sized_large(2 ** 63 + 16)),
    (5, "large size 18446744073709551615", sized_large(2 ** 64 - 1)),
]


# The number, the size of a uuid, and how many bytes its container has left.
VENDORS = [(3, 0, 24), (4, 2, 24), (4, 7, 8), (4, 8, 8), (4, 8, 40), (4, 16, 16), (4, 20, 8), (4, 20, 20), (4, 20, 40), (4, 23, 23), (4, 23, 24), (5, 24, 8), (5, 24, 9),
           (5, 24, 23), (5, 25, 24), (5, 2 ** 32 - 1, 24)]
LARGE_VENDORS = [(2, 32, 8), (2, 32, 15), (4, 15, 32), (4, 16, 16), (4, 24, 24), (4, 31, 16), (4, 31, 31), (4, 31, 48), (5, 32, 16), (5, 32, 31), (5, 33, 32),
                 (5, 2 ** 64 - 1, 32)]
USER_TYPE = bytes(range(160, 176))


def vendor_frames():
    for form, header, vendors in [("size", sized, VENDORS), ("large size", sized_large, LARGE_VENDORS)]:
        for number, size, left in vendors:
            content = header(size, b"uuid") + USER_TYPE + 2 * FREE
            yield number, f"a uuid of {form} {size} with {left} left", content[:left]


def with_last(content):
    """The three containers, each with the bytes at its end."""
    return [
        ("the file", head() + SEGMENT + content),
        ("pfil", ftyp() + box(b"pfil", pfhd(), surl(), content) + SEGMENT),
        ("a pseg", head() + box(b"pseg", pshd(7), ploc(0, 0, []), content))]


def framing():
    for number, name, content in [*FRAMES, *vendor_frames()]:
        for container, file in with_last(content):
            yield refused(number, f"{name} at the end of {container}", file)
    vendors = [("a uuid of size 24", box(b"uuid", USER_TYPE)), ("a uuid of size 25 and a box", box(b"uuid", USER_TYPE, b"x") + FREE),
               ("a uuid of large size 32", box(b"uuid", USER_TYPE, large=True)),
               ("a uuid of large size 49 and a box", box(b"uuid", USER_TYPE, bytes(17), large=True) + FREE)]
    for name, content in [("size 8", FREE), ("large size 16", sized_large(16)), *vendors]:
        for container, file in with_last(content):
            yield taken(f"{name} at the end of {container}", file)


def files_of_types():
    """Every byte in a type and in a user type."""
    types = b"".join(box(4 * bytes([byte])) for byte in range(256))
    yield taken("a type of each byte", head() + SEGMENT + types)
    user_types = b"".join(box(b"uuid", bytes(range(byte, byte + 16))) for byte in range(0, 256, 16))
    yield taken("user types of each byte", head() + SEGMENT + user_types)


def box_counts():
    for at, held in enumerate([3, 2, 2]):
        container, file = with_last((512 - held) * FREE)[at]
        yield taken(f"512 boxes in {container}", file)
        container, file = with_last((513 - held) * FREE)[at]
        yield refused(6, f"513 boxes in {container}", file)
    in_file = head() + SEGMENT
    yield refused(6, "513th box cut short", in_file + 509 * FREE + b"\0")
    yield refused(3, "box of size 0 before the 513th", in_file + 400 * FREE + sized(0) + 120 * FREE)
    yield refused(6, "513 boxes and no ftyp", 513 * FREE)


def files_of_ftyp():
    rest = PFIL + SEGMENT
    yield refused(7, "an empty file", b"")
    yield refused(7, "a box before ftyp", FREE + head() + SEGMENT)
    yield refused(7, "no ftyp", rest)
    yield refused(7, "two ftyp", head() + SEGMENT + ftyp())
    for length in (0, 4, 7, 9, 10, 11, 13):
        yield refused(7, f"ftyp body of {length} bytes", box(b"ftyp", b"paff\0\0\0\0paffp"[:length]) + rest)
    yield refused(8, "no compatible brand", ftyp([]) + rest)
    yield taken("brand pmff", ftyp([b"pmff"]) + rest)
    yield refused(8, "brands isom and Paff", ftyp([b"isom", b"Paff"]) + rest)
    yield refused(8, "paff across two brands", ftyp([b"\0\0pa", b"ff\0\0"]) + rest)
    yield taken("paff the third brand", ftyp([b"isom", b"pmff", b"paff"]) + rest)
    yield taken("another major brand", ftyp(major=b"isom", minor=2 ** 32 - 1) + rest)
    yield taken("a large ftyp", ftyp(large=True) + rest)


def files_of_pfil():
    yield refused(9, "ftyp only", ftyp())
    yield refused(9, "no pfil", ftyp() + SEGMENT)
    yield refused(9, "a box before pfil", ftyp() + FREE + PFIL + SEGMENT)
    yield refused(9, "two pfil", head() + PFIL + SEGMENT)
    yield refused(9, "another pfil at the end", head() + SEGMENT + box(b"pfil"))
    yield taken("a large pfil", ftyp() + box(b"pfil", pfhd(), surl(), large=True) + SEGMENT)
    yield taken("a pfil in pfil", ftyp() + box(b"pfil", pfhd(), surl(), PFIL) + SEGMENT)


def of_parts(*parts):
    return ftyp() + box(b"pfil", *parts) + SEGMENT


def files_of_pfhd():
    yield refused(10, "an empty pfil", of_parts())
    yield refused(10, "no pfhd", of_parts(surl()))
    yield refused(10, "two pfhd", of_parts(pfhd(), surl(), pfhd()))
    yield refused(10, "two pfhd, one ill-formed", of_parts(pfhd(), box(b"pfhd"), surl()))
    yield refused(10, "pfhd of version 1", of_parts(box(b"pfhd", full(1)), surl()))
    for length in (0, 3, 5, 8):
        yield refused(10, f"pfhd body of {length} bytes", of_parts(box(b"pfhd", bytes(length)), surl()))
    yield taken("pfhd with every flag", of_parts(pfhd(0xFFFFFF), surl()))
    yield taken("a large pfhd behind surl", of_parts(surl(), pfhd(large=True)))
    yield taken("a pfhd in the file", head() + pfhd() + SEGMENT)


SURLS = [
    ("of version 1", full(1) + b"u\0\0"),
    ("with flags 1", full(0, 1) + b"u\0\0"),
    ("of no byte", b""),
    ("cut in its flags", bytes(3)),
    ("of no string", full()),
    ("of one string", full() + b"u\0"),
    ("whose second string is not closed", full() + b"u\0m"),
    ("with a byte after", full() + b"u\0m\0x"),
    ("with a third string", full() + b"u\0m\0\0"),
]


def files_of_surl():
    yield refused(41, "no surl", of_parts(pfhd()))
    yield refused(41, "a surl in the file only", ftyp() + box(b"pfil", pfhd()) + surl() + SEGMENT)
    for name, body in SURLS:
        yield refused(11, f"surl {name}", of_parts(pfhd(), box(b"surl", body)))
        yield refused(11, f"second surl {name}", of_parts(surl(), pfhd(), box(b"surl", body)))
    yield taken("empty texts", of_parts(pfhd(), surl(b"", b"")))
    yield taken("an empty URL", of_parts(pfhd(), surl(b"", b"text/html")))
    yield taken("an empty MIME text", of_parts(pfhd(), surl(b"http://example.org/a", b"")))
    yield taken("texts of any bytes", of_parts(pfhd(), surl(b"\n\xff\x80", b"\x01\x7f\r")))
    yield taken("three surl", of_parts(surl(b"one", b"1"), pfhd(), surl(b"two", b"2"), surl(b"", b"")))
    yield taken("a large surl", of_parts(pfhd(), surl(b"url", b"mime", large=True)))


def files_of_psegs():
    yield refused(12, "only begun", head())
    yield refused(12, "a pseg in pfil only", ftyp() + box(b"pfil", pfhd(), surl(), SEGMENT))
    yield refused(12, "a pdat and no pseg", head() + box(b"pdat", b"abc"))
    yield taken("64 segments", head() + 64 * SEGMENT)
    yield refused(13, "65 segments", head() + 65 * SEGMENT)
    yield refused(13, "65 segments, the last one empty", head() + 64 * SEGMENT + box(b"pseg"))
    yield taken("64 segments, and a pseg in one", head() + 63 * SEGMENT + box(b"pseg", pshd(7), ploc(0, 0, []), SEGMENT))


def records():
    for made in (framing, files_of_types, box_counts, files_of_ftyp, files_of_pfil, files_of_pfhd, files_of_surl, files_of_psegs):
        yield from made()
