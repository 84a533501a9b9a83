"""Claims every byte that map, sources, boxes, rows, index and get print, of files made by hand and generated, spoiled and cut, against
the manual page and the model."""

import os
import random

import generate
import model
from boxes import box, head, lost_segment, open_segment, sized, sized_large
from command_run import claim, claim_held, claim_missing, claim_not_got, damaged, elsewhere, ended, good, lost
from command_wanted import appended, claim_boxes, claim_get, claim_index, claim_map, claim_rows, claim_sources, film_of, number_of, source_count
from corpus import ROOT
from expecting import expect
from foreign import LIMIT, WIDE

SEED = 23_001_140
FOREIGN, SPOILED, CUT = 60, 50, 40
TOP = 2 ** 64 - 1

# The first sample, of which the manual page prints the map: bytes 11 to 14 came for 0 to 3 and 21 to 25 for 2 to 6, so
# 22 and 23 are not served.
SAMPLE_MAP = b"source\t10\tclosed\nhave\t0\t7\nlost\t7\t3\ntotal\t7\t0\t3\n"
SAMPLE_MISSMAP = b"source\t10\tclosed\nhave\t0\t7\nmiss\t7\t3\ntotal\t7\t3\n"
SAMPLE_BOXES = b"0\t20\tftyp\n20\t35\tpfil\n55\t12\tpdat\n67\t54\tpseg\n121\t13\tpdat\n134\t52\tpseg\n"
SEGMENT_HEADING = b"segment\tplace\toffset\tflags\ttime\tchunks\theader\tlength\trepaired\tsource\n"
CHUNK_HEADING = b"segment\tindex\tstart\tsize\tstate\tplace\n"
SAMPLE_ROWS = (b"url\ta\nmime\t\n" + SEGMENT_HEADING + b"0\t67\t0\t1\t0\t2\t83\t16\tunknown\t0\n1\t134\t2\t0\t0\t1\t150\t16\tunknown\t0\n"
               + CHUNK_HEADING + b"0\t0\t0\t4\tgood\t63\n0\t1\t4\t6\tlost\t0\n1\t0\t2\t5\tgood\t129\n")
SAMPLE_BYTES = bytes([11, 12, 13, 14, 23, 24, 25])

# The second, of which it prints both maps. Served are 11 to 16 for 0 to 5, 41 to 43 for 9 to 11 and 22 to 24 for 17 to
# 19; damaged are 17 to 21 for 6 to 10, 31 to 34 for 4 to 7 and 51 and 52 for 13 and 14.
DAMAGED_MAP = (b"source\t20\tclosed\nhave\t0\t6\nheld\t6\t3\nhave\t9\t3\nlost\t12\t1\nheld\t13\t2\nlost\t15\t2\nhave\t17\t3\n"
               b"total\t12\t5\t3\n")
DAMAGED_MISSMAP = b"source\t20\tclosed\nhave\t0\t6\nmiss\t6\t3\nhave\t9\t3\nmiss\t12\t5\nhave\t17\t3\ntotal\t12\t8\n"


def put_sample(command, name):
    with open(os.path.join(ROOT, "samples", name), "rb") as file:
        command.put(name, file.read())


def clerk(command):
    """The example of the manual page, to its end."""
    put_sample(command, "lesson.paff")
    claim("the sample's map", command.run("map", "lesson.paff"), 0, SAMPLE_MAP)
    claim("the sample's map without names", command.run("map", "--missing", "lesson.paff"), 0, SAMPLE_MISSMAP)
    claim("the sample's boxes", command.run("boxes", "lesson.paff"), 0, SAMPLE_BOXES)
    claim("the sample's rows", command.run("rows", "lesson.paff"), 0, SAMPLE_ROWS)
    for first in range(8):
        for length in range(8 - first):
            answer = command.run("get", "lesson.paff", str(first), str(length))
            claim(f"the sample from {first}, {length}", answer, 0, SAMPLE_BYTES[first:first + length])
    claim_missing("the sample, to its end", command.run("get", "lesson.paff", "0", "10"), 7)
    command.put("piece", b"xyz")
    claim("append of what the clerk fetched", command.run("append", "lesson.paff", "--offset", "7", "--good", "piece"), 0)
    claim("the map after that", command.run("map", "lesson.paff"), 0, b"source\t10\tclosed\nhave\t0\t10\ntotal\t10\t0\t0\n")
    claim("the map without names after that", command.run("map", "--missing", "lesson.paff"), 0, b"source\t10\tclosed\nhave\t0\t10\ntotal\t10\t0\n")
    claim("the film after that", command.run("get", "lesson.paff", "0", "10"), 0, SAMPLE_BYTES + b"xyz")


def fitter(command):
    """The example with damage, which is then mended bit by bit."""
    put_sample(command, "damaged.paff")
    claim("the map of the damaged sample", command.run("map", "damaged.paff"), 0, DAMAGED_MAP)
    claim("its map without names", command.run("map", "--missing", "damaged.paff"), 0, DAMAGED_MISSMAP)
    for first, length, content in [(0, 6, bytes(range(11, 17))), (9, 3, bytes([41, 42, 43])), (17, 3, bytes([22, 23, 24]))]:
        claim(f"the damaged sample from {first}", command.run("get", "damaged.paff", str(first), str(length)), 0, content)
    for position in (6, 8, 12, 13, 14, 15, 16):
        claim_missing(f"the damaged sample at {position}", command.run("get", "damaged.paff", str(position), "1"), position)
    for offset, kind, size, ranges in [
            (6, "good", 3, "have 0 12, lost 12 1, held 13 2, lost 15 2, have 17 3, total 15 2 3"), (12, "damaged", 1, "have 0 12, held 12 3, lost 15 2, have 17 3, total 15 3 2"),
            (16, "damaged", 4, "have 0 12, held 12 3, lost 15 1, held 16 1, have 17 3, total 15 4 1"), (12, "good", 5, "have 0 20, total 20 0 0")]:
        command.put("piece", bytes(size))
        claim(f"{kind} at {offset}", command.run("append", "damaged.paff", "--offset", str(offset), "--" + kind, "piece"), 0)
        wanted = b"source\t20\tclosed\n" + ranges.replace(", ", "\n").replace(" ", "\t").encode("ascii") + b"\n"
        claim(f"the map with {kind} at {offset}", command.run("map", "damaged.paff"), 0, wanted)


def missing(command):
    """What cannot be got: lost, damaged, not described, at each end of a range and far above."""
    file = film_of((0, [good(b"abcd"), lost(2), damaged(b"gh"), good(b"ij")]), (20, [lost(5)]))
    command.put("film", file)
    for first, length, position in [
            (0, 5, 4), (3, 2, 4), (4, 1, 4), (5, 5, 5), (6, 1, 6), (7, 3, 7), (8, 3, 10), (10, 1, 10), (10, TOP, 10), (19, 1, 19), (24, 1, 24),
            (25, 1, 25), (26, 9, 26), (0, TOP, 4), (8, TOP, 10), (8, TOP - 8, 10), (2 ** 32, 1, 2 ** 32), (LIMIT, 1, LIMIT), (2 ** 40, 9, 2 ** 40),
            (TOP, 1, TOP), (TOP, TOP, TOP)]:
        claim_missing(f"get {first} {length}", command.run("get", "film", str(first), str(length)), position, 25)
    for first in (0, 4, 6, 25, 26, TOP):
        claim(f"no byte from {first}", command.run("get", "film", str(first), "0"), 0)
    claim("across no gap", command.run("get", "film", "8", "2"), 0, b"ij")
    claim_held("the film after it was read", command, "film", file)
    command.put("spoiled", file + b"\0")
    for first, length in [(0, 0), (0, 4), (4, 1), (TOP, TOP)]:
        claim_not_got(f"get {first} {length} of a refused file", command.run("get", "spoiled", str(first), str(length)), 2, "spoiled")


def whole(command):
    """The film without numbers is all of it, where its end is known; one that is still open is not."""
    for number, (additions, content) in enumerate([
            ([(0, [good(b"abcd")], True)], b"abcd"), ([(0, [good(b"ab")]), (2, [good(b"cd")], True)], b"abcd"), ([(0, [good(b"abcd"), lost(2)], True), (3, [good(b"xyz")])], b"abcdyz")]):
        command.put("film", film_of(*additions))
        claim(f"the whole film, {number}", command.run("get", "film"), 0, content)
    command.put("film", film_of((0, [good(b"abcd"), lost(2)], True)))
    claim_missing("a film with a gap", command.run("get", "film"), 4, 6)
    command.put("film", film_of((0, [good(b"abcd")])))
    claim("an open film", command.run("get", "film"), 1, err=b"paff: film: the end of the film is not known yet: name the first position and the length\n")
    command.put("film", head() + lost_segment(0, [0], flags=1))
    claim("a film of no bytes", command.run("get", "film"), 0)


def outputs(command):
    """A new file with the bytes, never over one that is there, and none where they cannot be had."""
    film = film_of((0, [good(b"abcd"), lost(2)], True), (5, [good(b"z")]))
    command.put("film", film)
    before = sorted(os.listdir(command.folder))
    claim("get --output", command.run("get", "--output", "new", "film", "1", "3"), 0)
    claim_held("the new file", command, "new", b"bcd")
    mask = os.umask(0)
    os.umask(mask)
    expect("who may read it", os.stat(command.path("new")).st_mode & 0o777, 0o666 & ~mask)
    claim("get over it", command.run("get", "--output", "new", "film", "0", "2"), 2, err=b"paff: new: File exists\n")
    claim_held("the file that was there", command, "new", b"bcd")
    command.remove("new")
    os.symlink("nowhere", command.path("new"))
    claim("get over a link to nothing", command.run("get", "film", "0", "2", "--output=new"), 2, err=b"paff: new: File exists\n")
    command.remove("new")
    claim_missing("get of what is missing to a file", command.run("get", "--output", "new", "film"), 4, 6)
    claim("get into a folder that is not there", command.run("get", "--output", "no/new", "film", "0", "2"), 2)
    claim("get of no bytes to a file", command.run("get", "--output", "new", "film", "9", "0"), 0)
    claim_held("a file of no bytes", command, "new", b"")
    command.remove("new")
    command.put("film", film_of((0, [good(b"abcd"), lost(2), good(b"gh")], True), (3, [good(b"wxyz")])))
    claim("get of three parts to a file", command.run("get", "--output", "new", "film"), 0)
    claim_held("a file of three parts", command, "new", b"abcdxygh")
    command.remove("new")
    expect("the folder after that", sorted(os.listdir(command.folder)), before)


def cut_short(command):
    """A film that another program cuts while its bytes are written is what is told, and not standard output; no part of
    a new file is left."""
    size = 3_000_000
    film = film_of((0, [good(bytes(size))], True))
    for turn in range(3):
        command.put("film", film)
        process = command.start("get", "film")
        os.read(process.stdout.fileno(), 1)
        os.truncate(command.path("film"), 5_000)
        answer = ended(process)
        told_so = answer.err in (b"paff: film: It was cut short or could not be read\n", b"paff: a file was cut short or could not be read\n")
        expect(f"get of a film that is cut, {turn}", (answer.status, told_so or answer.err), (2, True))


def texts(command):
    """By hand: a printing character stands as it is, any other byte and the backslash in two digits."""
    for url, mime, shown_url, shown_mime in [
            (b"http://films.example/lesson?a=1&b=~", b"video/mp4", b"http://films.example/lesson?a=1&b=~", b"video/mp4"), (b"", b"", b"", b""),
            (b" \\x41\t\n\r\x01\x1f", b"\x7f\x80\xff\\", rb" \x5cx41\x09\x0a\x0d\x01\x1f", rb"\x7f\x80\xff\x5c"),
            ("f\u00fcr".encode(), b"\xc3", rb"f\xc3\xbcr", rb"\xc3"), (b"%s%n'\"", b"!}", b"%s%n'\"", b"!}")]:
        command.put("film", film_of((0, [lost(1)]), url=url, mime=mime))
        place = 54 + len(url) + len(mime)
        wanted = b"url\t" + shown_url + b"\nmime\t" + shown_mime + b"\n" + SEGMENT_HEADING + b"0\t%d\t0\t0\t0\t1\t%d\t16\tunknown\t0\n" % (place, place + 16)
        wanted += CHUNK_HEADING + b"0\t0\t0\t1\tlost\t0\n"
        claim(f"the texts {url} and {mime}", command.run("rows", "film"), 0, wanted)
    for url, wanted in [(b"http://films.example/a b?c=%20&d=~[1]#e", b"http://films.example/a%20b?c=%20&d=~[1]#e"), ("f\u00fcr".encode(), b"f%C3%BCr"),
                        (b"\x01\x1f !\"<>\\^`{|}~\x7f\x80\xff", b"%01%1F%20!%22%3C%3E%5C%5E%60%7B%7C%7D~%7F%80%FF")]:
        command.put("film", film_of((0, [lost(1)]), url=url, mime=b"a b\xff"))
        expect(f"the percent form of {url}", command.run("rows", "--percent", "film").out.startswith(b"url\t" + wanted + b"\nmime\ta b\\xff\nsegment\t"))
    every = bytes(range(1, 256))
    claim_all("every byte in a text", command, film_of((0, [lost(1)]), url=every, mime=every[::-1]))
    claim_all("long texts", command, film_of((0, [lost(1)]), url=every * 300, mime=b"m" * 70_000))


def states(command):
    """By hand: a chunk of each state in the rows, the map and the bytes that can be got."""
    film = film_of((3, [good(b"ab"), elsewhere(5), damaged(b"hijk"), lost(1)], True))
    command.put("film", film)
    rows = CHUNK_HEADING + b"0\t0\t3\t2\tgood\t63\n0\t1\t5\t5\telsewhere\t0\n0\t2\t10\t4\tdamaged\t65\n0\t3\t14\t1\tlost\t0\n"
    claim("rows of each state", command.run("rows", "film"), 0, b"url\tu\nmime\t\n" + SEGMENT_HEADING + b"0\t69\t3\t1\t0\t4\t85\t16\tunknown\t0\n" + rows)
    claim("the map of each state", command.run("map", "film"), 0,
          b"source\t15\tclosed\nlost\t0\t3\nhave\t3\t2\nlost\t5\t5\nheld\t10\t4\nlost\t14\t1\ntotal\t2\t4\t9\n")
    claim("the map of each state without names", command.run("map", "--missing", "film"), 0, b"source\t15\tclosed\nmiss\t0\t3\nhave\t3\t2\nmiss\t5\t10\ntotal\t2\t13\n")
    for first, length, position in [(5, 1, 5), (9, 2, 9), (3, 3, 5), (14, 1, 14), (2, 3, 2)]:
        claim_missing(f"get {first} {length} of each state", command.run("get", "film", str(first), str(length)), position)
    claim("the good one of each state", command.run("get", "film", "3", "2"), 0, b"ab")
    for name, file in [("foreign", head() + lost_segment(4, [6, 0, 2], flag_byte=0)), ("to the limit", film_of((0, [elsewhere(LIMIT)], True))),
                       ("1,024 of them", film_of((0, [elsewhere(3)] * 1_024))), ("good over it", film_of((0, [elsewhere(9)]), (2, [good(b"cde")]))),
                       ("over a good one", film_of((2, [good(b"cde")]), (0, [elsewhere(9)], True)))]:
        claim_all(f"held elsewhere, {name}", command, file, [(0, 1), (2, 3), (2, 4), (4, 1)])


def vendors(command):
    """By hand: whose a box is, in both forms of its size; types that do not print; and where the boxes break off, which
    one comes last."""
    film = film_of((0, [good(b"abcd"), lost(6)]))
    front = b"0\t20\tftyp\n20\t35\tpfil\n55\t12\tpdat\n67\t54\tpseg\n"
    one, two = bytes.fromhex("00112233445566778899aabbccddeeff"), bytes(range(16))
    between = box(b"uuid", one) + box(b"uuid", two, b"whose", large=True) + box(b"\xa9\n\\~", b"x")
    listed = b"121\t24\tuuid\t00112233445566778899aabbccddeeff\n145\t37\tuuid\t000102030405060708090a0b0c0d0e0f\n182\t9\t\\xa9\\x0a\\~\n"
    command.put("film", film + between)
    claim("boxes of two vendors", command.run("boxes", "film"), 0, front + listed)
    claim("the map beside them", command.run("map", "film"), 0, b"source\t10\topen\nhave\t0\t4\nlost\t4\t6\ntotal\t4\t0\t6\n")
    for tail, number in [
            (b"\0", 2), (sized(0) + between, 3), (sized(23, b"uuid") + one, 4), (sized(20, b"uuid") + one[:12], 4), (sized_large(31, b"uuid") + one, 4),
            (sized(24, b"uuid") + one[:15], 5), (sized_large(32, b"uuid"), 5), (506 * box(b"free"), 6)]:
        command.put("film", film + between + tail)
        more = 505 if number == 6 else 0
        free = b"".join(b"%d\t8\tfree\n" % (191 + 8 * at) for at in range(more))
        claim(f"boxes up to {number}", command.run("boxes", "film"), 1, front + listed + free + b"%d\t%d\n" % (191 + 8 * more, number))
        claim(f"a map refused with {number}", command.run("map", "film"), 1, b"refused\t%d\n" % number)
    command.put("film", box(b"free") + box(b"pfil", b"\0"))
    claim("boxes of what is no film", command.run("boxes", "film"), 0, b"0\t8\tfree\n8\t9\tpfil\n")


def names(command):
    """A file is read whatever its name is."""
    file = film_of((0, [good(b"abcd"), lost(6)]))
    for name in ["--last", "--missing", "--help", "--", "-", "a film", "film\n", b"\xff\\\x1b", "n" * 255, "./film", os.path.join(command.folder, "film")]:
        command.put(name, file)
        claim(f"map of {name!r}", command.run("map", "--", name), 0, b"source\t10\topen\nhave\t0\t4\nlost\t4\t6\ntotal\t4\t0\t6\n")
        claim(f"map --missing of {name!r}", command.run("map", "--missing", "--", name), 0, b"source\t10\topen\nhave\t0\t4\nmiss\t4\t6\ntotal\t4\t6\n")
        claim(f"get of {name!r}", command.run("get", "--", name, "1", "3"), 0, b"bcd")
        claim_missing(f"get too much of {name!r}", command.run("get", "--", name, "1", "4"), 4)


# By the model.

def asked(rng, file, source):
    """Ranges of positions to get: all, those had and missing, across their edges, and some that lie anywhere."""
    if number_of(file):
        return [(0, 0), (rng.randint(0, 60), rng.randint(0, 9))]
    described = model.length(file, source)[1]
    ranges = [(0, min(described, 2_000)), (described, 0), (rng.randint(0, described), rng.randint(0, 9)), (rng.choice([0, TOP]), TOP)]
    listed = model.lists(file, source=source)
    for first, length in rng.sample(listed[1], min(2, len(listed[1]))):
        ranges += [(first, length), (first + rng.randrange(length), 1), (first, length + 1)]
    return ranges + [(first, 1) for first, length in rng.sample(listed[2], min(1, len(listed[2])))]


def claim_all(name, command, file, ranges=(), source=0):
    command.put("film", file)
    claim_map(name, command, "film", file)
    claim_sources(name, command, "film", file)
    claim_boxes(name, command, "film", file)
    claim_rows(name, command, "film", file)
    claim_index(name, command, "film", file)
    for first, length in ranges:
        claim_get(name, command, "film", file, first, length, source)


def refusals(command):
    """Each number that a file can meet but 1, with two files for it."""
    rng = random.Random(SEED)
    for number in sorted(generate.FAULTS):
        for turn in range(2):
            file = generate.faulty_file(rng, number)
            assert number_of(file) == number
            claim_all(f"a file for {number}", command, file, [(0, 1), (0, 0)])


def limits(command):
    """The longest tables and map, and files over 65,536 bytes, which the map program refuses."""
    pairs = [chunk for at in range(512) for chunk in (good(bytes([at % 256])), lost(1))]
    claim_all("1,024 ranges", command, film_of((0, pairs)), [(0, 1), (1_022, 1), (0, 2), (1_023, 1)])
    wide = [chunk for at in range(512) for chunk in (good(bytes([at % 256])), lost(1_000_000_000))]
    claim_all("1,025 ranges in long lines", command, film_of((500_000_000_000, wide, True)), [(500_000_000_000, 1), (501_000_000_001, 2)])
    turns = 8 * [good(b"g"), damaged(b"d")]
    claim_all("1,088 ranges, the most", command, film_of(*[(LIMIT - 100_000 + 1_000 * at, turns) for at in range(64)]), [(LIMIT - 100_000, 1), (LIMIT - 99_999, 1)])
    claim_all("1,024 chunks in 64 segments", command, film_of(*[(at, pairs[:16], False) for at in range(64)]), [(0, 3), (0, 79)])
    twos = [good(bytes([at % 256, at // 256])) for at in range(1_024)]
    claim_all("1,024 good chunks", command, film_of((0, twos)), [(0, 2_048), (1_023, 700), (2_047, 2)])
    claim_all("64 open segments", command, head() + 32 * open_segment(WIDE - 1, 1) + 32 * open_segment(LIMIT, 1), [(LIMIT, 1), (LIMIT - 1, 1), (WIDE, 1)])
    claim_all("512 boxes", command, head() + open_segment(0) + 509 * box(b"free"), [(0, 0)])
    for end in (WIDE - 1, WIDE, WIDE + 1, LIMIT):
        claim_all(f"a film that ends at {end}", command, film_of((end - 3, [good(b"end")], True)), [(end - 3, 3), (end - 1, 2), (end - 2, 1)])
    claim_all("a film past its limit", command, head() + open_segment(LIMIT + 1), [(0, 1)])
    rng = random.Random(SEED + 1)
    long = film_of((0, [good(rng.randbytes(100_000)), lost(9), good(rng.randbytes(66_000))]), (99_000, [good(rng.randbytes(1_100))]))
    claim_all("a film of 167,000 bytes", command, long, [(0, 100_018), (0, 100_000), (100_009, 66_000), (100_009, 65_536), (98_999, 1_010), (0, 1)])
    claim_all("that film, cut", command, long[:-1], [(0, 1)])
    claim_all("65,536 bytes of a film", command, long[:65_536], [(0, 1)])
    taken = appended(film_of((0, [lost(3)]), (0, [damaged(b"abc")])), 1, [good(b"x")])[1]
    claim_all("lost, damaged, and then good", command, taken, [(0, 3), (1, 1), (2, 1)])
    turns = [damaged(b"d") if at % 2 else lost(1) for at in range(1_024)]
    claim_all("1,024 chunks that are lost and damaged in turn, at the limit", command, film_of((LIMIT - 1_024, turns)), [(LIMIT - 1_024, 2)])


def some_files():
    rng = random.Random(SEED + 2)
    for index in range(FOREIGN):
        yield f"foreign {index}", generate.foreign_file(rng)
    for index in range(SPOILED):
        yield f"spoiled {index}", generate.spoil(rng, generate.foreign_file(rng))
    for index in range(CUT):
        file = generate.foreign_file(rng)
        yield f"cut {index}", file[:rng.randrange(len(file))]


def generated(command):
    rng = random.Random(SEED + 3)
    for name, file in some_files():
        source = 0 if number_of(file) else rng.randrange(source_count(file))
        claim_all(name, command, file, asked(rng, file, source), source)


def check(command):
    for part in (clerk, fitter, missing, whole, outputs, cut_short, texts, states, vendors, names, refusals, limits, generated):
        part(command)
