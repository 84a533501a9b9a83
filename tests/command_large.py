"""Claims that a film of 1 GiB is mapped, its boxes listed, got and appended to up to the limit, in little memory, and
that a file over the limit is refused."""

import os
import sys

from boxes import box, entry, ploc, pshd
from command_run import claim, claim_each_refused, claim_held, claim_missing, claim_refused, ended, good, lost
from command_wanted import begun, film_of
from corpus import ROOT
from expecting import expect
from model import PMFF

LIMIT = 1_073_741_824
MOST_KIB = 64 * 1_024
SPARE = 200
BLOCK = 1_048_576
ZEROS = bytes(BLOCK)
MEASURE = os.path.join(ROOT, "tests", "command_measure.py")

FRONT = begun(b"u")
SEGMENT = 8 + 24 + 17 + 1 + 4 + 4
SIZE = LIMIT - SPARE - len(FRONT) - 8 - SEGMENT
MARKS = {0: 1, 1: 255, BLOCK - 1: 7, BLOCK: 8, 536_870_912: 77, SIZE - 3: 3, SIZE - 1: 9}


def make_film(command, name="film"):
    """One chunk of nearly 1 GiB, zeros but for a few bytes; the zeros take no room on the disk."""
    pseg = box(b"pseg", pshd(0), ploc(4, 4, [entry(0x40, 4, SIZE, 4, -SIZE)]))
    assert len(pseg) == SEGMENT
    with open(command.path(name), "wb") as film:
        film.write(FRONT + (8 + SIZE).to_bytes(4, "big") + b"pdat")
        data = film.tell()
        for position, byte in MARKS.items():
            film.seek(data + position)
            film.write(bytes([byte]))
        film.seek(data + SIZE)
        film.write(pseg)
        assert film.tell() == LIMIT - SPARE


def content_of(first, length):
    """The bytes of these positions."""
    content = bytearray(ZEROS[:length] if length <= BLOCK else bytes(length))
    for position, byte in MARKS.items():
        if first <= position < first + length:
            content[position - first] = byte
    return bytes(content)


def measured(command, *arguments, **how):
    """A process of the command that leaves its seconds and its peak memory in the file `measure`."""
    return command.start(*arguments, before=[sys.executable, "-S", MEASURE, command.path("measure")], **how)


def claim_measure(name, command, small=True):
    seconds, peak = command.held("measure").split()
    print(f"  {name}: {seconds.decode()} s")
    print(f"  {name}: peak memory {int(peak) / 1_024:.1f} MiB")
    if small:
        expect(f"{name} in 64 MiB", int(peak) < MOST_KIB or int(peak))


def tail(command, name="film"):
    """The length of the film and what stands behind its first 1 GiB less SPARE."""
    with open(command.path(name), "rb") as film:
        film.seek(LIMIT - SPARE)
        return os.path.getsize(command.path(name)), film.read()


# What is read.

def reading(command):
    answer = ended(measured(command, "map", "film"))
    claim("map of 1 GiB", answer, 0, b"source\t%d\topen\nhave\t0\t%d\ntotal\t%d\t0\t0\n" % (SIZE, SIZE, SIZE))
    claim_measure("map of 1 GiB", command)
    claim("map --missing of 1 GiB", command.run("map", "--missing", "film"), 0, b"source\t%d\topen\nhave\t0\t%d\ntotal\t%d\t0\n" % (SIZE, SIZE, SIZE))
    boxes = b"0\t20\tftyp\n20\t35\tpfil\n55\t%d\tpdat\n%d\t%d\tpseg\n" % (8 + SIZE, 63 + SIZE, SEGMENT)
    claim("boxes of 1 GiB", ended(measured(command, "boxes", "film")), 0, boxes)
    claim_measure("boxes of 1 GiB", command)
    rows = b"url\tu\nmime\t\nsegment\tplace\toffset\tflags\ttime\tchunks\theader\tlength\trepaired\tsource\n0\t%d\t0\t0\t0\t1\t%d\t16\tunknown\t0\n"
    rows += b"segment\tindex\tstart\tsize\tstate\tplace\n0\t0\t0\t%d\tgood\t%d\n"
    place = len(FRONT) + 8
    claim("sources of 1 GiB", ended(measured(command, "sources", "film")), 0, b"0\t%d\topen\t%d\t0\tu\t\n" % (SIZE, SIZE))
    claim_measure("sources of 1 GiB", command)
    claim("rows of 1 GiB", command.run("rows", "film"), 0, rows % (place + SIZE, place + SIZE + 16, SIZE, place))
    for first, length in [(SIZE - 5, 5), (SIZE - 1, 1), (0, 3), (BLOCK - 2, 4), (536_870_910, 5), (SIZE - 2, 1)]:
        claim(f"get {first} {length} of 1 GiB", command.run("get", "film", str(first), str(length)), 0, content_of(first, length))
    claim_missing("get one too many of 1 GiB", command.run("get", "film", str(SIZE - 5), "6"), SIZE)
    claim_missing("get all and one of 1 GiB", command.run("get", "film", "0", str(SIZE + 1)), SIZE)


def get_whole(command):
    """All of it through a pipe, each byte compared as it comes."""
    process = measured(command, "get", "film", "0", str(SIZE))
    at, right = 0, True
    while block := os.read(process.stdout.fileno(), BLOCK):
        right = right and block == content_of(at, len(block))
        at += len(block)
    claim("get of 1 GiB", ended(process), 0)
    expect("every byte of 1 GiB", (at, right), (SIZE, True))
    claim_measure("get of 1 GiB", command, small=False)


# What is added.

def adding(command):
    """A small chunk; then one that is one byte too long, and one that fills the file to the limit."""
    segment = box(b"pseg", pshd(SIZE, repair_time=5), ploc(1, 1, [entry(0x40, 1, 3, 1, -3)]))
    added = box(b"pdat", b"xyz") + segment
    command.put("piece", b"xyz")
    answer = ended(measured(command, "append", "film", "--offset", str(SIZE), "--time", "5", "--good", "piece"))
    claim("append to 1 GiB", answer, 0)
    claim_measure("append to 1 GiB", command)
    expect("what was appended to 1 GiB", tail(command), (LIMIT - SPARE + len(added), added))
    claim("get across what was appended", command.run("get", "film", str(SIZE - 3), "6"), 0, content_of(SIZE - 3, 3) + b"xyz")
    room = SPARE - len(added) - 8 - len(segment)
    for size in (room + 1, room + 2, 3_000_000):
        claim_refused(f"append of {size} where {room} have room", command.append("film", SIZE + 3, [good(b"q" * size)]), 1)
        expect(f"the film after {size}", tail(command), (LIMIT - SPARE + len(added), added))
    claim("append to the limit", command.append("film", SIZE + 3, [good(b"q" * room)]), 0)
    expect("the film at the limit", (tail(command)[0], tail(command)[1].count(b"q")), (LIMIT, room))
    claim("map at the limit", command.run("map", "film"), 0, b"source\t%d\topen\nhave\t0\t%d\ntotal\t%d\t0\t0\n" % (3 * (SIZE + 3 + room,)))
    claim_refused("append beyond the limit", command.append("film", 0, [lost(1)]), 1)
    expect("the zeros of the film take no room", os.stat(command.path("film")).st_blocks * 512 < 4 * BLOCK)


def over_the_limit(command):
    os.truncate(command.path("film"), LIMIT + 1)
    for words in [("map", "film"), ("map", "--missing", "film"), ("map", "--source=0", "film"), ("sources", "film"), ("boxes", "film"), ("rows", "film"), ("index", "film"), ("index", "--tree", "film"), ("get", "film", "0", "1"), ("append", "film", "--offset", "0", "--lost", "1")]:
        claim_each_refused(f"{words[0]} of a file over the limit", command, words, 1)
    expect("the length of that file", os.path.getsize(command.path("film")), LIMIT + 1)
    command.put("far", b"")
    os.truncate(command.path("far"), 2 ** 40)
    for words in [("map", "far"), ("sources", "far"), ("boxes", "far"), ("rows", "far"), ("index", "far"), ("get", "far", "0", "0"), ("append", "far", "--offset", "0", "--lost", "1")]:
        claim_each_refused(f"{words[0]} of a file of 1 TiB", command, words, 1)
    command.remove("far")


def data_over_the_limit(command):
    """Data that no file has room for is refused by its length."""
    file = film_of((0, [good(b"abcd")]))
    command.put("film", file)
    for name, length in [("long", LIMIT), ("half", LIMIT // 2), ("far", 2 ** 40)]:
        command.put(name, b"")
        os.truncate(command.path(name), length)
    for words in ["--good long", "--damaged half --good half", "--good far", "--good far --lost 1 --good far"]:
        claim_refused(f"append {words}", ended(measured(command, "append", "film", "--offset", "0", *words.split())), 1)
        claim_held(f"the film after {words}", command, "film", file)
    claim_measure("append of 2 TiB", command)


def input_over_the_limit(command):
    """Standard input that no file has room for is read up to there, and refused."""
    file = film_of((0, [good(b"abcd")]))
    command.put("film", file)
    command.put("far", b"")
    os.truncate(command.path("far"), LIMIT + 3 * BLOCK)
    with open(command.path("far"), "rb") as far:
        claim_refused("append of standard input over the limit", command.run("append", "film", "--offset", "0", "--good", "-", stdin=far), 1)
        expect("no more of it is taken", far.tell(), LIMIT + 1)
    claim_held("the film after that", command, "film", file)


def boxes_over_the_limit(command):
    """Boxes to go outside that no file has room for: 1 by their length, and 35 where a good chunk is not whole boxes or
    the film not mixed."""
    file = film_of((0, [good(b"abcd")]), brand=PMFF)
    for name, size, length in [("boxes", 600_000_000, 600_000_000), ("cut", 600_000_000, 599_999_999), ("damage", 0, 9)]:
        command.put(name, size.to_bytes(4, "big") + b"mdat")
        os.truncate(command.path(name), length)
    for number, words in [(1, "--good boxes --good boxes"), (35, "--good boxes --good cut"), (35, "--good cut --lost 4 --good boxes"), (1, "--damaged cut --good boxes"),
                          (35, "--good damage --damaged boxes --good boxes"), (1, "--damaged boxes --damaged boxes")]:
        for film, answer in [(file, number), (film_of((0, [good(b"abcd")])), 35 if "--good" in words else 1)]:
            command.put("film", film)
            claim_refused(f"append outside {words}", command.run("append", "film", "--offset", "0", "--outside", *words.split()), answer)
            claim_held(f"the film after {words}", command, "film", film)


def check(command):
    make_film(command)
    for part in (reading, get_whole, adding, over_the_limit, data_over_the_limit, input_over_the_limit, boxes_over_the_limit):
        part(command)
