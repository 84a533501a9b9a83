"""Claims what index prints, line by line for a program and as a tree for a person, of indexes made by hand and by
chance, and what their refusals do to every subcommand."""

import os
import random

import generate
import model
import sample_index
from boxes import bidx, box, fidx
from command_large import SEGMENT, SIZE, claim_measure, make_film, measured
from command_run import claim, claim_each_refused, claim_held, claim_refused, damaged, elsewhere, ended, good, lost
from command_wanted import appended, begun, claim_get, claim_index, claim_map, claim_rows, film_of, number_of, source_count
from corpus import ROOT
from expecting import expect
from film_boxes import with_index
from foreign import LIMIT

SEED = 23_001_144
BY_CHANCE = 80

# The sample, of which README.md prints the tree: fifteen boxes of a film, whose bytes from 400 on are lost.
ROWS = (b"1\t0\t16\tftyp\tall\n1\t16\t76\tmoov\tall\n2\t24\t20\tmvhd\tall\n2\t44\t48\ttrak\tall\n3\t52\t16\ttkhd\tall\n3\t68\t24\tmdia\tall\n1\t92\t24\tmoof\tall\n"
        b"2\t100\t16\tmfhd\tall\n1\t116\t128\tmdat\tall\n1\t244\t24\tmoof\tall\n2\t252\t16\tmfhd\tall\n1\t268\t208\tmdat\tsome\n1\t476\t24\tmoof\tnone\n2\t484\t16\tmfhd\tnone\n"
        b"1\t500\t168\tmdat\tnone\n")
TREE = b"""\
  box       place  size
  ftyp          0    16  all
  moov         16    76  all
    mvhd       24    20  all
    trak       44    48  all
      tkhd     52    16  all
      mdia     68    24  all
  moof         92    24  all
    mfhd      100    16  all
  mdat        116   128  all
  moof        244    24  all
    mfhd      252    16  all
% mdat        268   208  some
- moof        476    24  none
-   mfhd      484    16  none
- mdat        500   168  none
15 boxes: 11 whole, 1 in part, 3 missing
"""


def in_pfil(file, index):
    """A file with an index in `pfil`, whatever it says: the chunks are told from their segment on, and so stay right."""
    return with_index(file, b"pfil", index)


def indexed(index, *additions):
    """A file begun, with an index, and the taken additions, each as film_of takes it."""
    file = in_pfil(begun(b"u"), index)
    for addition in additions:
        number, file = appended(file, *addition)
        assert number == 0, (addition, number)
    return file


def sample(command):
    """By hand: the sample as it is, and after the second scene was fetched."""
    with open(os.path.join(ROOT, "samples", "index.paff"), "rb") as file:
        content = file.read()
    expect("the sample is the one that is made", content, sample_index.sample())
    command.put("film", content)
    claim("the sample's index", command.run("index", "film"), 0, ROWS)
    claim("the sample's tree", command.run("index", "--tree", "film"), 0, TREE)
    claim("the tree by its option last", command.run("index", "film", "--tree"), 0, TREE)
    claim_held("the sample after that", command, "film", content)
    claim("append of a scene", command.append("film", 400, [good(bytes(76))]), 0)
    claim("its box is whole", command.run("index", "film"), 0, ROWS.replace(b"some", b"all"))
    tree = TREE.replace(b"% mdat        268   208  some", b"  mdat        268   208  all").replace(b"11 whole, 1 in part", b"12 whole, 0 in part")
    claim("its line in the tree", command.run("index", "--tree", "film"), 0, tree)


def states(command):
    """By hand: damaged, elsewhere and past the described length are not served; a box over the end of a range is there
    in part."""
    index = fidx(*[bidx(10, b"%c   " % letter) for letter in b"abcdefg"])
    command.put("film", indexed(index, (0, [good(bytes(10)), damaged(bytes(10)), elsewhere(10), lost(9), good(bytes(12))])))
    claim("a box of each state", command.run("index", "film"), 0,
          b"1\t0\t10\ta   \tall\n1\t10\t10\tb   \tnone\n1\t20\t10\tc   \tnone\n1\t30\t10\td   \tsome\n1\t40\t10\te   \tall\n1\t50\t10\tf   \tsome\n1\t60\t10\tg   \tnone\n")
    command.put("film", indexed(fidx(bidx(8, b"free")), (0, [good(bytes(8))])))
    claim("a single box", command.run("index", "--tree", "film"), 0, b"  box   place  size\n  free      0     8  all\n1 box: 1 whole, 0 in part, 0 missing\n")


def types(command):
    """By hand: each byte of a type that does not print in two digits, a backslash as it is, and the tree as wide as the
    widest; both forms of a size, and a user type, which is not shown."""
    command.put("film", indexed(fidx(bidx(60, b"\xa9nam", bidx(52, b"\0\t\n\x7f", bidx(44, b"\\x41"))), bidx(24, b"uuid", bytes(16)),
                                     bidx(2 ** 32 + 16, b" ~\x80\xff", large=True), bidx(1_000, b"\x1b[2J")), (0, [good(bytes(70))]), (2 ** 32 + 100, [good(bytes(1_000))])))
    claim("types that do not print", command.run("index", "film"), 0,
          b"1\t0\t60\t\\xa9nam\tall\n2\t8\t52\t\\x00\\x09\\x0a\\x7f\tall\n3\t16\t44\t\\x41\tall\n1\t60\t24\tuuid\tsome\n1\t84\t4294967312\t ~\\x80\\xff\tnone\n1\t4294967396\t1000\t\\x1b[2J\tall\n")
    claim("types that do not print, as a tree", command.run("index", "--tree", "film"), 0, b"""\
  box                         place           size
  \\xa9nam                         0             60  all
    \\x00\\x09\\x0a\\x7f              8             52  all
      \\x41                       16             44  all
% uuid                           60             24  some
-  ~\\x80\\xff                     84  4,294,967,312  none
  \\x1b[2J             4,294,967,396          1,000  all
6 boxes: 4 whole, 1 in part, 1 missing
""")


def without(command):
    """No index, or one that tells of no box: nothing is printed, and the tree says so."""
    for name, file in [("no index", film_of((0, [good(b"abcd")]))), ("an empty index", indexed(fidx(), (0, [lost(1)]))),
                       ("an index without boxes", indexed(fidx(box(b"free"), box(b"dint", b"sum"), box(b"frpa", b"front")), (0, [lost(1)]))),
                       ("a box beside an index", indexed(bidx(8, b"free"), (0, [lost(1)]))), ("an empty index in a segment", with_index(film_of((0, [lost(1)])), b"pseg", fidx()))]:
        command.put("film", file)
        claim(f"{name}", command.run("index", "film"), 0)
        claim(f"{name}, as a tree", command.run("index", "--tree", "film"), 0, err=b"paff: film: no box is indexed\n")
    command.put("film", begun(b"u"))
    claim_refused("a file that was only begun", command.run("index", "film"), 12)


def nested(levels):
    """An index of one box in another, so many levels deep; the innermost has eight bytes."""
    index = b""
    for level in range(levels, 0, -1):
        index = bidx(8 * (levels + 1 - level), b"lev%d" % level, index)
    return fidx(index)


def levels(command):
    """By hand: eight levels, each farther in; a ninth is refused."""
    command.put("film", indexed(nested(8), (0, [good(bytes(56)), lost(8)], True)))
    claim("eight levels", command.run("index", "film"), 0, b"".join(b"%d\t%d\t%d\tlev%d\t%s\n" % (n, 8 * (n - 1), 8 * (9 - n), n, b"none" if n == 8 else b"some") for n in range(1, 9)))
    tree = b"  box                 place  size\n" + b"".join(
        b"%s %-18s  %5d  %4d  %s\n" % (b"-" if n == 8 else b"%", 2 * (n - 1) * b" " + b"lev%d" % n, 8 * (n - 1), 8 * (9 - n), b"none" if n == 8 else b"some") for n in range(1, 9))
    claim("eight levels as a tree", command.run("index", "--tree", "film"), 0, tree + b"8 boxes: 0 whole, 7 in part, 1 missing\n")
    command.put("film", in_pfil(film_of((0, [lost(1)])), nested(9)))
    claim_refused("a ninth level", command.run("index", "film"), 37)


def refusals(command):
    """By hand: each refusal of an index is the answer of every subcommand but `boxes`, and `append` changes nothing."""
    film = film_of((0, [good(b"abcd"), lost(60)]))
    for name, number, file in [
            ("a framing fault", 36, in_pfil(film, fidx(b"\0"))), ("a cut field", 36, in_pfil(film, fidx(box(b"bidx", bytes(7))))), ("a size under its header", 36, in_pfil(film, fidx(bidx(7, b"free")))),
            ("size 0 not last", 36, in_pfil(film, fidx(bidx(0, b"free"), bidx(8, b"free")))), ("inner boxes that do not fill", 36, in_pfil(film, fidx(bidx(20, b"moov", bidx(8, b"free"))))),
            ("a second index", 36, in_pfil(in_pfil(film, fidx()), fidx())), ("an end over the limit", 36, in_pfil(film, fidx(bidx(LIMIT + 1, b"mdat", large=True)))),
            ("a second front part", 36, in_pfil(film, fidx(bidx(20, b"meta", box(b"frpa"), box(b"frpa"))))),
            ("a ninth level", 37, in_pfil(film, nested(9))), ("indexes in both", 38, with_index(in_pfil(film, fidx()), b"pseg", fidx())), ("an end that is not known", 39, in_pfil(film, fidx(bidx(0, b"mdat"))))]:
        assert number_of(file) == number, name
        command.put("film", file)
        for words in [("index", "film"), ("index", "--tree", "film"), ("map", "film"), ("map", "--missing", "film"), ("sources", "film"), ("rows", "film"), ("get", "film", "0", "1"),
                      ("append", "film", "--offset", "0", "--lost", "1")]:
            claim_each_refused(f"{name}, {words[0]}", command, words, number)
        expect(f"{name}, boxes", command.run("boxes", "film").status, 0)
        info = command.run("info", "--json", "film")
        expect(f"{name}, info", (info.status, b'"state":"refused"' in info.out and b'"refused":%d,' % number in info.out or info.out), (1, True))
        claim_held(f"the film after that, {name}", command, "film", file)


def additions(command):
    """A file that was only begun has its index judged by what is appended: a size of 0 needs an end, and a header's
    room."""
    file = in_pfil(begun(b"u"), fidx(bidx(16, b"ftyp"), bidx(0, b"mdat")))
    command.put("film", file)
    for name, number, chunks, last in [("no end", 39, [good(bytes(40))], False), ("an end inside the header", 36, [good(bytes(23))], True), ("an end before it", 36, [good(bytes(10))], True)]:
        claim_refused(f"append with {name}", command.append("film", 0, chunks, last), number)
        claim_held(f"the film after {name}", command, "film", file)
    claim("append with the end", command.append("film", 0, [good(bytes(20)), lost(20)], True), 0)
    claim("the index after that", command.run("index", "film"), 0, b"1\t0\t16\tftyp\tall\n1\t16\t24\tmdat\tsome\n")
    claim("append of the rest", command.append("film", 20, [good(bytes(20))]), 0)
    claim("the index after the rest", command.run("index", "film"), 0, b"1\t0\t16\tftyp\tall\n1\t16\t24\tmdat\tall\n")
    for number, index in [(36, fidx(bidx(7, b"free"))), (37, nested(9))]:
        command.put("film", in_pfil(begun(b"u"), index))
        claim_refused(f"append to an index with {number}", command.append("film", 0, [good(bytes(80))], True), number)


# By the model.

def generated(command):
    rng = random.Random(SEED)
    for number in range(BY_CHANCE):
        file = generate.indexed_file(rng)
        command.put("film", file)
        claim_index(f"an index by chance, {number}", command, "film", file)
        spoiled = generate.spoil(rng, file)
        command.put("film", spoiled)
        claim_index(f"an index spoiled, {number}", command, "film", spoiled)
        claim_map(f"an index spoiled, {number}", command, "film", spoiled)


# An index that is none.

def unindexed(file):
    """The file with each index of its `pfil` and its segments called `free`, so that it has none; all places stay."""
    renamed = bytearray(file)
    for container in model.frame(file, 0, len(file)):
        if container.kind in (b"pfil", b"pseg"):
            for index in model.of_kind(model.frame(file, container.body, container.end), b"fidx"):
                renamed[index.place + 4:index.place + 8] = b"free"
    return bytes(renamed)


def told_of(command, file):
    """What is told of a file: its rows, both maps, its sources, and the bytes of the first ranges of the last one."""
    command.put("film", file)
    last = source_count(file) - 1
    ranges = [tuple(map(str, first_and_length)) for first_and_length in model.lists(file, source=last)[1][:3]]
    got = [("get", "film", "--source", str(last), *one) for one in ranges]
    return [command.run(*words) for words in [("rows", "film"), ("map", "film"), ("map", "--missing", "film"), ("sources", "film"), *got]]


def served_alike(command):
    """The index never changes what is served: what is told of a file is told of it without its indexes."""
    rng = random.Random(SEED + 1)
    for number in range(BY_CHANCE):
        file = generate.indexed_file(rng)
        while model.index(file)[0] == "refused":
            file = generate.indexed_file(rng)
        told = told_of(command, file)
        expect(f"what is told with an index and without, {number}", told, told_of(command, unindexed(file)))
        expect(f"it is told, {number}", {answer.status for answer in told}, {0})
        claim(f"no index is left, {number}", command.run("index", "film"), 0)


# Long ones.

def long_index(command):
    """An index of 40,960 boxes, and places up to the limit."""
    inner = [bidx(8, b"%c%c%c%c" % (65 + at // 26 % 26, 65 + at % 26, 97, 98)) for at in range(511)]
    index = fidx(*[bidx(8 + 511 * 8, b"moov", *inner) for _ in range(80)])
    file = indexed(index, (100, [good(bytes(5_000)), lost(9), damaged(bytes(77)), good(bytes(100_000))]))
    command.put("film", file)
    claim_index("a long index", command, "film", file)
    expect("its lines", command.run("index", "film").out.count(b"\n"), 40_960)
    far = indexed(fidx(bidx(LIMIT - 8, b"mdat", large=True), bidx(8, b"free")), (LIMIT - 20, [good(bytes(20))], True))
    command.put("film", far)
    claim_index("an index to the limit", command, "film", far)
    claim_map("a film with an index to the limit", command, "film", far)
    claim_rows("a film with an index to the limit", command, "film", far)
    claim_get("a film with an index to the limit", command, "film", far, LIMIT - 20, 20)


def long_file(command):
    """A film of nearly 1 GiB without an index, and with one of three boxes in its segment: the table takes room for its
    rows alone."""
    make_film(command)
    claim("1 GiB without an index", ended(measured(command, "index", "film")), 0)
    claim_measure("index of 1 GiB that has none", command)
    index = fidx(bidx(16, b"ftyp"), bidx(SIZE - 17, b"mdat"), bidx(8, b"free"))
    with open(command.path("film"), "r+b") as film:
        film.seek(-SEGMENT, os.SEEK_END)
        film.write((SEGMENT + len(index)).to_bytes(4, "big"))
        film.seek(0, os.SEEK_END)
        film.write(index)
    rows = b"1\t0\t16\tftyp\tall\n1\t16\t%d\tmdat\tall\n1\t%d\t8\tfree\tsome\n" % (SIZE - 17, SIZE - 1)
    claim("1 GiB with an index", ended(measured(command, "index", "film")), 0, rows)
    claim_measure("index of 1 GiB", command)


def check(command):
    for part in (sample, states, types, without, levels, refusals, additions, generated, served_alike, long_index, long_file):
        part(command)
