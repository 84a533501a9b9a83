"""Claims every byte that begin and append leave in the file, and each refusal of an addition, which leaves the file as
it was."""

import os
import random
import subprocess
import time as clock

import additions
import generate
import model
from additions_texts import pairs_of
from boxes import box, head, lost_segment, open_segment
from command_run import KEPT, Chunk, claim, claim_held, claim_missing, claim_refused, damaged, elsewhere, ended, good, lost
from command_wanted import appended, begun, claim_boxes, claim_map, claim_rows, film_of, left, number_of, source_count
from expecting import expect
from foreign import LIMIT, WIDE
from model import PMFF

SEED = 23_001_141
RUNS = 40
TOP = 2 ** 64 - 1
KINDS = ["lost", "damaged", "good", "elsewhere"]
MOOF, MDAT = box(b"moof", b"0123456789"), box(b"mdat", b"abcd", large=True)


def claim_append(name, command, file, offset, chunks, last=False, time=None, outside=False, source=None, surls=()):
    """The model's answer and the model's file; the file after it. The source is named where there is a number, and else
    it is the only one."""
    command.put("film", file)
    number, wanted = appended(file, offset, chunks, last, time, outside, source or 0, surls)
    to = [] if source is None else ["--source", str(source)]
    to += [word for url, mime in surls for word in (b"--url=" + url, b"--mime=" + mime)]
    answer = command.append("film", offset, chunks, last, time, outside, to)
    if number:
        claim_refused(name, answer, number)
    else:
        claim(name, answer, 0, err=left("film", file, wanted))
    claim_held(f"the file after {name}", command, "film", wanted)
    return wanted


# Begin.

def beginnings(command):
    by_hand = bytes.fromhex("00000014 66747970 70616666 00000000 70616666"
                            "00000026 7066696c 0000000c 70666864 00000000 00000012 7375726c 00000000 6100 6d6e6f00")
    claim("begin by hand", command.run("begin", "hand", "a", "mno"), 0)
    claim_held("the file begun by hand", command, "hand", by_hand)
    claim_refused("its map", command.run("map", "hand"), 12, "hand")
    claim_refused("its rows", command.run("rows", "hand"), 12, "hand")
    every = bytes(range(1, 256))
    for number, texts in enumerate([
            (b"",), (b"", b""), (b"http://films.example/lesson",), (b"u", b"video/mp4"), (every,), (b"", every), (every, every[::-1]),
            (b"u" * 100_000, b"m" * 100_000), (b" ", b"\t\n"), (b"--last", b"--offset"), (b"-", b"--")]):
        claim(f"begin {number}", command.run("begin", "--", f"new{number}", *texts), 0)
        claim_held(f"the file begun, {number}", command, f"new{number}", begun(*texts))


def brands(command):
    """The brand by hand; none named is paff."""
    for number, (brand, words) in enumerate([(b"paff", []), (b"paff", ["--brand", "paff"]), (b"pmff", ["--brand", "pmff"])]):
        for texts in (["u"], ["u", "--brand"], ["--brand", "pmff"], ["", ""]):
            name = f"branded{number}{len(texts)}{len(texts[0])}"
            claim(f"begin {words} {texts}", command.run("begin", *words, "--", name, *texts), 0)
            wanted = bytes.fromhex("00000014") + b"ftyp" + brand + bytes(4) + brand + begun(*map(str.encode, texts))[20:]
            claim_held(f"the file begun by {words} {texts}", command, name, wanted)
            claim_refused("its map", command.run("map", name), 12, name)
    claim("begin of a file named as an option", command.run("begin", "--brand", "pmff", "./--brand", "u"), 0)
    claim_held("the file of that name", command, "--brand", begun(b"u", brand=PMFF))


def beginnings_in_the_way(command):
    """A file that is there already, whatever it is, is left as it is."""
    for name, content in [("empty", b""), ("begun", begun(b"u")), ("film", film_of((0, [lost(4)]))), ("other", b"a text")]:
        command.put(name, content)
        claim(f"begin over {name}", command.run("begin", name, "u"), 2)
        claim_held(f"{name} after begin", command, name, content)
    os.symlink("nowhere", command.path("link"))
    claim("begin over a link to nothing", command.run("begin", "link", "u"), 2)
    claim_held("what the link names", command, "nowhere", None)
    os.symlink("film", command.path("name"))
    claim("begin over a link to a file", command.run("begin", "name", "u"), 2)
    claim_held("the file that the link names", command, "film", film_of((0, [lost(4)])))
    claim("append by that link", command.append("name", 4, [lost(2)]), 0)
    claim_held("the file after it", command, "film", film_of((0, [lost(4)]), (4, [lost(2)])))


# Append.

def appends(command):
    by_hand = bytes.fromhex("0000000c 70646174 0b0c0d0e 00000036 70736567 00000018 70736864 00000001 00000000 0000000000000000"
                            "00000016 706c6f63 00000000 11 0000 0002 4004fc 8006")
    found = claim_append("the sample's segment", command, begun(b"a"), 0, [good(bytes([11, 12, 13, 14])), lost(6)], True)
    expect("the sample's segment by hand", found, begun(b"a") + by_hand)
    for name, offset, chunks, last, time in [
            ("all four kinds", 5, [good(b"abc"), lost(300), damaged(b"de"), elsewhere(7), good(b"f")], False, None), ("only lost", 0, [lost(1)], False, 0),
            ("only held elsewhere", 4, [elsewhere(6)], False, None), ("held elsewhere to the limit", 1, [elsewhere(LIMIT - 1)], True, 3),
            ("1,024 held elsewhere", 0, [elsewhere(1)] * 1_024, False, None),
            ("only damaged", 9, [damaged(b"abc")], True, 7), ("the largest time", 0, [lost(1)], False, TOP),
            ("to the limit", LIMIT - 3, [good(b"abc")], True, 1), ("a lost chunk to the limit", 0, [lost(LIMIT)], True, None),
            ("1,024 chunks", 0, [lost(1)] * 1_024, False, None), ("1,024 good chunks", 0, [good(b"ab")] * 1_024, False, None),
            ("data of 128", 0, [good(bytes(128))], False, None), ("data of 129", 0, [good(bytes(129))], False, None),
            ("data of 32,769 in two", 0, [good(bytes(1)), damaged(bytes(32_768))], False, None)]:
        claim_append(name, command, begun(b"u", b"m"), offset, chunks, last, time)
    file = begun(b"u")
    for number, chunks in enumerate([[good(b"abcd"), lost(6)], [good(b"zzzzz"), damaged(b"q")], [lost(10)], [good(b"0123456789")]]):
        file = claim_append(f"append {number} of one film", command, file, 0, chunks, number == 3)
    claim("what was served first stays", command.run("get", "film", "0", "10"), 0, b"abcdz56789")


def appends_far(command):
    """By hand: a segment at the last offset of 32 bits, and one at the first of 64, whose header is four bytes longer;
    mapped and got across both, and to the limit."""
    by_hand = bytes.fromhex("0000000a 70646174 6162 00000034 70736567 00000018 70736864 00000000 ffffffff 0000000000000000 00000014 706c6f63 00000000 11 0000 0001 4002fe"
                            "0000000a 70646174 6364 00000038 70736567 0000001c 70736864 01000001 0000000100000000 0000000000000000 00000014 706c6f63 00000000 11 0000 0001 4002fe")
    found = claim_append("at 2^32 - 1", command, begun(b"u"), WIDE - 1, [good(b"ab")])
    found = claim_append("at 2^32", command, found, WIDE, [good(b"cd")], True)
    expect("both sides of 2^32 by hand", found, begun(b"u") + by_hand)
    claim("the map across 2^32", command.run("map", "film"), 0, b"source\t4294967298\tclosed\nlost\t0\t4294967295\nhave\t4294967295\t3\ntotal\t3\t0\t4294967295\n")
    claim("get across 2^32", command.run("get", "film", "4294967295", "3"), 0, b"abd")
    claim("get from 2^32", command.run("get", "film", "4294967296", "2"), 0, b"bd")
    claim_missing("get before 2^32", command.run("get", "film", "4294967294", "4"), WIDE - 2)
    claim_missing("get behind the end", command.run("get", "film", "4294967296", "3"), WIDE + 2)
    claim_rows("a film across 2^32", command, "film", found)
    found = claim_append("to the limit", command, begun(b"u"), 1, [lost(LIMIT - 9), elsewhere(5), good(b"end")], True)
    claim("the map to the limit", command.run("map", "film"), 0,
          b"source\t1099511627775\tclosed\nlost\t0\t1099511627772\nhave\t1099511627772\t3\ntotal\t3\t0\t1099511627772\n")
    claim("get at the limit", command.run("get", "film", "1099511627774", "1"), 0, b"d")
    claim_missing("get at the limit and one", command.run("get", "film", "1099511627774", "2"), LIMIT)
    for offset, chunks in [(2 * WIDE, [good(b"a")]), (WIDE - 4, [lost(8)]), (0, [lost(WIDE)]), (0, [elsewhere(WIDE - 1), damaged(b"x")]), (LIMIT - 1, [good(b"z")]), (LIMIT - 4, [lost(4)])]:
        claim_append(f"{chunks} at {offset}", command, begun(b"u"), offset, chunks)


def appends_elsewhere(command):
    """By hand: chunks held elsewhere in the order of their words, of which no byte is kept; read back, mapped, and
    mended."""
    by_hand = bytes.fromhex("0000000d 70646174 61626364 65 0000003f 70736567 00000018 70736864 00000001 00000004 0000000000000006"
                            "0000001f 706c6f63 00000000 21 0000 0004 00012c 400002fb 000001 c00003fd")
    chunks = [elsewhere(300), good(b"ab"), elsewhere(1), damaged(b"cde")]
    found = claim_append("held elsewhere", command, begun(b"u"), 4, chunks, True, 6)
    expect("held elsewhere by hand", found, begun(b"u") + by_hand)
    claim("the map of what is held elsewhere", command.run("map", "film"), 0,
          b"source\t310\tclosed\nlost\t0\t304\nhave\t304\t2\nlost\t306\t1\nheld\t307\t3\ntotal\t2\t3\t305\n")
    claim_rows("what is held elsewhere", command, "film", found)
    found = claim_append("what was held elsewhere, come back", command, found, 0, [good(bytes(range(250))), elsewhere(9), good(b"x" * 51)])
    found = claim_append("held elsewhere over it", command, found, 0, [elsewhere(310)], True)
    claim("the map of what came back", command.run("map", "film"), 0, b"source\t310\tclosed\nhave\t0\t250\nlost\t250\t9\nhave\t259\t51\ntotal\t301\t0\t9\n")
    claim("what came back", command.run("get", "film", "259", "51"), 0, b"x" * 45 + b"ab" + b"x" * 4)
    mixed = begun(b"u", brand=PMFF)
    claim_append("held elsewhere beside boxes outside", command, mixed, 0, [elsewhere(3), good(MOOF), elsewhere(4), damaged(b"xyz"), good(MDAT)], outside=True)
    for brand in (b"paff", b"pmff"):
        claim_append(f"held elsewhere, asked outside of {brand}", command, begun(b"u", brand=brand), 0, [elsewhere(9)], outside=True)


def appends_outside(command):
    """By hand: a mixed file whose good chunks are boxes of it; mapped, listed and served."""
    mixed = begun(b"u", brand=PMFF)
    by_hand = box(b"pdat", b"xyz") + MOOF + MDAT + bytes.fromhex(
        "0000003c 70736567 00000018 70736864 00000001 00000002 0000000000000000 0000001c 706c6f63 00000000 11 0000 0004 4012da c003d7 8007 4014ec")
    found = claim_append("boxes outside", command, mixed, 2, [good(MOOF), damaged(b"xyz"), lost(7), good(MDAT)], True, outside=True)
    expect("boxes outside by hand", found, mixed + by_hand)
    claim("the map of a mixed film", command.run("map", "film"), 0, b"source\t50\tclosed\nlost\t0\t2\nhave\t2\t18\nheld\t20\t3\nlost\t23\t7\nhave\t30\t20\ntotal\t38\t3\t9\n")
    claim("a box served", command.run("get", "film", "2", "18"), 0, MOOF)
    claim("a part of a box served", command.run("get", "film", "34", "16"), 0, MDAT[4:])
    boxes = b"0\t20\tftyp\n20\t35\tpfil\n55\t11\tpdat\n66\t18\tmoof\n84\t20\tmdat\n104\t60\tpseg\n"
    claim("the boxes of a mixed film", command.run("boxes", "film"), 0, boxes)
    claim_rows("a mixed film", command, "film", found)
    found = claim_append("the rest inside", command, found, 20, [good(b"abc" + bytes(7))])
    found = claim_append("the rest inside, and a box outside over it", command, found, 0, [lost(2), good(MOOF + MDAT)], outside=True)
    claim_map("a mixed film, mended", command, "film", found)
    claim_boxes("a mixed film, mended", command, "film", found)
    claim("what a mixed film serves", command.run("get", "film", "2", "48"), 0, MOOF + b"abc" + bytes(7) + MDAT)
    for name, chunks in [("nothing good", [damaged(b"abc"), lost(4)]), ("only lost", [lost(9)])]:
        for brand in (b"paff", b"pmff"):
            claim_append(f"{name} outside of {brand}", command, begun(b"u", brand=brand), 0, chunks, outside=True)


def words_in_any_order(command):
    """The chunks count in the order of their words; the options between them do not."""
    file = film_of((0, [lost(9)]), brand=PMFF)
    command.put("a", b"aa")
    command.put("b", b"bbb")
    command.put("m", MOOF)
    for words in ["--elsewhere 5 --good a --offset 0 --last --lost 4 --time 4", "--lost 4 --elsewhere 5 --time 4 --offset 0 --last --good a",
                  "--good a --lost 4 --offset 0 --time 4 --elsewhere 5 --last --elsewhere 5", "--outside --elsewhere 5 --time 4 --good m --offset 0 --last --damaged b",
                  "--outside --good m --offset 0 --last --damaged b --time 4 --lost 4", "--lost 4 --good m --time 4 --damaged b --offset 0 --outside --last",
                  "--good a --offset 0 --last --damaged b --time 4 --lost 4", "--last --time 4 --good a --damaged b --lost 4 --offset 0",
                  "--lost 4 --good a --time 4 --damaged b --offset 0 --last"]:
        command.put("film", file)
        chunks = {"a": good(b"aa"), "b": damaged(b"bbb"), "m": good(MOOF), "4": lost(4), "5": elsewhere(5)}
        pairs = zip(words.split(), words.split()[1:])
        order = [chunks[value] for option, value in pairs if option in ("--good", "--damaged", "--lost", "--elsewhere")]
        claim(f"append {words}", command.run("append", "film", *words.split()), 0)
        claim_held(f"the file after {words}", command, "film", appended(file, 0, order, True, 4, "--outside" in words)[1])


def sizes_stated(command):
    """A piece is appended where it has the stated size, which is of the next piece alone."""
    file = film_of((0, [lost(90)]))
    command.put("piece", b"xyz")
    command.put("long", b"0123456789")
    for words, chunks in [("--size 3 --good piece", [good(b"xyz")]), ("--size 3 --damaged piece --good long", [damaged(b"xyz"), good(b"0123456789")]),
                          ("--lost 1 --size 10 --good long --size 3 --good piece", [lost(1), good(b"0123456789"), good(b"xyz")])]:
        command.put("film", file)
        claim(f"append {words}", command.run("append", "film", "--offset", "7", *words.split()), 0)
        claim_held(f"the file after {words}", command, "film", appended(file, 7, chunks)[1])


def places(command):
    """Each chunk where --at says, and what lies between as lost; one segment."""
    file = film_of((0, [lost(900)]))
    command.put("piece", b"xyz")
    for words, offset, chunks in [
            ("--at 7 --good piece --at 200 --good piece", 7, [good(b"xyz"), lost(190), good(b"xyz")]), ("--offset 2 --at 7 --good piece", 2, [lost(5), good(b"xyz")]),
            ("--at 7 --good piece --at 10 --damaged piece", 7, [good(b"xyz"), damaged(b"xyz")]), ("--offset 7 --at 7 --lost 4 --good piece", 7, [lost(4), good(b"xyz")]),
            ("--at 7 --lost 4 --at 20 --elsewhere 3 --at 30 --size 3 --good piece", 7, [lost(4), lost(9), elsewhere(3), lost(7), good(b"xyz")]),
            ("--good piece --at 20 --good piece --offset 1", 1, [good(b"xyz"), lost(16), good(b"xyz")])]:
        command.put("film", file)
        claim(f"append {words}", command.run("append", "film", *words.split()), 0)
        claim_held(f"the file after {words}", command, "film", appended(file, offset, chunks)[1])
    command.put("film", file)
    claim_refused("a place beyond the limit", command.run("append", "film", "--at", "7", "--good", "piece", "--at", str(TOP), "--good", "piece"), 23)
    gaps = " ".join(f"--at {9 * at} --good piece" for at in range(200)).split()
    claim("two hundred gaps at once", command.run("append", "film", *gaps, "--last"), 0)
    wanted = [chunk for at in range(200) for chunk in (good(b"xyz"), lost(6))][:-1]
    claim_held("the file after two hundred gaps", command, "film", appended(file, 0, wanted, True)[1])


def open_segments(command):
    """A segment without chunks says where something begins, and nothing of how much."""
    for words, offset, last, time in [("--offset 100 --open", 100, False, None), ("--open --last --offset 0", 0, True, None), ("--time 7 --offset 5 --open --outside", 5, False, 7)]:
        claim(f"append {words}", command.run("append", command.put("film", begun(b"u")), *words.split()), 0)
        claim_held(f"the file after {words}", command, "film", appended(begun(b"u"), offset, [], last, time)[1])
    command.put("film", begun(b"u"))
    claim("an open segment at 100", command.run("append", "film", "--offset", "100", "--open"), 0)
    claim("its map", command.run("map", "film"), 0, b"source\t100\topen\nlost\t0\t100\ntotal\t0\t0\t100\n")


def times(command):
    """By hand: a date and time of day as a timestamp of RFC 5905, whose second era begins in 2036; and the time of the
    test itself."""
    for text, timestamp in [
            ("1970-01-01T00:00:00Z", 2_208_988_800 << 32), ("2026-11-16T03:00:00Z", 4_003_786_800 << 32), ("1968-01-20T03:14:08Z", 2 ** 63), ("2036-02-07T06:28:15Z", (2 ** 32 - 1) << 32),
            ("2036-02-07T06:28:17Z", 1 << 32), ("2104-02-26T09:42:23Z", (2 ** 31 - 1) << 32), ("2024-02-29T23:59:59Z", 3_918_239_999 << 32)]:
        command.put("film", begun(b"u"))
        claim(f"append --time {text}", command.run("append", "film", "--offset", "0", "--lost", "1", "--time", text), 0)
        claim_held(f"the file after --time {text}", command, "film", appended(begun(b"u"), 0, [lost(1)], False, timestamp)[1])
        expect(f"the row of {text}", b"\t%d\t1\t71\t16\t%s\t0\n" % (timestamp, text.encode("ascii")) in command.run("rows", "film").out)
    command.put("film", begun(b"u"))
    before = clock.time()
    claim("append --time now", command.run("append", "film", "--offset", "0", "--lost", "1", "--time=now"), 0)
    seconds = model.read(command.held("film"))[1][0][3] / 2 ** 32 - 2_208_988_800
    expect("the time now", before - 0.01 <= seconds <= clock.time() + 0.01 or seconds)
    for text in ["Now", "yesterday", "2026-11-16", "2026-11-16T03:00:00", "2026-11-16T03:00:00z", "2026-11-16 03:00:00Z", "2026-02-30T03:00:00Z", "2026-11-16T24:00:00Z", "2026-11-16T03:00:60Z",
                 "2026-11-16T03:00:00Z ", "2026-11-16T3:00:00Z", "26-11-16T03:00:00Z", "1968-01-20T03:14:07Z", "2104-02-26T09:42:24Z", "2036-02-07T06:28:16Z", "2026-11-16T03:00:00+00:00"]:
        command.put("film", begun(b"u"))
        claim(f"append --time {text}", command.run("append", "film", "--offset", "0", "--lost", "1", f"--time={text}"), 2)
        claim_held(f"the file after --time {text}", command, "film", begun(b"u"))


def data_anywhere(command):
    """One piece twice, the film itself as data, data by a link, in a folder, and from pipes."""
    file = film_of((0, [good(b"abcd")]))
    command.put("piece", b"xy")
    os.mkdir(command.path("pieces"))
    command.put("pieces/--lost", b"in a folder")
    os.symlink("piece", command.path("linked"))
    for words, chunks in [("--good piece --damaged piece --good piece", [good(b"xy"), damaged(b"xy"), good(b"xy")]), ("--good film", [good(file)]),
                          ("--damaged film --good film", [damaged(file), good(file)]), ("--good linked", [good(b"xy")]),
                          ("--good pieces/--lost", [good(b"in a folder")])]:
        command.put("film", file)
        claim(f"append {words}", command.run("append", "film", "--offset", "4", *words.split()), 0)
        claim_held(f"the file after {words}", command, "film", appended(file, 4, chunks)[1])
    long = bytes(at % 251 for at in range(300_000))
    for words, content, chunks in [("--good -", b"xy", [good(b"xy")]), ("--good /dev/stdin", b"xy", [good(b"xy")]), ("--size 300000 --damaged -", long, [damaged(long)]),
                                   ("--good piece --lost 4 --good - --good piece", long, [good(b"xy"), lost(4), good(long), good(b"xy")])]:
        command.put("film", file)
        process = command.start("append", "film", "--offset", "4", *words.split(), stdin=subprocess.PIPE)
        process.stdin.write(content)
        claim(f"append {words} from a pipe", ended(process), 0)
        claim_held(f"the file after {words} from a pipe", command, "film", appended(file, 4, chunks)[1])
    command.put("film", file)
    with open(command.path("piece"), "rb") as piece:
        claim("standard input from a file", command.run("append", "film", "--offset", "4", "--good", "-", stdin=piece), 0)
    claim_held("the file after that", command, "film", appended(file, 4, [good(b"xy")])[1])
    named_pipe(command, file)


def named_pipe(command, file):
    """A pipe with a name, which is waited for, and a device, which is no data."""
    command.put("film", file)
    os.mkfifo(command.path("fifo"))
    process = command.start("append", "film", "--offset", "4", "--good", "fifo")
    with open(command.path("fifo"), "wb") as pipe:
        pipe.write(b"xy")
    claim("append of a named pipe", ended(process), 0)
    claim_held("the file after a named pipe", command, "film", appended(file, 4, [good(b"xy")])[1])
    command.put("film", file)
    for device in ("/dev/null", "/dev/zero"):
        claim(f"append of {device}", command.run("append", "film", "--offset", "4", "--good", device), 2, err=b"paff: %s: Neither a regular file nor a pipe\n" % device.encode())
    claim_held("the file after devices", command, "film", file)
    claim_refused("no data from standard input", command.run("append", "film", "--offset", "4", "--good", "-"), 31)


def few_left(command):
    """By hand: what is said when an eighth or less is left, of a file that is appended to all the same."""
    for name, file, said in [
            ("nine segments", head() + 54 * open_segment(5), b""), ("eight segments", head() + 55 * open_segment(5), b"paff: film: 8 of 64 segments are left\n"),
            ("no segment", head() + 63 * open_segment(5), b"paff: film: 0 of 64 segments are left\n"), ("129 chunks", head() + lost_segment(0, [1] * 894), b""),
            ("128 chunks", head() + lost_segment(0, [1] * 895), b"paff: film: 128 of 1024 chunks are left\n"),
            ("65 boxes", head() + 443 * box(b"free") + open_segment(0), b""), ("64 boxes", head() + 444 * box(b"free") + open_segment(0), b"paff: film: 64 of 512 boxes are left\n")]:
        command.put("film", file)
        claim(f"append that leaves {name}", command.run("append", "film", "--offset", "0", "--lost", "1"), 0, err=said)
        claim_held(f"the file that leaves {name}", command, "film", appended(file, 0, [lost(1)])[1])


# Refusals.

def refused(name, number, command, file, offset, chunks, last=False, outside=False):
    assert appended(file, offset, chunks, last, None, outside)[0] == number, name
    claim_append(f"{number}: {name}", command, file, offset, chunks, last, None, outside)


def files_refused(command):
    rng = random.Random(SEED)
    for number in sorted(set(generate.FAULTS) - {12}):
        refused("the file's own", number, command, generate.faulty_file(rng, number), 0, [good(b"abcd")])
        refused("the file's own, before 31", number, command, generate.faulty_file(rng, number), 0, [lost(0)])
    claim_append("12 is none", command, head() + box(b"free", b"abc"), 0, [good(b"abcd")])


def lists_refused(command):
    file = film_of((0, [good(b"abcd")]))
    for name, chunks in [("lost 0", [lost(0)]), ("0 held elsewhere", [elsewhere(0)]), ("0 held elsewhere at last", [good(b"ab"), elsewhere(0)]), ("empty data", [good(b"")]), ("empty damaged data", [damaged(b"")]),
                         ("at last", [good(b"ab"), lost(0)]), ("at first", [damaged(b""), good(b"ab")])]:
        refused(name, 31, command, file, 4, chunks)
    refused("before 22", 31, command, file, 4, [lost(1)] * 1_025 + [lost(0)])
    refused("before 23", 31, command, file, TOP, [lost(0)])


def outside_refused(command):
    """35, printed and nothing written, and the boxes that 6 counts."""
    plain, mixed = film_of((0, [good(b"abcd")])), film_of((0, [good(b"abcd")]), brand=PMFF)
    refused("the film not mixed", 35, command, plain, 4, [good(MOOF)], outside=True)
    for name, part in [("one byte", b"x"), ("a cut box", MOOF[:-1]), ("a byte left over", MOOF + b"\0"), ("size 0", bytes(4) + b"mdat" + bytes(9)), ("a pdat", box(b"pdat", b"ab")),
                       ("an ftyp", MOOF + box(b"ftyp", bytes(12))), ("a pfil", box(b"pfil")), ("a pseg", box(b"pseg")), ("a cut uuid", box(b"uuid", bytes(15)))]:
        refused(name, 35, command, mixed, 4, [good(part)], outside=True)
        refused(f"{name} among others", 35, command, mixed, 4, [damaged(b"abc"), good(MOOF), lost(3), good(part)], True, outside=True)
    refused("before 25 and 23", 35, command, film_of((0, [lost(4)], True), brand=PMFF), TOP, [good(b"x")], outside=True)
    refused("510 boxes outside", 6, command, begun(b"u", brand=PMFF), 0, [good(510 * box(b"free"))], outside=True)
    refused("600 boxes outside", 6, command, begun(b"u", brand=PMFF), 0, [good(600 * box(b"free"))], outside=True)
    claim_append("509 boxes outside", command, begun(b"u", brand=PMFF), 0, [good(509 * box(b"free"))], outside=True)


def counts_refused(command):
    refused("513 boxes", 6, command, head() + 509 * box(b"free") + open_segment(0), 0, [lost(1)])
    refused("513 boxes with the data", 6, command, head() + 508 * box(b"free") + open_segment(0), 0, [good(b"a")])
    claim_append("512 boxes", command, head() + 508 * box(b"free") + open_segment(0), 0, [lost(1)])
    refused("65 segments", 13, command, head() + 64 * open_segment(5), 0, [good(b"a")])
    claim_append("64 segments", command, head() + 63 * open_segment(5), 0, [good(b"a")])
    refused("1,025 chunks at once", 22, command, begun(b"u"), 0, [lost(1)] * 1_025)
    refused("5,000 chunks at once", 22, command, begun(b"u"), 0, [lost(TOP)] * 5_000)
    refused("1,025 held elsewhere", 22, command, begun(b"u"), 0, [elsewhere(1)] * 1_025)
    refused("1,025 chunks with the file's", 22, command, head() + lost_segment(0, [1] * 1_000), 0, [lost(1)] * 24 + [good(b"a")])


def sizes_refused(command):
    file = film_of((0, [good(b"abcd"), lost(6)]))
    for offset, chunks in [(LIMIT, [lost(1)]), (LIMIT - 3, [good(b"abcd")]), (LIMIT + 1, [good(b"a")]), (TOP, [lost(1)]), (0, [lost(TOP)]),
                           (1, [lost(TOP)]), (0, [lost(2 ** 63), lost(2 ** 63)]), (5, [lost(TOP), lost(8)]), (0, [good(b"a"), lost(LIMIT)]),
                           (1, [elsewhere(LIMIT)]), (LIMIT, [elsewhere(1)]), (1, [elsewhere(TOP)]), (0, [elsewhere(2 ** 63), elsewhere(2 ** 63)])]:
        refused(f"{chunks} at {offset}", 23, command, file, offset, chunks)
    refused("a size below the end", 25, command, file, 0, [lost(9)], True)
    closed = film_of((0, [good(b"abcd"), lost(6)], True))
    for offset, chunks, last in [
            (7, [good(b"abcd")], False), (7, [elsewhere(4)], False), (0, [elsewhere(9)], True), (0, [lost(9)], True), (0, [lost(11)], True), (10, [lost(1)], False), (LIMIT - 1, [lost(1)], False)]:
        refused(f"{chunks} at {offset} of a closed film", 25, command, closed, offset, chunks, last)
    claim_append("the same size again", command, closed, 7, [good(b"xyz")], True)


# Seeded runs.

def some_addition(rng, file):
    """What append is asked; one in four with a fault, which may need another file. Where several sources are there, and
    no URL is given, one of them is named."""
    given = additions.acceptable(rng, file)
    if rng.random() < 0.25:
        rng.choice([additions.overstep_limit, additions.overstep_size, additions.spoil_outside])(rng, given)
    chunks, at = [], 0
    for size, state in zip(given["chunk_list"][0::2], given["chunk_list"][1::2]):
        kind = KINDS[state]
        chunks.append(Chunk(kind, given["data"][at:at + size] if kind in KEPT else size))
        at += size if kind in KEPT else 0
    time = given["repair_time"] if rng.random() < 0.8 else None
    surls = pairs_of(given["texts"], given["lengths"])
    count = 1 if number_of(given["buffer"]) else source_count(given["buffer"])
    source = rng.randrange(count) if count > 1 and not surls else None
    return given["buffer"], given["source_offset"], chunks or [lost(1)], given["last"], time, given["outside"], source, surls


def random_runs(command):
    rng = random.Random(SEED + 1)
    for index in range(RUNS):
        file = generate.foreign_file(rng)
        if rng.random() < 0.7:
            texts, brand = additions.texts(rng), rng.choice(additions.BRANDS)
            claim(f"begin of run {index}", command.run("begin", "--brand", brand, "--", f"run{index}", *texts), 0)
            file = begun(*texts, brand)
            claim_held(f"the file of run {index}", command, f"run{index}", file)
        for turn in range(rng.randint(2, 6)):
            file = claim_append(f"append {turn} of run {index}", command, *some_addition(rng, file))


def check(command):
    for part in (beginnings, brands, appends, appends_far, appends_elsewhere, appends_outside, words_in_any_order, sizes_stated, places, open_segments, times, data_anywhere, few_left, files_refused, lists_refused, outside_refused, counts_refused,
                 sizes_refused, random_runs, beginnings_in_the_way):
        part(command)
