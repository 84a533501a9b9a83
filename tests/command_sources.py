"""Claims what is told of films of several sources, what is got of each, and to which of them append adds, by hand and by
the model."""

import json
import os
import random

import model
import sample_layers
from boxes import bidx, box, entry, fidx, ftyp, full, pfhd, ploc, pshd, surl
from command_info import LEGEND
from command_info import run as run_info
from command_run import claim, claim_each_refused, claim_held, claim_missing, claim_refused, damaged, good, lost
from command_show import claim_all
from command_usage import NO_NUMBERS
from command_wanted import appended, begun, claim_get, claim_not_named, film_of, lines_of, map_text, number_of, source_count
from command_write import claim_append
from corpus import ROOT
from expecting import expect
from film_boxes import with_index

SEED = 23_001_145
RUNS, TURNS = 20, 8
TOP = 2 ** 64 - 1

# The sample, of which README.md prints the sources and the map.
SOURCES = b"0\t13\tclosed\t13\t0\thttp://films.example/lesson/base\tvideo/mp4\n1\t25\tclosed\t21\t4\thttp://films.example/lesson/sharp\tvideo/mp4\n"
MAPS = [b"source\t13\tclosed\nhave\t0\t13\ntotal\t13\t0\t0\n", b"source\t25\tclosed\nhave\t0\t9\nlost\t9\t4\nhave\t13\t12\ntotal\t21\t0\t4\n"]
MISSMAPS = [b"source\t13\tclosed\nhave\t0\t13\ntotal\t13\t0\n", b"source\t25\tclosed\nhave\t0\t9\nmiss\t9\t4\nhave\t13\t12\ntotal\t21\t4\n"]
SCREEN = (b"file      film\nbrand     paff\nbytes     %d of 1,073,741,824\nboxes     6 of 512\nsegments  2 of 64\nchunks    4 of 1,024\nsources   2 of 8\n"
          b"source    0\nURL       http://films.example/lesson/base\nMIME      video/mp4\nfilm      13 bytes, closed\nreceived  13 bytes, 100.0 %%\n"
          b"held      0 bytes, 0.0 %%\nlost      0 bytes, 0.0 %%\n#########################\n"
          b"source    1\nURL       http://films.example/lesson/sharp\nMIME      video/mp4\nfilm      25 bytes, closed\nreceived  21 bytes, 84.0 %%\n"
          b"held      0 bytes, 0.0 %%\nlost      4 bytes, 16.0 %%\n#########....############\n" % len(sample_layers.sample()) + LEGEND)

# What prints all sources of a film, and what is of one.
OF_ALL = [("map", "film"), ("map", "--missing", "film"), ("sources", "film"), ("sources", "--percent", "film"), ("rows", "film"), ("info", "film"), ("info", "--json", "film"), ("boxes", "film"), ("index", "film")]
OF_ONE = [("get", "film"), ("get", "film", "0", "1"), ("get", "film", "0", "0"), ("get", "film", "9", "9"), ("get", "--output", "new", "film", "0", "1"), ("append", "film", "--offset", "0", "--lost", "1"),
          ("append", "film", "--offset", "0", "--good", "piece"), ("append", "film", "--offset", "7", "--open", "--last")]


def of(*urls):
    """The `surl` boxes of URLs without MIME texts."""
    return [(url, b"") for url in urls]


def to(*surls, last=False):
    """How an addition goes on behind its chunks, so that it has these `surl` boxes."""
    return (last, None, False, 0, surls)


def layered(count):
    """A film of so many sources, the first of which has the URL that the file was begun with: `n` of source `n` is there,
    and the next byte is lost."""
    return film_of(*[(n, [good(b"%d" % n), lost(1)], *to(*of(b"u%d" % n) if n else [], last=n % 2 == 0)) for n in range(count)])


def bare(*parts):
    """A file whose `pfil` has no `surl`."""
    return ftyp() + box(b"pfil", pfhd()) + b"".join(parts)


def segment(*surls, offset=0):
    """A segment of three bytes lost, with boxes behind its `ploc`."""
    return box(b"pseg", pshd(offset), ploc(1, 0, [entry(0x80, 1, 3)]), *surls)


# What is told.

def sample(command):
    """The sample as it is, and after what was lost of its second layer came."""
    with open(os.path.join(ROOT, "samples", "layers.paff"), "rb") as file:
        content = file.read()
    expect("the sample is the one that is made", content, sample_layers.sample())
    command.put("film", content)
    claim("the sample's sources", command.run("sources", "film"), 0, SOURCES)
    claim("the sample's map", command.run("map", "film"), 0, b"".join(MAPS))
    claim("the sample's map without names", command.run("map", "--missing", "film"), 0, b"".join(MISSMAPS))
    for source in range(2):
        claim(f"the map of source {source}", command.run("map", "--source", str(source), "film"), 0, MAPS[source])
        claim(f"its map without names, {source}", command.run("map", "film", f"--source={source}", "--missing"), 0, MISSMAPS[source])
    claim("the first layer", command.run("get", "--source", "0", "film"), 0, b"a small film\n")
    claim_missing("the second layer", command.run("get", "--source", "1", "film"), 9, 25)
    claim("a part of the second layer", command.run("get", "film", "--source=1", "13", "11"), 0, b", but sharp")
    claim("the screen of the sample", run_info(command, "film", columns="25"), 0, SCREEN)
    expect("its rows", [line.split(b"\t")[9] for line in command.run("rows", "film").out.splitlines()[2:5]], [b"source", b"0", b"1"])
    claim_held("the sample after it was read", command, "film", content)
    claim("append to the second layer", command.append("film", 9, [good(b"film")], to=["--source", "1"]), 0)
    claim("its map then", command.run("map", "film"), 0, MAPS[0] + b"source\t25\tclosed\nhave\t0\t25\ntotal\t25\t0\t0\n")
    claim("the second layer then", command.run("get", "--source", "1", "film"), 0, b"the same film, but sharp\n")
    claim("the first layer then", command.run("get", "--source", "0", "--output", "new", "film"), 0)
    claim_held("the first layer in a file", command, "new", b"a small film\n")
    command.remove("new")


def told_in_json(command, file):
    return json.loads(run_info(command, "--json", command.put("film", file)).out)


def lines_of_json(command):
    """All keys of the line of the sample: lengths are sums, and no URL is the file's; and what else a source may be."""
    found = told_in_json(command, sample_layers.sample())
    sources = found.pop("sources")
    expect("the sample in JSON", found, {"file": "film", "state": "closed", "bytes": len(sample_layers.sample()), "boxes": 6, "brand": "paff", "described": 38, "received": 34, "held": 0,
                                         "lost": 4, "segments": 2, "chunks": 4, "indexed": 0, "whole": 0})
    expect("its sources", sources, [
        {"source": 0, "state": "closed", "url": "http://films.example/lesson/base", "mime": "video/mp4", "described": 13, "received": 13, "held": 0, "lost": 0},
        {"source": 1, "state": "closed", "url": "http://films.example/lesson/sharp", "mime": "video/mp4", "described": 25, "received": 21, "held": 0, "lost": 4}])
    for count, state in [(1, "closed"), (2, "open"), (3, "open")]:
        found = told_in_json(command, layered(count))
        expect(f"{count} sources", (found["state"], [source["state"] for source in found["sources"]]), (state, ["closed", "open", "closed"][:count]))
    found = told_in_json(command, begun(b"u", b"m"))
    expect("a film that was only begun", (found["state"], found["url"], found["mime"], found["sources"], found["described"]), ("begun", "u", "m", [], 0))
    found = told_in_json(command, film_of((0, [lost(3)], *to((b"v", b"n"))), mime=b"m"))
    expect("a film whose one source has its own URL", (found["url"], found["mime"], len(found["sources"])), ("v", "n", 1))
    expect("its screen", b"\nURL       v\nMIME      n\nbytes " in run_info(command, "film").out)
    command.put("film", film_of((0, [lost(3)]), (0, [], *to(*of(b"v")))))
    expect("a source of no length, with no bar", run_info(command, "film", columns="3").out.split(b"source    0\n")[1],
           b"URL       u\nMIME      \nfilm      3 bytes, open: its end is not known yet\nreceived  0 bytes, 0.0 %\nheld      0 bytes, 0.0 %\nlost      3 bytes, 100.0 %\n...\n"
           b"source    1\nURL       v\nMIME      \nfilm      0 bytes, open: its end is not known yet\n" + LEGEND)


def texts(command):
    """URLs and MIME texts of any byte: in digits, and as a program that fetches takes them."""
    every = bytes(range(1, 256))
    file = film_of((0, [lost(1)]), (0, [lost(2)], *to((b"a b\\\x80\t\n", b"m\x1b"))), (0, [lost(3)], *to((every, every[::-1]))), (0, [lost(4)], *to((b"", b""))))
    claim_all("texts of any byte", command, file)
    lines = command.run("sources", "film").out.splitlines()
    expect("a text in digits", lines[1], rb"1" b"\t2\topen\t0\t2\t" rb"a b\x5c\x80\x09\x0a" b"\t" rb"m\x1b")
    expect("texts of no byte", lines[3], b"3\t4\topen\t0\t4\t\t")
    percent = command.run("sources", "film", "--percent")
    expect("a URL in its percent form", (percent.status, percent.out.splitlines()[1]), (0, b"1\t2\topen\t0\t2\ta%20b%5C%80%09%0A\t" rb"m\x1b"))


def numbers(command):
    """Sources are numbered as their segments appear, whatever `pfil` has, and told by their URLs in their order alone."""
    for name, segments, wanted in [
            ("pfil last", [segment(surl(b"v")), segment()], [0, 1]), ("pfil's own list", [segment(), segment(surl(b"u")), segment(surl(b"u", b"m"))], [0, 0, 0]),
            ("by turns", [segment(surl(b"v")), segment(), segment(surl(b"w")), segment(surl(b"v")), segment()], [0, 1, 2, 0, 1]),
            ("MIME apart", [segment(surl(b"v", b"m")), segment(surl(b"v", b"n"))], [0, 0]), ("another order", [segment(surl(b"v"), surl(b"w")), segment(surl(b"w"), surl(b"v"))], [0, 1]),
            ("one more", [segment(surl(b"v")), segment(surl(b"v"), surl(b"v"))], [0, 1]), ("parted elsewhere", [segment(surl(b"v"), surl(b"w")), segment(surl(b"vw"), surl(b""))], [0, 1])]:
        file = begun(b"u") + b"".join(segments)
        claim_all(f"numbers, {name}", command, file)
        rows = command.run("rows", "film").out.splitlines()[3:3 + len(segments)]
        expect(f"numbers by hand, {name}", [int(row.split(b"\t")[-1]) for row in rows], wanted)


def indexes(command):
    """An index in `pfil` is that of the source of its list; where no segment is of it, nothing of it is there."""
    file = with_index(begun(b"u"), b"pfil", fidx(bidx(8, b"ftyp"), bidx(8, b"moov")))
    for words, wanted in [(["--url", "v"], (b"none", b"none")), (["--url", "u"], (b"some", b"none"))]:
        command.put("film", file)
        claim(f"append {words} under an index", command.append("film", 0, [good(b"abcd")], to=words), 0)
        claim(f"the index after {words}", command.run("index", "film"), 0, b"1\t0\t8\tftyp\t%s\n1\t8\t8\tmoov\t%s\n" % wanted)


# To which source append adds.

def boxes_written(command):
    """Each `surl` behind `ploc`, in the order of their words, wherever these stand; a MIME text is of the URL before
    it."""
    for words, surls in [
            ("--url v", [surl(b"v")]), ("--url=v", [surl(b"v")]), ("--url v --mime=", [surl(b"v")]), ("--url v --mime m", [surl(b"v", b"m")]), ("--url v --url ww --mime mno", [surl(b"v"), surl(b"ww", b"mno")]),
            ("--url=v --mime=a --url=ww", [surl(b"v", b"a"), surl(b"ww")]), ("--url=", [surl(b"")]), ("--url=--last --mime=--", [surl(b"--last", b"--")]), ("--url u", [surl(b"u")]),
            ("--url v --url v --url v", 3 * [surl(b"v")])]:
        for order in (f"{words} --offset 4 --lost 3", f"--offset 4 {words} --lost 3", f"--offset=4 --lost=3 {words}"):
            command.put("film", begun(b"u"))
            claim(f"append {order}", command.run("append", "film", *order.split()), 0)
            claim_held(f"the file after {order}", command, "film", begun(b"u") + segment(*surls, offset=4))
    command.put("film", begun(b"u"))
    claim("append of an open segment", command.run("append", "film", "--url", "v", "--offset", "4", "--open"), 0)
    claim_held("the file after that", command, "film", begun(b"u") + box(b"pseg", pshd(4), ploc(0, 0, []), surl(b"v")))


def to_the_only_one(command):
    """Nothing is said: a file that was only begun has its own URL; one source takes the addition, with its own boxes
    where its first segment has some."""
    for name, file, surls in [
            ("begun", begun(b"u", b"m"), []), ("the URL that it was begun with", begun(b"u") + segment(), []), ("the same in a segment", begun(b"u") + segment(surl(b"u")), [surl(b"u")]),
            ("the same in a later segment", begun(b"u") + segment() + segment(surl(b"u")), []), ("its own URL", begun(b"u") + segment(surl(b"v", b"m")), [surl(b"v", b"m")]),
            ("two of its own", begun(b"u") + segment(surl(b"v", b"m"), surl(b"w", b"n")), [surl(b"v", b"m"), surl(b"w", b"n")]),
            ("two MIME texts", begun(b"u") + segment(surl(b"v", b"m")) + segment(surl(b"v", b"n")), [surl(b"v", b"m")]), ("no URL in pfil", bare(segment(surl(b"v"))), [surl(b"v")]),
            ("an empty URL", bare(segment(surl(b""))), [surl(b"")]), ("boxes before", begun(b"u") + box(b"pseg", pshd(0), surl(b"v"), box(b"free"), ploc(0, 0, []), surl(b"w")), [surl(b"v"), surl(b"w")])]:
        for words in ([], ["--source", "0"]):
            command.put("film", file)
            if name == "begun" and words:
                answer = command.run("append", "film", *words, "--offset", "0", "--lost", "3")
                expect("a source of a file that was only begun", (answer.status, answer.err.split(b"\n")[0]), (2, b"paff: there is no source yet, as nothing was appended: film"))
                claim_held("the file that was only begun", command, "film", file)
                continue
            claim(f"append to {name} by {words}", command.run("append", "film", *words, "--offset", "0", "--lost", "3"), 0)
            claim_held(f"the file with {name} by {words}", command, "film", file + segment(*surls))
            expect(f"it is one source, {name}", command.run("sources", "film").out.count(b"\n"), 1)
    command.put("film", bare())
    claim_refused("append without a URL", command.run("append", "film", "--offset", "0", "--lost", "3"), 41)
    claim_held("the file without a URL", command, "film", bare())
    claim("info without a URL", run_info(command, "film"), 0,
          b"file      film\nbrand     paff\nURL       \nMIME      \nbytes     40 of 1,073,741,824\nboxes     2 of 512\nsegments  0 of 64\nchunks    0 of 1,024\nsources   0 of 8\nfilm      nothing was appended yet\n")
    claim("append with a URL", command.run("append", "film", "--url", "v", "--offset", "0", "--lost", "3"), 0)
    claim_held("the file with a URL", command, "film", bare(segment(surl(b"v"))))


def to_one_of_several(command):
    """An addition to each source, by its number or its URLs, leaves what is told of the others as it was."""
    file = film_of((0, [lost(9)]), (0, [lost(8)], *to((b"v", b"m"), (b"w", b"n"))), (0, [lost(7)], *to(*of(b"w"))), (2, [good(b"x")], *to((b"v", b"o"), (b"w", b""))))
    for source, surls in [(0, []), (1, [(b"v", b"m"), (b"w", b"n")]), (2, of(b"w"))]:
        by_number = claim_append(f"append to source {source}", command, file, 1, [good(b"abc")], source=source)
        expect(f"the boxes for source {source}", by_number.endswith(b"".join(surl(*texts) for texts in surls)) and by_number.count(b"surl") == file.count(b"surl") + len(surls))
        for other in range(3):
            lines = lines_of(map_text(by_number), other)
            claim(f"the map of source {other} after source {source}", command.run("map", "--source", str(other), "film"), 0, lines)
            expect(f"source {other} after source {source}", (lines == lines_of(map_text(file), other)), other != source)
        by_urls = claim_append(f"append by the URLs of source {source}", command, file, 1, [good(b"abc")], surls=surls or of(b"u"))
        expect(f"the same by its URLs, {source}", map_text(by_urls), map_text(by_number))
    new = claim_append("append to a new source", command, file, 1, [good(b"abc")], surls=of(b"w", b"v"))
    expect("a new source", (source_count(new), map_text(new).startswith(map_text(file))), (4, True))


# Wrong uses.

def claim_unchanged(name, command, answer, last, named=None):
    claim_not_named(name, answer, "film", last, named)
    claim_held(f"the film after {name}", command, "film", layered(last + 1))
    expect(f"no new file after {name}", command.held("new"), None)


def not_named(command):
    """Where there are several sources, what is of one has to name it, and what is of all need not."""
    command.put("piece", b"xyz")
    for count in (2, 3, 8):
        command.put("film", layered(count))
        for words in OF_ONE:
            claim_unchanged(f"{words} of {count} sources", command, command.run(*words), count - 1)
        for words in OF_ALL:
            expect(f"{words} of {count} sources", command.run(*words).status, 0)


def absent(command):
    """A source that is not there is a wrong use, whatever is asked of it."""
    for count in (1, 2, 8):
        command.put("film", layered(count))
        for number in (count, count + 1, 8, 9, 2 ** 32, TOP):
            for words in [*OF_ONE, ("map", "film"), ("map", "--missing", "film")]:
                claim_unchanged(f"{words} of source {number} of {count}", command, command.run(*words, "--source", str(number)), count - 1, number)
        claim_unchanged(f"another form, {count}", command, command.run("get", f"--source=0{count}", "film", "0", "1"), count - 1, count)


def rubbish(command):
    """No number, none at all, two of them, and a URL beside it."""
    command.put("film", layered(2))
    command.put("piece", b"xyz")
    film, said = layered(2), {}
    for text in NO_NUMBERS:
        for words in [("get", "film", "0", "1"), ("map", "film"), ("append", "film", "--offset", "0", "--lost", "1")]:
            said[(*words, "--source", text)] = said[(*words, f"--source={text}")] = None
    for words in [("get", "film", "0", "1"), ("map", "film"), ("append", "film", "--offset", "0", "--lost", "1")]:
        said |= {(*words, "--source"): "no value is given: --source", (*words, "--source", "0", "--source", "0"): "given twice: --source", (*words, "--source", "0", "--source=1"): "given twice: --source",
                 (*words, "--source="): "not a number: ", (*words, "--source=one"): "not a number: one", (*words, "--sourc", "0"): "not an option: --sourc"}
    for name in ("sources", "info", "rows", "boxes", "index"):
        said[(name, "--source", "0", "film")] = "not an option: --source"
    addition = ("append", "film", "--offset", "0", "--lost", "1")
    said |= {(*addition, "--source", "0", "--url", "u"): "--source and --url are at odds", (*addition, "--url", "u", "--source=9"): "--source and --url are at odds", (*addition, "--mime", "m"): "no --url is before it: --mime",
             ("append", "film", "--mime", "m", "--url", "u", "--offset", "0", "--lost", "1"): "no --url is before it: --mime", (*addition, "--url", "u", "--mime", "m", "--mime", "m"): "given twice: --mime",
             (*addition, "--url"): "no value is given: --url", (*addition, "--url", "-u"): "no value is given: --url", (*addition, "--url", "--mime", "m"): "no value is given: --url",
             (*addition, "--url", "u", "--mime"): "no value is given: --mime", (*addition, "--url", "u", "v"): "a word too many: v", ("begin", "new", "--url", "u"): "not an option: --url",
             ("get", "film", "--url", "u", "0", "1"): "not an option: --url", ("append", "film", "--url", "v", "--offset", "0"): "no chunk is given"}
    for words, line in said.items():
        answer = command.run(*words)
        claim(f"bad usage: {words}", answer, 2)
        if line is not None:
            expect(f"what is said of {words}", answer.err.split(b"\n")[0], b"paff: " + line.encode())
        claim_held(f"the film after {words}", command, "film", film)
    claim("zeros in front of a source", command.run("get", "film", "--source", "0001", "1", "1"), 0, b"1")


# Limits.

def eight(command):
    """Eight sources are told, got and added to; a ninth is not taken."""
    file = layered(8)
    claim_all("eight sources", command, file)
    for n in range(8):
        claim(f"the byte of source {n}", command.run("get", "film", "--source", str(n), str(n), "1"), 0, b"%d" % n)
        claim_missing(f"the next of source {n}", command.run("get", "film", str(n + 1), "1", f"--source={n}"), n + 1, n + 2)
        claim_append(f"append to source {n} of eight", command, file, n + 1, [good(b"z")], source=n)
    for surls in (of(b"u8"), of(b"u7", b"u7"), of(b"U7")):
        assert appended(file, 0, [lost(1)], surls=surls)[0] == 40
        claim_append(f"append of a ninth source, {surls}", command, file, 0, [lost(1)], surls=surls)
    command.put("film", layered(6))
    for n, said in [(6, b"paff: film: 1 of 8 sources are left\n"), (7, b"paff: film: 0 of 8 sources are left\n"), (7, b"")]:
        claim(f"source {n}, of which few are left", command.append("film", 0, [lost(9)], to=["--url", f"u{n}"]), 0, err=said)
    pairs = [piece for at in range(64) for piece in (good(b"g"), damaged(b"d"))]
    longest = film_of(*[(2 ** 40 - 1_000 + at, pairs, *to(*of(b"%d" % at))) for at in range(8)])
    claim_all("eight sources with 1,024 chunks", command, longest, [(2 ** 40 - 993, 1), (2 ** 40 - 992, 1)], 7)
    turns = [(2 ** 40 - 900 + 100 * (at // 8), 8 * [good(b"g"), damaged(b"d")], *to(*of(b"%d" % (at % 8)))) for at in range(64)]
    claim_all("eight sources with 64 segments, the longest map", command, film_of(*turns), [(2 ** 40 - 900, 1), (2 ** 40 - 899, 1)], 3)


def many_urls(command):
    """As many boxes as a segment takes, which go along with the next addition; and long texts."""
    surls = of(*[b"u%d" % at for at in range(511)])
    assert appended(begun(b"u"), 0, [lost(1)], surls=surls)[0] == 6
    claim_append("511 URLs", command, begun(b"u"), 0, [lost(1)], surls=surls)
    file = claim_append("510 URLs", command, begun(b"u"), 0, [lost(1)], surls=surls[:510])
    file = claim_append("the same again", command, file, 0, [good(b"x")])
    claim_all("a source of 510 URLs", command, file)
    texts = [(b"u" * 100_000, b"m" * 100_000), (b"", b""), (b"v", b"n" * 70_000)]
    file = claim_append("long texts", command, file, 0, [good(b"x")], surls=texts)
    file = claim_append("long texts again", command, file, 0, [lost(1)], source=1)
    claim_all("long texts", command, file, [(0, 1)], 1)


def refusals(command):
    """Each refusal of a URL is the answer of every subcommand but `boxes`, and `append` changes nothing."""
    film = film_of((0, [good(b"abcd")]))
    ill = [box(b"surl"), box(b"surl", full(), b"u"), box(b"surl", full(), b"u\0"), box(b"surl", full(), b"u\0m\0\0"), box(b"surl", full(1), b"u\0m\0"), box(b"surl", full(0, 1), b"u\0m\0")]
    files = [("a ninth source", 40, layered(8) + segment(surl(b"u9"))), ("a ninth source first", 40, begun(b"u") + b"".join(segment(surl(b"%d" % n)) for n in range(9))),
             ("no URL", 41, bare(segment())), ("no URL behind one", 41, bare(segment(surl(b"v")), segment())), ("sizes of one source that differ", 25, layered(3) + box(b"pseg", pshd(9, 1), ploc(0, 0, [entry(0x80, 0, 0)])))]
    files += [(f"ill-formed in a segment, {at}", 16, film + segment(surl(b"u"), part)) for at, part in enumerate(ill)]
    files += [(f"ill-formed in pfil, {at}", 11, ftyp() + box(b"pfil", pfhd(), surl(b"u"), part) + segment()) for at, part in enumerate(ill)]
    for name, number, file in files:
        assert number_of(file) == number, name
        command.put("film", file)
        for words in [("map", "film"), ("map", "--missing", "film"), ("map", "--source=0", "film"), ("map", "--source=9", "film"), ("sources", "film"), ("rows", "film"), ("index", "film"), ("get", "film"),
                      ("get", "film", "--source=0", "0", "1"), ("get", "film", "--source=9", "0", "1"), ("append", "film", "--offset", "0", "--lost", "1"),
                      ("append", "film", "--source=0", "--offset", "0", "--lost", "1"), ("append", "film", "--source=9", "--offset", "0", "--lost", "0"), ("append", "film", "--url=v", "--offset", "0", "--lost", "1")]:
            claim_each_refused(f"{name}, {words}", command, words, number)
        expect(f"{name}, boxes", command.run("boxes", "film").status, 0)
        info = json.loads(run_info(command, "--json", "film").out)
        expect(f"{name}, info", (info["state"], info["refused"]), ("refused", number))
        claim_held(f"the film after that, {name}", command, "film", file)


# By the model.

def some_addition(rng, file, urls):
    """An addition to a source that is there, to a new one, or to the only one, which is not named."""
    chunks = [rng.choice([good(rng.randbytes(rng.randint(1, 6))), damaged(rng.randbytes(rng.randint(1, 4))), lost(rng.randint(1, 9))]) for _ in range(rng.randint(1, 4))]
    count = 0 if number_of(file) else source_count(file)
    how = rng.choice(["source", "source", "urls", "none"] if count == 1 else ["source", "source", "urls"] if count else ["urls", "none"])
    surls = [(url, rng.choice([b"", b"m"])) for url in rng.choice(urls)] if how == "urls" else []
    return rng.randint(0, 20), chunks, rng.random() < 0.1, rng.choice([None, 7]), False, rng.randrange(count) if how == "source" else None, surls


def by_chance(command):
    """Additions to sources by chance: each leaves the maps of the other sources as they were."""
    rng = random.Random(SEED)
    for run in range(RUNS):
        urls = [[b"%d" % at, *rng.sample([b"v", b"w", b""], rng.randint(0, 2))] for at in range(rng.randint(1, 12))] + [[b"u"]]
        file = begun(b"u")
        for turn in range(TURNS):
            addition = some_addition(rng, file, urls)
            before, file = file, claim_append(f"append {turn} of run {run}", command, file, *addition)
            if file != before and not number_of(before):
                added = model.read(file)[1][-1][7]
                others = [source for source in range(source_count(before)) if source != added]
                expect(f"the other sources after append {turn} of run {run}", [lines_of(map_text(file), other) for other in others], [lines_of(map_text(before), other) for other in others])
        claim_all(f"the film of run {run}", command, file)
        for source in range(0 if number_of(file) else source_count(file)):
            for first, length in model.lists(file, source=source)[1][:2]:
                claim_get(f"the film of run {run}", command, "film", file, first, length, source)


def check(command):
    for part in (sample, lines_of_json, texts, numbers, indexes, boxes_written, to_the_only_one, to_one_of_several, not_named, absent, rubbish, eight, many_urls, refusals, by_chance):
        part(command)
