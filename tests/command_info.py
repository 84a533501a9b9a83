"""Claims what info shows of a file: each line of its screen, the bar, and each key of its line of JSON, by hand and by
the model."""

import contextlib
import fcntl
import json
import os
import pty
import random
import struct
import termios

import generate
import model
from boxes import bidx, box, fidx, head, lost_segment, open_segment
from command_run import SENTENCES, claim, damaged, ended, good, lost, why
from command_show import put_sample
from command_wanted import begun, boxes_text, fault_in, film_of, lines_of, map_text, number_of, part, source_count
from expecting import expect
from film_boxes import with_index
from model import PMFF

SEED = 23_001_143
FILES = 40
LEGEND = b"# received   ~ held, damaged   . lost   % more than one of these\n"
SIGNS = {b"have": "#", b"held": "~", b"lost": "."}


def run(command, *words, columns="20"):
    return command.run("info", *words, env=dict(os.environ, COLUMNS=columns))


def samples(command):
    """By hand: both samples, on one screen each."""
    put_sample(command, "lesson.paff")
    put_sample(command, "damaged.paff")
    lesson = (b"file      lesson.paff\nbrand     paff\nURL       a\nMIME      \nbytes     186 of 1,073,741,824\nboxes     6 of 512\nsegments  2 of 64\nchunks    3 of 1,024\nsources   1 of 8\n"
              b"film      10 bytes, closed\nreceived  7 bytes, 70.0 %\nheld      0 bytes, 0.0 %\nlost      3 bytes, 30.0 %\n##############......\n" + LEGEND)
    mixed = (b"file      damaged.paff\nbrand     paff\nURL       a\nMIME      \nbytes     328 of 1,073,741,824\nboxes     10 of 512\nsegments  4 of 64\nchunks    8 of 1,024\nsources   1 of 8\n"
             b"film      20 bytes, closed\nreceived  12 bytes, 60.0 %\nheld      5 bytes, 25.0 %\nlost      3 bytes, 15.0 %\n######~~~###.~~..###\n" + LEGEND)
    claim("info of the first sample", run(command, "lesson.paff"), 0, lesson)
    claim("info of both", run(command, "lesson.paff", "damaged.paff"), 0, lesson + b"\n" + mixed)
    claim("info of one twice", run(command, "lesson.paff", "lesson.paff"), 0, lesson + b"\n" + lesson)


def indexes(command):
    """By hand: the sample with an index, in a line of its own, and one without."""
    put_sample(command, "index.paff")
    out = run(command, "index.paff").out
    expect("info of an index", b"sources   1 of 8\nindex     15 boxes, 11 whole\nfilm      668 bytes, closed\nreceived  400 bytes, 59.8 %\n" in out or out)
    found = json.loads(run(command, "--json", "index.paff").out)
    expect("JSON of an index", (found["indexed"], found["whole"]), (15, 11))
    command.put("film", with_index(film_of((0, [good(b"abcdefgh")])), b"pfil", fidx(bidx(8, b"free"))))
    expect("info of an index of one box", b"\nindex     1 boxes, 1 whole\n" in run(command, "film").out)
    put_sample(command, "lesson.paff")
    answer = run(command, "--json", "index.paff", "lesson.paff", "index.paff")
    expect("JSON of a file without one between two", [json.loads(line)["indexed"] for line in answer.out.splitlines()], [15, 0, 15])
    expect("no line where there is none", b"index  " not in run(command, "lesson.paff").out)


def begun_only(command):
    """By hand: what can be said of a file that was only begun, of either brand."""
    for brand, shown in [(b"paff", b"paff"), (b"pmff", b"pmff (mixed)")]:
        command.put("new", begun("http://films.example/f\u00fcr".encode(), b"video/mp4", brand))
        wanted = (b"file      new\nbrand     " + shown + b"\nURL       http://films.example/f%C3%BCr\nMIME      video/mp4\nbytes     88 of 1,073,741,824\n"
                  b"boxes     2 of 512\nsegments  0 of 64\nchunks    0 of 1,024\nsources   0 of 8\nfilm      nothing was appended yet\n")
        claim(f"info of a {brand} begun", run(command, "new"), 0, wanted)
    command.put("new", head() + 510 * box(b"free"))
    claim("info of a file begun, with no box left", run(command, "new"), 0,
          b"file      new\nbrand     paff\nURL       u\nMIME      \nbytes     4,135 of 1,073,741,824\nboxes     512 of 512\n"
          b"segments  0 of 64\nchunks    0 of 1,024\nsources   0 of 8\nfilm      nothing was appended yet\n")


def refusals(command):
    """What can be said of a file that is refused, and the worst status of all."""
    file = film_of((0, [good(b"abcd")]))
    command.put("film", file)
    command.put("cut", file[:-1])
    put_sample(command, "lesson.paff")
    screen = b"file      cut\nbytes     %d of 1,073,741,824\nboxes     3 of 512\nrefused   5, %s\n" % (len(file) - 1, SENTENCES[5].encode())
    claim("info of a file that is cut", run(command, "cut"), 1, screen, why("cut", 5))
    answer = run(command, "cut", "lesson.paff", "film")
    expect("info of it and of others", (answer.status, answer.err, answer.out.count(b"file  "), answer.out.startswith(screen)), (1, why("cut", 5), 3, True))
    answer = run(command, "absent", "cut", "film")
    expect("info of one that is not there", (answer.status, answer.err, answer.out.count(b"file  ")), (2, b"paff: absent: No such file or directory\n" + why("cut", 5), 2))
    claim("JSON of one that is not there", run(command, "--json", "absent"), 2, b'{"file":"absent","state":"failed","why":"No such file or directory"}\n',
          b"paff: absent: No such file or directory\n")


def shares(command):
    """A byte of a long film is neither nothing nor left out of all; a range of one byte is seen wherever it lies."""
    for place, bar in [(0, "%" + 19 * "."), (499_999, 9 * "." + "%" + 10 * "."), (500_000, 10 * "." + "%" + 9 * "."), (999_999, 19 * "." + "%")]:
        command.put("film", film_of((place, [good(b"x")]), (0, [lost(1_000_000)], True)))
        out = run(command, "film").out
        expect(f"one byte at {place}", b"received  1 bytes, under 0.1 %\nheld      0 bytes, 0.0 %\nlost      999,999 bytes, 99.9 %\n" + bar.encode() + b"\n" in out or out)
    command.put("film", film_of((0, [damaged(b"x"), good(bytes(9_999))])))
    out = run(command, "film").out
    expect("one byte held", b"film      10,000 bytes, open: its end is not known yet\nreceived  9,999 bytes, 99.9 %\nheld      1 bytes, under 0.1 %\n" in out and b"\n%" + 19 * b"#" in out or out)
    command.put("film", film_of((0, [lost(3), good(b"abc"), damaged(b"x")], True)))
    for columns, bar in [("7", "...###~"), ("14", "......######~~"), ("3", ".%%"), ("1", "%"), ("10", ".....####~")]:
        expect(f"a bar of {columns}", b"\n" + bar.encode() + b"\n" + LEGEND in run(command, "film", columns=columns).out)
    command.put("film", head() + open_segment(0))
    expect("a film of no length", run(command, "film").out.endswith(b"film      0 bytes, open: its end is not known yet\n"))


def all_of(terminal):
    """What was written to a terminal that nobody has open any more; a read may give a part."""
    said = b""
    with contextlib.suppress(OSError):
        while piece := os.read(terminal, 65_536):
            said += piece
    return said


def widths(command):
    """As wide as the terminal; eighty where there is none, and no wider than a thousand."""
    command.put("film", film_of((0, [good(b"abcd")], True)))
    plain = {name: value for name, value in os.environ.items() if name != "COLUMNS"}
    for env, width in [(plain, 80), (dict(plain, COLUMNS="x"), 80), (dict(plain, COLUMNS="0"), 80), (dict(plain, COLUMNS="33"), 33), (dict(plain, COLUMNS="1000000"), 1_000)]:
        out = command.run("info", "film", env=env).out
        expect(f"a bar {width} wide", b"\n" + width * b"#" + b"\n" in out or out)
    ours, theirs = pty.openpty()
    fcntl.ioctl(theirs, termios.TIOCSWINSZ, struct.pack("HHHH", 24, 57, 0, 0))
    process = command.start("info", "film", env=plain, stdout=theirs)
    expect("info on a terminal", ended(process).status, 0)
    os.close(theirs)
    expect("a bar as wide as it", b"\n" + 57 * b"#" + b"\r\n" in all_of(ours))
    os.close(ours)


def strings(command):
    """Names and texts of any bytes in JSON, which has one line for each file."""
    for url, mime in [(b"http://films.example/a?b=\"c\"\\d", b"video/mp4"), ("f\u00fcr \u20ac \U0001f39e \u0080\u009f".encode(), b"\x01\x1f\x7f"), (b"f\xfcr", b"\xc3"),
                      (b"\xed\xa0\x80\xc0\x80\xf4\x90\x80\x80\xf8\x80\xe0\x80\x80\xf8\x90\x80\x80", b"\xe2\x82"), (bytes(range(1, 256)), b"")]:
        command.put("film", film_of((0, [lost(1)]), url=url, mime=mime))
        answer = run(command, "--json", "film")
        found = json.loads(answer.out.decode("ascii"))
        expect(f"the texts {url} and {mime} in JSON", (found["url"], found["mime"], answer.out.count(b"\n")), (decoded(url), decoded(mime), 1))
    command.put("a \"film\"\n\u00fc", begun(b"u"))
    expect("a name in JSON", json.loads(run(command, "--json", "a \"film\"\n\u00fc").out)["file"], "a \"film\"\n\u00fc")


def decoded(text):
    """Bytes as text, each that is not of UTF-8 as the character with its number."""
    return "".join(chr(ord(char) - 0xDC00) if 0xDC80 <= ord(char) <= 0xDCFF else char for char in text.decode("utf-8", "surrogateescape"))


# By the model.

def source_facts(file, source):
    """What it says of a source."""
    described, known = model.length(file, source)[1:3]
    ranges = [line.split(b"\t") for line in lines_of(map_text(file), source).splitlines()]
    sums = {word: sum(int(fields[2]) for fields in ranges if fields[0] == word) for word in SIGNS}
    url, mime = part(file, model.source_url(file, source)), part(file, model.source_mime(file, source))
    return {"source": source, "state": "closed" if known else "open", "url": decoded(url), "mime": decoded(mime), "described": described, "received": sums[b"have"],
            "held": sums[b"held"], "lost": sums[b"lost"]}


def facts(name, file):
    """What the line of JSON says, but for the reasons of refusals."""
    found = {"file": name, "bytes": len(file), "boxes": boxes_text(file).count(b"\n") - (fault_in(boxes_text(file)) > 0)}
    number = number_of(file)
    if number:
        return found | {"state": "refused", "refused": number, "why": SENTENCES[number]}
    segments, chunks = model.read(file)[1:3]
    served = [row[4] for row in model.index(file)[1]]
    sources = [source_facts(file, source) for source in range(source_count(file))]
    found |= {key: sum(source[key] for source in sources) for key in ("described", "received", "held", "lost")}
    found |= {key: sources[0][key] for key in ("url", "mime") if len(sources) == 1}
    return found | {"state": "closed" if all(source["state"] == "closed" for source in sources) else "open", "brand": "pmff" if model.read_head(file).mixed else "paff",
                    "segments": len(segments), "chunks": len(chunks), "indexed": len(served), "whole": served.count(model.ALL), "sources": sources}


def generated(command):
    rng = random.Random(SEED)
    files = {f"film{index}": generate.foreign_file(rng) if index % 3 else generate.spoil(rng, generate.foreign_file(rng)) for index in range(FILES)}
    files |= {f"indexed{index}": generate.indexed_file(rng) for index in range(FILES // 2)}
    files |= {"mixed": film_of((0, [good(box(b"free"))]), brand=PMFF), "many": head() + lost_segment(0, [1] * 1_000), "empty": b"", "short": b"\0"}
    for name, file in files.items():
        command.put(name, file)
        number = 0 if number_of(file) == 12 else number_of(file)
        answer = run(command, "--json", name)
        if number_of(file) != 12:
            expect(f"JSON of {name}", (answer.status, json.loads(answer.out)), (1 if number else 0, facts(name, file)))
    answer = run(command, "--json", *files)
    expect("JSON of all", [json.loads(line)["file"] for line in answer.out.splitlines()], list(files))


def check(command):
    for part_of in (samples, indexes, begun_only, refusals, shares, widths, strings, generated):
        part_of(command)
