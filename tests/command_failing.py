"""Claims that a full disk, a closed pipe and closed standard streams are told with status 2, and leave the file as it
was."""

import os
import resource

import sample_index
from boxes import box
from command_run import claim, claim_held, ended, good, lost, told
from command_wanted import appended, begun, film_of
from expecting import expect
from model import PMFF

DATA = bytes(at % 251 for at in range(300_000))
FILM = film_of((0, [good(DATA), lost(6)], True))
PRINTING = [("map", "film"), ("map", "--missing", "film"), ("map", "--source", "0", "film"), ("sources", "film"), ("boxes", "film"), ("rows", "film"), ("index", "indexed"), ("index", "--tree", "indexed"), ("get", "film", "0", "1"), ("get", "film", "0", "300000"), ("get", "film", "5", "70000")]
REFUSED = [("map", "spoiled"), ("map", "--missing", "spoiled"), ("map", "--source", "0", "spoiled"), ("sources", "spoiled"), ("boxes", "spoiled"), ("rows", "spoiled"), ("index", "spoiled"), ("index", "--tree", "spoiled"), ("append", "spoiled", "--offset", "0", "--lost", "1"),
           ("append", "film", "--offset", "0", "--lost", "0")]
SILENT = [("get", "film", "9", "0"), ("index", "film")]
ASIDE = [("get", "spoiled", "0", "1"), ("get", "spoiled"), ("get", "film"), ("get", "film", "0", "300001")]


def closing(*numbers):
    """What closes streams of the process before it becomes the command."""
    def close():
        for number in numbers:
            os.close(number)
    return close


def limited(length):
    """What lets the process make no file longer than that."""
    def limit():
        resource.setrlimit(resource.RLIMIT_FSIZE, (length, length))
    return limit


def claim_unwritten(name, answer):
    """Status 2 and a line on standard error, not a death by a signal."""
    expect(name, (answer.status, told(answer) or answer.err), (2, True))


def untouched(name, command):
    claim_held(f"the film after {name}", command, "film", FILM)
    claim_held(f"the spoiled film after {name}", command, "spoiled", FILM[:-1])


# Standard output that does not take what is written to it.

def full_output(command):
    with open("/dev/full", "wb") as full:
        for words in PRINTING + REFUSED:
            claim_unwritten(f"{' '.join(words)} to a full disk", command.run(*words, stdout=full))
        for words in SILENT:
            claim(f"{' '.join(words)} to a full disk", command.run(*words, stdout=full), 0)
        for words in ASIDE:
            expect(f"{' '.join(words)} to a full disk", command.run(*words, stdout=full).status, 1)
        claim("begin, standard output full", command.run("begin", "new", "u", stdout=full), 0)
    claim_held("the file begun", command, "new", begun(b"u"))
    untouched("a full disk", command)
    with open(command.path("out"), "wb") as out:
        claim_unwritten("get to a file that may not grow so long", command.run("get", "film", "0", "300000", stdout=out, preexec_fn=limited(70_000)))
        expect("what was written before", DATA.startswith(command.held("out")))


def closed_pipe(command):
    for words in PRINTING + REFUSED:
        reading, writing = os.pipe()
        os.close(reading)
        claim_unwritten(f"{' '.join(words)} to a closed pipe", command.run(*words, stdout=writing))
        os.close(writing)
    process = command.start("get", "film", "0", "300000")
    expect("the front of what is got", process.stdout.read(1_000), DATA[:1_000])
    process.stdout.close()
    status, err = process.wait(), process.stderr.read()
    process.stderr.close()
    expect("get to a pipe that is closed later", (status, err.startswith(b"paff: ")), (2, True))
    untouched("a closed pipe", command)


def slow_pipe(command):
    """A reader that takes a little at a time gets all of it."""
    process = command.start("get", "film", "0", "300000")
    content = b""
    while block := process.stdout.read1(4_000):
        content += block
    expect("all of it", content == DATA)
    claim("a slow reader", ended(process), 0)


def closed_streams(command):
    """A file that is opened may then get the number of a standard stream, and what is printed must not end up in it."""
    for words in PRINTING + REFUSED:
        claim_unwritten(f"{' '.join(words)} with standard output closed", command.run(*words, preexec_fn=closing(1)))
        for numbers in [(2,), (1, 2), (0, 1, 2)]:
            status = command.run(*words, preexec_fn=closing(*numbers)).status
            expect(f"the status of {' '.join(words)} with {numbers} closed", status, 2 if 1 in numbers else 1 if words in REFUSED else 0)
        untouched(f"{words} with streams closed", command)
    for words in ["append film --offset 0 --good absent", "append film --offset 0 --good piece --damaged absent", "append film",
                  "append spoiled --offset 0 --good absent", "begin film u"]:
        for numbers in [(0,), (1,), (2,), (0, 1), (0, 2), (1, 2), (0, 1, 2)]:
            expect(f"{words} with {numbers} closed", command.run(*words.split(), preexec_fn=closing(*numbers)).status, 2)
        untouched(f"{words} with streams closed", command)


def written_with_closed_streams(command):
    """Done and right, or not done at all."""
    wanted = appended(FILM, 300_000, [good(b"xyz")])[1]
    for numbers in [(0,), (1,), (2,), (0, 1), (0, 1, 2)]:
        status = command.run("append", "film", "--offset", "300000", "--good", "piece", preexec_fn=closing(*numbers)).status
        expect(f"the status of append with {numbers} closed", status in (0, 2) or status)
        claim_held(f"the film after append with {numbers} closed", command, "film", wanted if status == 0 else FILM)
        command.put("film", FILM)
        status = command.run("begin", "other", "u", preexec_fn=closing(*numbers)).status
        expect(f"begin with {numbers} closed", (status, command.held("other")) in [(0, begun(b"u")), (2, None)] or (status, command.held("other")))
        if command.held("other") is not None:
            command.remove("other")


# A file that may not grow.

def full_begin(command):
    file = begun(b"u", b"m" * 90_000)
    for most in (0, 1, 8, 20, 54, 4_096, len(file) - 1):
        claim(f"begin with room for {most}", command.run("begin", "other", "u", "m" * 90_000, preexec_fn=limited(most)), 2)
        claim_held(f"no file after {most}", command, "other", None)
    claim("begin with room for all", command.run("begin", "other", "u", "m" * 90_000, preexec_fn=limited(len(file))), 0)
    claim_held("the file begun with room for all", command, "other", file)


def full_append(command):
    data = DATA[::-1] * 8
    wanted = appended(FILM, 0, [good(data[:300_006])])[1]
    rooms = [-len(FILM), -9, 0, 1, 7, 8, 9, 100_000, 300_014, 300_015, 300_040, len(wanted) - len(FILM) - 1]
    for room in rooms:
        answer = command.append("film", 0, [good(data[:300_006])], preexec_fn=limited(len(FILM) + room))
        claim(f"append with room for {room}", answer, 2)
        claim_held(f"the film after room for {room}", command, "film", FILM)
    claim("append with room for all", command.append("film", 0, [good(data[:300_006])], preexec_fn=limited(len(wanted))), 0)
    claim_held("the film after room for all", command, "film", wanted)
    boxes, mixed = box(b"moof", data[:100_000]) + box(b"mdat", data[:200_000]), film_of((0, [lost(1)]), brand=PMFF)
    for room in (0, 1, 8, 9, 100_007, 100_008, 100_009, 100_016, 300_016, 300_017):
        command.put("film", mixed)
        claim(f"append outside with room for {room}", command.append("film", 0, [good(boxes)], outside=True, preexec_fn=limited(len(mixed) + room)), 2)
        claim_held(f"the mixed film after room for {room}", command, "film", mixed)
    open_film = film_of((0, [lost(1)]))
    for room in (0, 1_048_576, 1_048_577, 2_200_000, 2_400_008):
        command.put("film", open_film)
        claim(f"a long append with room for {room}", command.append("film", 0, [good(data)], preexec_fn=limited(len(open_film) + room)), 2)
        claim_held(f"the open film after room for {room}", command, "film", open_film)


def check(command):
    command.put("film", FILM)
    command.put("spoiled", FILM[:-1])
    command.put("piece", b"xyz")
    command.put("indexed", sample_index.sample())
    for part in (full_output, closed_pipe, slow_pipe, closed_streams, written_with_closed_streams, full_begin, full_append):
        part(command)
