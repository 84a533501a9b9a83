"""Claims, by strace, in which order append writes and brings to the disk, and that the file is as it was when any of
these calls fails."""

import os
import random
import re
from collections import namedtuple

import model
from boxes import box
from command_run import claim, claim_held, damaged, good, lost
from command_wanted import appended, begun, film_of
from expecting import expect

WRITING = ["write", "writev", "pwrite64", "pwritev", "pwritev2", "sendfile", "copy_file_range", "fallocate", "ftruncate"]
RENAMING = ["rename", "renameat", "renameat2", "unlink", "unlinkat", "link", "linkat", "truncate"]
SYNCING = ["fdatasync", "fsync"]
TRACED = ",".join("?" + name for name in WRITING + RENAMING + SYNCING + ["flock", "mmap"])
MOST_CALLS = 40
SEED = 23_001_142

DATA = random.Random(SEED).randbytes(3_500_000)

# An append whose calls are traced: to which film and which source of it, with which chunks, whether outside, what it
# leaves, and the place of the new segment's box there. The header of that box is written last, so that the segment is
# read when all of it is there.
Case = namedtuple("Case", "name film source chunks outside new box")
HEADER = 8


def case_of(name, film, first, outside=False, source=0):
    chunks = [good(first), lost(77), damaged(DATA[2_500_000:])]
    new = appended(film, 4, chunks, True, 9, outside, source)[1]
    return Case(name, film, source, chunks, outside, new, model.read(new)[1][-1][0])


FILM = (0, [good(b"abcd"), lost(6)])
INSIDE = case_of("append", film_of(FILM), DATA[:2_500_000])
OUTSIDE = case_of("append outside", film_of(FILM, brand=model.PMFF), box(b"moof", DATA[:1_200_000]) + box(b"mdat", DATA[:1_300_000], large=True), True)
LAYERED = case_of("append to a layer", film_of(FILM, (0, [good(b"efg")], False, None, False, 0, [(b"v", b"m"), (b"w", b"")])), DATA[:2_500_000], source=1)

# A call on a file: `file` is its path, and for a write, `first` and `end` bound the places that it changed.
Call = namedtuple("Call", "name words file first end")


def traceable(command):
    """Whether the program is traced, and not an emulator that runs it."""
    if len(command.words) > 1:
        print("skipped: traces, as an emulator's own calls would be in them")
    return len(command.words) == 1


def to(case):
    """The words that say to which source."""
    return ["--source", str(case.source)]


def words_of(command, case):
    return command.append_words("film", 4, case.chunks, True, 9, case.outside, to(case))


def traced(command, case, *options, **how):
    """An append of some MiB under strace; its answer, and the calls that it made."""
    words = words_of(command, case)
    before = ["strace", "-f", "-y", "-o", "log", "-e", "trace=" + TRACED]
    for option in options:
        before += ["-e", "inject=" + option]
    answer = command.run(*words, before=before, **how)
    return answer, calls_in(command.held("log").decode("ascii", "replace"))


def calls_in(log):
    calls = []
    for line in log.splitlines():
        match = re.match(r"(?:\d+ +)?(\w+)\((.*)\) += (\S+)", line)
        if match is None:
            continue
        name, words, answer = match.groups()
        file = re.search(r"\d+<([^>]*)>", words)
        place = re.search(r", (\d+)$", words)
        first = int(place[1]) if name == "pwrite64" else None
        end = first + int(answer) if first is not None and answer.isdigit() else None
        calls.append(Call(name, words, file and file[1], first, end))
    return calls


# The order.

def on_film(command, calls):
    film = os.path.realpath(command.path("film"))
    return [call for call in calls if call.file == film]


def claim_places(calls, old, new):
    """Places are written by pwrite64 alone, all behind the old end, each once."""
    writes = [call for call in calls if call.name in WRITING]
    expect("only pwrite64 changes the film", {call.name for call in writes}, {"pwrite64"})
    writes = [call for call in writes if call.end is not None]
    expect("no byte before the old end is written", all(call.first >= len(old) for call in writes))
    expect("slices of 1 MiB at most", all(call.end - call.first <= 1_048_576 for call in writes))
    bounds = sorted((call.first, call.end) for call in writes)
    edges = [len(old)] + [end for first, end in bounds]
    expect("all places behind the old end, each once", ([first for first, end in bounds], edges[-1]), (edges[:-1], len(new)))
    shared = [call for call in calls if call.name == "mmap" and "MAP_SHARED" in call.words and "PROT_WRITE" in call.words]
    expect("the film is not changed through memory", shared, [])


def part_of(call, box):
    """What of the addition a write is."""
    if (call.first, call.end) == (box, box + HEADER):
        return "header"
    return "body" if call.end <= box or call.first >= box + HEADER else "both"


def claim_order(name, calls, new):
    """Locked; the data and the box but for its header, brought to the disk; the header, brought to the disk."""
    box = model.read(new)[1][-1][0]
    steps = []
    for call in calls:
        step = None
        if call.name == "flock":
            step = "lock" if "LOCK_EX" in call.words else "unlock"
        elif call.name == "pwrite64":
            step = part_of(call, box)
        elif call.name in SYNCING:
            step = "sync"
        if step is not None and steps[-1:] != [step]:
            steps.append(step)
    expect(f"the order of {name}", steps[:-1] if steps[-1:] == ["unlock"] else steps, ["lock", "body", "sync", "header", "sync"])


def order(command, case):
    command.put("film", case.film)
    answer, calls = traced(command, case)
    claim(f"{case.name} under strace", answer, 0)
    claim_held(f"the film after {case.name}", command, "film", case.new)
    expect("the film keeps its name", [call for call in calls if call.name in RENAMING], [])
    calls = on_film(command, calls)
    claim_places(calls, case.film, case.new)
    claim_order(f"an {case.name} of data", calls, case.new)
    command.put("film", case.film)
    before = ["strace", "-f", "-y", "-o", "log", "-e", "trace=" + TRACED]
    claim(f"{case.name} of what was lost", command.append("film", 4, [lost(3)], outside=case.outside, to=to(case), before=before), 0)
    calls = on_film(command, calls_in(command.held("log").decode("ascii", "replace")))
    claim_places(calls, case.film, command.held("film"))
    claim_order(f"an {case.name} of what was lost", calls, appended(case.film, 4, [lost(3)], source=case.source)[1])


# Failing.

def claim_failed(name, command, case, *options):
    """Whether it failed, and then with status 2 and the film as it was."""
    command.put("film", case.film)
    answer, calls = traced(command, case, *options)
    if answer.status == 0:
        claim_held(f"the film, {name} not met", command, "film", case.new)
        return False
    claim(f"{case.name}, {name}", answer, 2)
    claim_held(f"the film, {case.name}, {name}", command, "film", case.film)
    return True


def failing(command, case):
    counts = []
    for call, error in [("pwrite64", "ENOSPC"), ("fdatasync", "EIO"), ("fsync", "EIO"), ("flock", "ENOLCK")]:
        count = 1
        while count < MOST_CALLS and claim_failed(f"{error} of {call} {count}", command, case, f"{call}:error={error}:when={count}"):
            count += 1
        counts.append(count - 1)
    expect("writes, syncs and a lock that fail", counts[0] >= 5 and counts[1] + counts[2] >= 2 and counts[3] >= 1 or counts)
    expect("a write of nothing fails", claim_failed("a write of nothing", command, case, "pwrite64:retval=0:when=2"))
    claim_failed("a disk full from the third write on", command, case, "pwrite64:error=ENOSPC:when=3+")
    failing_syncs = ["fsync:error=EIO:when=1+", "fdatasync:error=EIO:when=1+"]
    claim_failed("a disk that fails from the second write on", command, case, "pwrite64:error=EIO:when=2+", *failing_syncs)


def failing_to_cut(command, case):
    """Where not even the cut is possible, the old bytes stand and the failure is told."""
    command.put("film", case.film)
    answer, calls = traced(command, case, "pwrite64:error=ENOSPC:when=3", "ftruncate:error=EIO:when=1+")
    claim(f"{case.name}, neither written nor cut", answer, 2)
    expect("the old bytes", command.held("film").startswith(case.film))


def made(command, words, *options):
    """An answer of a command that makes the file `new`, with calls that fail; whether one did; and what is new in the
    folder."""
    before = sorted(os.listdir(command.folder))
    tracer = ["strace", "-f", "-o", "log", "-e", "trace=" + ",".join(option.split(":")[0] for option in options)]
    for option in options:
        tracer += ["-e", "inject=" + option]
    answer = command.run(*words, before=tracer)
    return answer, b"(INJECTED)" in command.held("log"), sorted(set(os.listdir(command.folder)) - set(before))


def failing_new_file(command):
    """A new file is there whole, or nothing of it is."""
    command.put("film", INSIDE.film)
    command.put("log", b"")
    for words, content in [(("begin", "new", "u"), begun(b"u")), (("get", "film", "0", "4", "--output", "new"), b"abcd")]:
        failures = 0
        for call in ("pwrite64", "fsync", "fchmod", "renameat2"):
            answer, failed, new = made(command, words, f"{call}:error=ENOSPC:when=1")
            claim(f"{words}, {call} failing", answer, 2)
            expect(f"the folder after {words}, {call} failing", (failed, new), (True, []))
            failures += failed
        expect(f"calls of {words} that fail", failures, 4)
        for options in [["fsync:error=EIO:when=2"], ["renameat2:error=EINVAL:when=1"], ["renameat2:error=ENOSYS:when=1"]]:
            answer, failed, new = made(command, words, *options)
            claim(f"{words} in another way, {options}", answer, 0)
            expect(f"the folder after {words}, {options}", (failed, new), (True, ["new"]))
            claim_held(f"the file of {words}, {options}", command, "new", content)
            command.remove("new")
        answer, failed, new = made(command, words, "fsync:error=EIO:when=2", "syncfs:error=EIO:when=1")
        claim(f"{words}, which is not on the disk", answer, 2)
        expect(f"the folder after {words}, which is not on the disk", (failed, new), (True, []))


def reading_only(command):
    """A film that is read is mapped to be read alone, and a line on standard error is written at once."""
    command.put("film", INSIDE.film)
    command.put("spoiled", INSIDE.film[:-1])
    for words in [("map", "film"), ("map", "film", "--source=0"), ("sources", "film"), ("boxes", "film"), ("rows", "film"), ("index", "film"), ("get", "film", "0", "4"), ("map", "spoiled")]:
        answer = command.run(*words, before=["strace", "-f", "-y", "-o", "log", "-e", "trace=mmap,write"])
        lines = command.held("log").decode("ascii", "replace").splitlines()
        mapped = [line for line in lines if "mmap(" in line and os.path.realpath(command.path(words[1])) + ">" in line]
        expect(f"how {words} maps", (len(mapped), [line for line in mapped if "PROT_WRITE" in line]), (1, []))
        expect(f"lines that {words} writes", len([line for line in lines if re.search(r"write\(2<", line)]), answer.err.count(b"\n"))


def check(command):
    if traceable(command):
        for case in (INSIDE, OUTSIDE, LAYERED):
            for part in (order, failing, failing_to_cut):
                part(command, case)
        failing_new_file(command)
        reading_only(command)
