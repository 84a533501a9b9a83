"""Claims that commands at work on one file at once wait for each other, and leave the file that one after the other
would have left."""

import fcntl
import os
import signal
import time

from command_run import claim, claim_held, ended, good, lost, wait_until, why
from command_wanted import appended, begun, boxes_text, film_of, map_text, missmap_text, sources_text
from expecting import expect

ROUNDS = 6
MANY = 5
A_WHILE = 0.25
FILM = film_of((0, [good(b"abcd"), lost(90)]))

# What is said while a lock is waited for, to read the film and to change it.
WAITS = b"paff: film: waits until another command has changed it\n"
WAITS_ALONE = b"paff: film: waits until no other command reads or changes it\n"


class Locked:
    """Holds a lock of the film, as another program would."""

    def __init__(self, command, kind):
        self.file = open(command.path("film"), "r+b")
        fcntl.flock(self.file, kind)

    def grow_to(self, content):
        """Appends to the film under the lock."""
        self.file.seek(0)
        self.file.write(content)
        self.file.flush()

    def release(self):
        self.file.close()


def unlocked(command):
    """Whether no one holds a lock of the film."""
    with open(command.path("film"), "rb") as file:
        try:
            fcntl.flock(file, fcntl.LOCK_EX | fcntl.LOCK_NB)
        except BlockingIOError:
            return False
        return True


def after(process, line):
    """The answer of a process that had said a line before."""
    answer = ended(process)
    return answer._replace(err=line + answer.err)


def claim_waits(name, command, process, lock, grown=None):
    """That a process waits as long as the lock is held, and says so; its answer after that."""
    line = process.stderr.readline()
    time.sleep(A_WHILE)
    expect(f"{name} waits", (process.poll(), command.held("film") == FILM), (None, True))
    if grown is not None:
        lock.grow_to(grown)
    lock.release()
    return after(process, line)


# A lock that another program holds.

def append_waits(command):
    grown = appended(FILM, 10, [good(b"klm")])[1]
    for name, kind in [("a writer's lock", fcntl.LOCK_EX), ("a reader's lock", fcntl.LOCK_SH)]:
        for file in (FILM, grown):
            command.put("film", FILM)
            lock = Locked(command, kind)
            process = command.start("append", "film", "--offset", "4", "--good", "piece")
            answer = claim_waits(f"append under {name}", command, process, lock, file)
            claim(f"append after {name}", answer, 0, err=WAITS_ALONE)
            claim_held(f"the film after {name}", command, "film", appended(file, 4, [good(b"xyz")])[1])
            expect(f"no lock is left after {name}", unlocked(command))


def refused_append_waits(command):
    """Whether it is refused is asked of the film as it is when the lock is had."""
    command.put("film", FILM)
    closed = appended(FILM, 94, [good(b"end")], True)[1]
    lock = Locked(command, fcntl.LOCK_EX)
    process = command.start("append", "film", "--offset", "95", "--good", "piece")
    answer = claim_waits("append", command, process, lock, closed)
    claim("append to a film that was closed meanwhile", answer, 1, b"refused\t25\n", WAITS_ALONE + why("film", 25))
    claim_held("the film closed meanwhile", command, "film", closed)
    expect("no lock is left after a refusal", unlocked(command))


def readers_wait(command):
    grown = appended(FILM, 4, [good(b"xyz")])[1]
    for words, wanted in [
            (("map", "film"), map_text(grown)), (("map", "--missing", "film"), missmap_text(grown)), (("sources", "film"), sources_text(grown)), (("boxes", "film"), boxes_text(grown)), (("get", "film", "0", "7"), b"abcdxyz"),
            (("rows", "film"), None), (("index", "film"), b"")]:
        command.put("film", FILM)
        lock = Locked(command, fcntl.LOCK_EX)
        answer = claim_waits(" ".join(words), command, command.start(*words), lock, grown)
        if wanted is not None:
            claim(f"{words} of the film as it was left", answer, 0, wanted, WAITS)
        expect(f"no lock is left after {words}", (answer.status, answer.err, unlocked(command)), (0, WAITS, True))


def readers_go_on(command):
    """Readers do not wait for readers."""
    command.put("film", FILM)
    lock = Locked(command, fcntl.LOCK_SH)
    for words in [("map", "film"), ("map", "--missing", "film"), ("sources", "film"), ("boxes", "film"), ("rows", "film"), ("index", "film"), ("get", "film", "0", "4")]:
        process = command.start(*words)
        expect(f"{words} beside a reader", wait_until(lambda: process.poll() is not None))
        process.kill()
        ended(process)
    lock.release()


def reader_holds(command):
    """A reader whose output nobody takes yet keeps an append from the film until it is done."""
    data = bytes(at % 253 for at in range(400_000))
    file = film_of((0, [good(data)]))
    command.put("film", file)
    reader = command.start("get", "film", "0", "400000")
    front = os.read(reader.stdout.fileno(), 1)
    appending = command.start("append", "film", "--offset", "400000", "--good", "piece")
    line = appending.stderr.readline()
    expect("append waits for a reader", (appending.poll(), command.held("film") == file), (None, True))
    answer = ended(reader)
    expect("what the reader got", (answer.status, front + answer.out == data), (0, True))
    claim("append after the reader", after(appending, line), 0, err=WAITS_ALONE)
    claim_held("the film after both", command, "film", appended(file, 400_000, [good(b"xyz")])[1])


def no_waiting(command):
    """With --no-wait a lock that another holds is told at once, and nothing is done."""
    command.put("film", FILM)
    held = b"paff: film: Another command holds its lock\n"
    for kind, readers_go_on in [(fcntl.LOCK_EX, False), (fcntl.LOCK_SH, True)]:
        lock = Locked(command, kind)
        for words in [("map", "film"), ("map", "--missing", "film"), ("map", "--source", "0", "film"), ("sources", "film"), ("boxes", "film"), ("rows", "film"), ("index", "film"), ("get", "film", "0", "4"), ("info", "film"), ("info", "--json", "film")]:
            answer = command.run(*words, "--no-wait")
            expect(f"{words} --no-wait", (answer.status, answer.err), (0, b"") if readers_go_on else (2, held))
        claim("append --no-wait", command.run("append", "film", "--no-wait", "--offset", "4", "--good", "piece"), 2, err=held)
        claim_held("the film after append --no-wait", command, "film", FILM)
        lock.release()
    claim("append --no-wait, no lock held", command.run("append", "film", "--no-wait", "--offset", "4", "--good", "piece"), 0)


def film_replaced(command):
    """A film that takes the name while the lock of another is waited for is the one that is meant; where none does
    there is none."""
    grown = appended(FILM, 4, [good(b"xyz")])[1]
    for wanted in (grown, None):
        command.put("film", FILM)
        lock = Locked(command, fcntl.LOCK_EX)
        process = command.start("map", "film")
        line = process.stderr.readline()
        command.remove("film")
        if wanted is not None:
            command.put("film", wanted)
        lock.release()
        if wanted is not None:
            claim("the map of the film that took the name", after(process, line), 0, map_text(wanted), WAITS)
        else:
            claim("the map where the name is gone", after(process, line), 2, err=WAITS + b"paff: film: No such file or directory\n")


def interrupted_waiting(command):
    """A signal ends a command that waits."""
    command.put("film", FILM)
    lock = Locked(command, fcntl.LOCK_EX)
    for words in [("map", "film"), ("append", "film", "--offset", "4", "--good", "piece")]:
        process = command.start(*words)
        process.stderr.readline()
        process.send_signal(signal.SIGINT)
        expect(f"{words} interrupted", ended(process).status, -signal.SIGINT)
    lock.release()
    claim_held("the film after that", command, "film", FILM)


def data_cut(command):
    """Data that another program cuts while the lock is waited for: told, and nothing is appended."""
    command.put("film", FILM)
    command.put("cut", bytes(50))
    lock = Locked(command, fcntl.LOCK_EX)
    process = command.start("append", "film", "--offset", "4", "--good", "cut")
    line = process.stderr.readline()
    os.truncate(command.path("cut"), 0)
    lock.release()
    claim("append of data that is cut", after(process, line), 2, err=WAITS_ALONE + b"paff: a file was cut short or could not be read\n")
    claim_held("the film after that", command, "film", FILM)


# Commands at once.

def claim_after_others(name, answer):
    """Done, whether it had to wait or not."""
    expect(name, (answer.status, answer.out, answer.err in (b"", WAITS_ALONE) or answer.err), (0, b"", True))


def two_appends(command):
    """Both are in the file, and it is that of one of the two orders."""
    pieces = [b"p" * 70_000, b"q" * 50_000]
    names = [command.put(f"piece{number}", piece) for number, piece in enumerate(pieces)]
    for turn in range(ROUNDS):
        command.put("film", begun(b"u"))
        processes = [command.start("append", "film", "--offset", "4", "--good", name) for name in names]
        for process in processes:
            claim_after_others(f"one of two appends, {turn}", ended(process))
        orders = [film_of(*[(4, [good(piece)]) for piece in order]) for order in (pieces, pieces[::-1])]
        expect(f"the film of one order, {turn}", command.held("film") in orders)


def many_appends(command):
    pieces = {bytes([65 + number]) * (1_000 + number): f"piece{number}" for number in range(MANY)}
    for piece, name in pieces.items():
        command.put(name, piece)
    command.put("film", begun(b"u"))
    processes = [command.start("append", "film", "--offset", "0", "--good", name) for name in pieces.values()]
    for process in processes:
        claim_after_others("one of many appends", ended(process))
    content = command.held("film")
    order = sorted(pieces, key=content.find)
    expect("the film of some order", content == film_of(*[(0, [good(piece)]) for piece in order]))


def two_begins(command):
    """One makes the file, and the other finds it."""
    for turn in range(ROUNDS):
        name = f"new{turn}"
        processes = [command.start("begin", name, text) for text in ("first", "second")]
        answers = [ended(process) for process in processes]
        expect(f"two begins, {turn}", sorted(answer.status for answer in answers), [0, 2])
        winner = b"first" if answers[0].status == 0 else b"second"
        claim_held(f"the file of two begins, {turn}", command, name, begun(winner))


def check(command):
    command.put("piece", b"xyz")
    for part in (append_waits, refused_append_waits, readers_wait, readers_go_on, reader_holds, no_waiting, film_replaced, interrupted_waiting, data_cut, two_appends, many_appends, two_begins):
        part(command)
