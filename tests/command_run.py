"""Runs the command as a person would, each time as a process of its own in a folder of its own, and holds its answer
against what is wanted of it."""

import os
import re
import subprocess
import time
from collections import namedtuple

from corpus import ROOT
from expecting import expect

LONGEST = 30
SOON = 5

# The status is negative after a death by that signal, and a word where there was no end within LONGEST seconds.
Answer = namedtuple("Answer", "status out err")

# A chunk to append: its kind is a word of the command, its value the bytes that are kept of it, or how many it has
# where none are.
Chunk = namedtuple("Chunk", "kind value")
KEPT = ("good", "damaged")


class Command:
    """The words that start the program, and the folder that it is started in."""

    def __init__(self, words, folder):
        self.words = [os.path.abspath(word) if os.path.exists(word) else word for word in words]
        self.folder = folder

    def path(self, name):
        return os.path.join(self.folder, os.fsdecode(name))

    def put(self, name, content):
        with open(self.path(name), "wb") as file:
            file.write(content)
        return name

    def held(self, name):
        """The bytes of a file, None where there is none."""
        if not os.path.exists(self.path(name)):
            return None
        with open(self.path(name), "rb") as file:
            return file.read()

    def remove(self, name):
        os.remove(self.path(name))

    def start(self, *arguments, before=(), **how):
        """A process of the command, both outputs in pipes unless `how` says otherwise; `before` are words that start a
        tracer."""
        how = {"stdin": subprocess.DEVNULL, "stdout": subprocess.PIPE, "stderr": subprocess.PIPE} | how
        return subprocess.Popen([*before, *self.words, *arguments], cwd=self.folder, **how)

    def run(self, *arguments, before=(), **how):
        return ended(self.start(*arguments, before=before, **how))

    def append_words(self, film, offset, chunks, last=False, time=None, outside=False, to=()):
        """The words of an append, whose data is put into files first; `to` are those that say to which source."""
        words = ["append", film, *to, "--offset", str(offset)] + ["--last"] * last + ["--outside"] * outside
        words += [] if time is None else ["--time", str(time)]
        for number, chunk in enumerate(chunks):
            value = chunk.value
            words += ["--" + chunk.kind, self.put(f"piece{number}", value) if chunk.kind in KEPT else str(value)]
        return words

    def append(self, film, offset, chunks, last=False, time=None, outside=False, to=(), **how):
        return self.run(*self.append_words(film, offset, chunks, last, time, outside, to), **how)


def ended(process):
    """The answer of a process, which is ended where it does not end."""
    try:
        out, err = process.communicate(timeout=LONGEST)
    except subprocess.TimeoutExpired:
        process.kill()
        process.communicate()
        return Answer("no end", b"", b"")
    return Answer(process.returncode, out or b"", err or b"")


def good(value):
    return Chunk("good", value)


def damaged(value):
    return Chunk("damaged", value)


def lost(size):
    return Chunk("lost", size)


def elsewhere(size):
    return Chunk("elsewhere", size)


# What is wanted of an answer.

def sentences():
    """The sentences of the refusals, by their numbers, as README.md has them."""
    with open(os.path.join(ROOT, "README.md"), encoding="utf-8") as file:
        table = file.read().split("\n## Refusals\n")[1].split("\n## ")[0]
    cells = re.findall(r"(?<=\| )(\d+) \| ([^|]+?) (?=\|)", table)
    return {int(number): sentence for number, sentence in cells}


SENTENCES = sentences()


def in_form(err):
    """Whether each line names the program, or is a line of usage behind one that does."""
    lines = err.split(b"\n")
    if lines.pop() != b"":
        return False
    told = False
    for line in lines:
        told = told or line.startswith(b"paff: ")
        if not told or not line.startswith((b"paff: ", b"usage: ", b" ")):
            return False
    return True


def told(answer):
    """Whether standard error is in its form, and says nothing with status 0 and something with another."""
    return answer.err == b"" if answer.status == 0 else in_form(answer.err) and answer.err != b""


def claim(name, answer, status, out=b"", err=None):
    """One claim on the status, every byte of standard output, and standard error, its form where no bytes are
    wanted."""
    found = answer.err if err is not None else told(answer) or answer.err
    expect(name, (answer.status, answer.out, found), (status, out, True if err is None else err))


def why(film, number):
    """The line on standard error that says a refusal in a sentence."""
    return b"paff: %s: %s (%d)\n" % (os.fsencode(film), SENTENCES[number].encode("ascii"), number)


def claim_refused(name, answer, number, film="film"):
    claim(name, answer, 1, b"refused\t%d\n" % number, why(film, number))


def claim_not_got(name, answer, number, film="film"):
    """A refusal of get, whose standard output is for the bytes of the film."""
    claim(name, answer, 1, b"", b"refused\t%d\n" % number + why(film, number))


def claim_each_refused(name, command, words, number):
    """A refusal, whatever the subcommand."""
    film = next(word for word in words[1:] if not word.startswith("-"))
    (claim_not_got if words[0] == "get" else claim_refused)(name, command.run(*words), number, film)


def claim_missing(name, answer, position, described=None):
    """One line on standard error that has the position's number and why it is not served, by the described length where
    that is given, and nothing else."""
    whys = [b"is missing", b"is not below the described length"]
    if described is not None:
        whys = whys[:1] if position < described else whys[1:]
    lines = [b": position %d %s\n" % (position, why) for why in whys]
    named = answer.err.count(b"\n") == 1 and answer.err.endswith(tuple(lines))
    expect(name, (answer.status, answer.out, told(answer), named or answer.err), (1, b"", True, True))


def difference(found, wanted):
    """None, or where two contents begin to differ; a content may be of many MiB, too long to be printed."""
    if found == wanted:
        return None
    if found is None or wanted is None:
        return "no file" if found is None else "a file"
    shorter = min(len(found), len(wanted))
    first = next((at for at in range(shorter) if found[at] != wanted[at]), shorter)
    return f"{len(found)} bytes, not {len(wanted)}, or other ones from {first} on: {found[first:first + 24]!r}, not {wanted[first:first + 24]!r}"


def claim_held(name, command, film, wanted):
    """A claim on every byte of a file; None where there is to be no file."""
    expect(name, difference(command.held(film), wanted), None)


def wait_until(reached):
    """Whether something is reached soon."""
    end = time.monotonic() + SOON
    while time.monotonic() < end:
        if reached():
            return True
        time.sleep(0.01)
    return False
