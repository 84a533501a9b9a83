"""Holds two implementations of include/vrazhupa.h against each other, one from before a change and one from after it,
and says where their answers or lent bytes differ.

usage: python3 tests/between.py [--cases N] [--seed S] [--request R] --old WORDS --new WORDS

WORDS, in quotes, are how each driver is run; both are made of tests/scale/*.c, as tests/scale.py says. They are sent
the cases that tests/scale.py makes with that seed, without the calls that only one of them has, or cannot be asked; the
map that does not name damage is the map of one from before request 6. Of each call its answer and a sum of each lent
memory, with what lies around it, are compared. Differences are counted by old answer, new answer and call. With
--request R one is expected where the model says of the call that this request changes its answer, from the old one if
the model can tell that (tests/before.py), and the new answer is the model's; without, none is. The status is 1 where
one is not expected, or where the model says exactly when answers change and one that is expected does not come;
`tests/scale.py --seed S --show CASE` shows a case.

A driver for an implementation from before request 2 is built with that one's header and -DBEFORE_MIXED, and for one from
before request 8 with -DBEFORE_SOURCES, so that its rows have the number of its only source too.
"""

import argparse
import contextlib
import random
import shlex
import subprocess
import sys
import tempfile
from collections import Counter, defaultdict, namedtuple

import remembering
from before import CHANGES, EXACT
from scale import AT_ONCE, send
from scale_stream import BEFORE, END, FILE, FORMS, LENGTHS, LIST, TEXTS, TOO_LARGE, Stream

# What begin and append were not asked before request 2, and what was the map before request 6. The calls that name a
# source, which has the number 0 before request 8.
SINCE_MIXED = {"begin": "begin-mixed", "append": "append-outside"}
FORMERLY = {"missmap": "map"}
OF_A_SOURCE = ("read", "serve", "ask", "list")
SHOWN = 10
# How two answers stand to what is expected of them.
EXPECTED, NOT_EXPECTED, MISSED = "expected", "NOT EXPECTED", "EXPECTED TO DIFFER"

# A call that both made: its number in the stream, the model's answer, the file that it was about, None where that is
# too large to be kept, the chunk list of an append, eight bytes a number, and its own numbers.
Made = namedtuple("Made", "case name answer file packed_list numbers")


class Driver:
    """A driver that reports, its report in a file, so that it never waits for a reader."""

    def __init__(self, words):
        self.calls = set(subprocess.run([*words, "calls"], stdout=subprocess.PIPE, check=True).stdout.decode().split())
        self.report = tempfile.TemporaryFile()
        self.process = subprocess.Popen([*words, "report"], stdin=subprocess.PIPE, stdout=self.report, bufsize=AT_ONCE)

    def name_of(self, asked):
        """The name by which it has a call, None where it has none."""
        return next((name for name in (asked, FORMERLY.get(asked)) if name in self.calls), None)

    def lines(self, count):
        """What it reported, once it has ended well with so many calls."""
        with contextlib.suppress(BrokenPipeError):
            self.process.stdin.close()
        status = self.process.wait()
        self.report.seek(0)
        lines = self.report.read().decode().splitlines()
        if status != 0 or len(lines) != count:
            sys.exit(f"{self.process.args}: status {status} after {len(lines)} of {count} calls")
        return lines


class Both(Stream):
    """A stream to two drivers."""

    def __init__(self, rng, drivers):
        super().__init__(rng, self.write_to_both)
        self.drivers = drivers
        self.named = any("missmap" in driver.calls for driver in drivers)
        self.made = []
        self.left_out = Counter()

    def write_to_both(self, content):
        for driver in self.drivers:
            driver.process.stdin.write(content)

    def asks_for(self, name, numbers):
        """What a call asks for that not every implementation has, the call itself not counted."""
        asked = {SINCE_MIXED[name]} if name in SINCE_MIXED and numbers[-1] else set()
        if name in OF_A_SOURCE and numbers[0] > 0:
            asked.add("sources")
        if name == "append" and (self.held[TEXTS] or self.held[LENGTHS]):
            asked.add("append-texts")
        return asked

    def send(self, name, refusal, numbers, record):
        asked = self.asks_for(name, numbers)
        known = [driver.name_of(name) if asked <= driver.calls else None for driver in self.drivers]
        if None in known or name == "map" and not self.named:
            self.left_out[" with ".join([name, *sorted(asked)])] += 1
            return
        self.made.append(Made(self.cases, name, refusal, self.file_of(name, numbers), self.held.get(LIST), numbers))
        for driver, called in zip(self.drivers, known):
            kind = record[:1] if called == name else bytes([FORMS[called].kind])
            driver.process.stdin.write(kind + record[1:])

    def file_of(self, name, numbers):
        content = {"begin": b"", "append": self.held.get(BEFORE)}.get(name, self.held.get(FILE))
        if len(content) >= TOO_LARGE:
            return None
        return content[:numbers[0]] if name == "append" else content

    def end(self):
        self.write(bytes([END]) + len(self.made).to_bytes(8, "little"))


def compared(call, before, after, request):
    """Both answers, and how they stand to what is expected of them, None where they do not differ and need not."""
    old, new = [int(line.split()[0]) for line in (before, after)]
    if before == after and request not in EXACT:
        return old, new, None
    expected = request in CHANGES and new == call.answer and call.file is not None and CHANGES[request](call, old)
    if before == after:
        return old, new, MISSED if expected else None
    return old, new, EXPECTED if expected else NOT_EXPECTED


def differences(made, old, new, request):
    """How many there are of each call, by answers and how they stand to what is expected, and the first that are
    wrong."""
    found, shown = defaultdict(Counter), []
    for call, before, after in zip(made, old, new):
        answers = compared(call, before, after, request)
        if answers[2] is not None:
            found[answers][call.name] += 1
        if answers[2] in (NOT_EXPECTED, MISSED) and len(shown) < SHOWN:
            shown.append(f"case {call.case}, {call.name}: {before}, then {after}")
    return found, shown


def listed(counts):
    return ", ".join(f"{name} {count}" for name, count in sorted(counts.items()))


def say(stream, found, shown):
    print(f"{len(stream.made)} calls compared: {listed(Counter(call.name for call in stream.made))}")
    if stream.left_out:
        print(f"{stream.left_out.total()} calls left out, which not both have: {listed(stream.left_out)}")
    counts = Counter()
    for (old, new, how), calls in sorted(found.items()):
        bytes_only = " with other bytes" if old == new and how != MISSED else ""
        print(f"  {old} -> {new}{bytes_only}, {how}: {listed(calls)}")
        counts[how] += calls.total()
    for line in shown:
        print(line)
    print(f"{counts[EXPECTED] + counts[NOT_EXPECTED]} differ, {counts[NOT_EXPECTED]} of them not expected; {counts[MISSED]} do not differ and are expected to")
    return 1 if counts[NOT_EXPECTED] or counts[MISSED] else 0


def main():
    parser = argparse.ArgumentParser(description=__doc__.split("\n\n")[0])
    parser.add_argument("--cases", type=int, default=40_000)
    parser.add_argument("--seed", type=int, default=1)
    parser.add_argument("--request", type=int, choices=sorted(CHANGES))
    parser.add_argument("--old", type=shlex.split, required=True)
    parser.add_argument("--new", type=shlex.split, required=True)
    given = parser.parse_args()
    remembering.remember()
    drivers = [Driver(given.old), Driver(given.new)]
    stream = Both(random.Random(given.seed), drivers)
    with contextlib.suppress(BrokenPipeError):
        send(stream, given.cases)
    old, new = [driver.lines(len(stream.made)) for driver in drivers]
    return say(stream, *differences(stream.made, old, new, given.request))


if __name__ == "__main__":
    sys.exit(main())
