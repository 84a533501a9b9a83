"""Holds an implementation of include/vrazhupa.h against the model, on foreign, cut and spoiled files and in random runs
of begin and append.

usage: python3 tests/scale.py [--salvage] [--cases N] [--seed S] WORDS...
       python3 tests/scale.py [--salvage] [--seed S] --show CASE

WORDS are how the driver is run. It is made of tests/scale/*.c and whatever library is to be compared:

    x86_64-linux-gnu-gcc -std=c11 -D_GNU_SOURCE -O2 -Iinclude -static -o target/command/scale tests/scale/*.c target/staticlib/libvrazhupa.a

A case is one call, and the comparison ends with the file or run of appends in which case N is made. The driver prints
each difference, and at last its counts; its status is the status here, or 1 where so many cases did not meet every
refusal. --salvage makes the cases of salvage alone. --show prints a case of a seed with all that it is given, and
compares nothing.
"""

import argparse
import random
import subprocess
import sys
import time

import remembering
import scale_files
import scale_largest
import scale_reading
import scale_salvaging
import scale_writing
from faults import FAULTS
from scale_stream import Shown, Stream

# So many cases have to meet each of these.
LONG_ENOUGH = 10_000
REFUSALS = {1, 26} | set(FAULTS) | set(range(30, 36))
IN_TEXTS = {"map": {1, 27} | set(FAULTS), "missmap": {1, 27} | set(FAULTS), "boxes": set(range(1, 7)) | {27}}
OF_SALVAGE = {"salvage_lines": scale_salvaging.IN_LINES}
AT_ONCE = 1 << 20


def arguments():
    parser = argparse.ArgumentParser(description=__doc__.split("\n\n")[0])
    parser.add_argument("--cases", type=int, default=10_000)
    parser.add_argument("--seed", type=int, default=1)
    parser.add_argument("--show", type=int)
    parser.add_argument("--salvage", action="store_true")
    parser.add_argument("words", nargs=argparse.REMAINDER)
    given = parser.parse_args()
    if not given.words and given.show is None:
        parser.error("how is the driver run?")
    return given


def send(stream, cases):
    """The largest files, all that the corpora have, then files and runs in turn, and the end of the stream."""
    rng = stream.rng
    scale_largest.largest_cases(stream, rng)
    scale_writing.corpus_runs(stream)
    listed = scale_files.of_corpora()
    for file in listed:
        scale_reading.few_cases(stream, rng, file)
    chosen = scale_files.chooser(listed)
    while stream.cases < cases:
        scale_reading.file_cases(stream, rng, chosen(rng))
        scale_writing.run_cases(stream, rng)
    stream.end()


def send_salvage(stream, cases):
    """The cases of salvage alone: the largest files, all that the corpora have, then spoiled files and any others."""
    rng = stream.rng
    scale_largest.salvage_cases_of_largest(stream, rng)
    listed = scale_files.of_corpora()
    for file in listed:
        scale_salvaging.salvage_cases(stream, rng, file)
    chosen = scale_files.chooser(listed)
    while stream.cases < cases:
        for _ in range(4):
            scale_salvaging.spoiled_cases(stream, rng)
        scale_salvaging.salvage_cases(stream, rng, chosen(rng))
    stream.end()


def sent_to(driver, stream, given):
    """Sends all to the driver; whether it was there to take it."""
    try:
        try:
            (send_salvage if given.salvage else send)(stream, given.cases)
        finally:
            driver.stdin.close()
    except BrokenPipeError:
        print("the driver stopped before its end")
        return False
    return True


def all_met(stream, salvage):
    """Whether so many cases met every refusal; says which they did not."""
    unmet = {"answers": sorted(REFUSALS - set(stream.refusals))}
    if salvage:
        unmet = {"answers of salvage": sorted(scale_salvaging.REFUSALS - set(stream.refusals_of_salvage)),
                 "lines of salvage": sorted(scale_salvaging.DROPPED - set(stream.dropped))}
    for name, numbers in (OF_SALVAGE if salvage else IN_TEXTS).items():
        unmet["texts of " + name] = sorted(numbers - set(stream.refusals_in_texts[name]))
    if stream.cases < LONG_ENOUGH or not any(unmet.values()):
        return True
    print(f"refusals not met: {unmet}")
    return False


def listed_by_number(counts):
    return ", ".join(f"{number}: {count}" for number, count in sorted(counts.items()))


def say_met(stream):
    """What the texts and the calls of salvage met."""
    for name, refusals in stream.refusals_in_texts.items():
        print(f"refusals in texts of {name}: " + listed_by_number({number: count for number, count in refusals.items() if number}))
    print(f"answers of salvage: {listed_by_number(stream.refusals_of_salvage)}; numbers in its lines: {listed_by_number(stream.dropped)}")


def compare(given):
    """Runs the driver on the stream; its status."""
    start = time.monotonic()
    driver = subprocess.Popen(given.words, stdin=subprocess.PIPE, bufsize=AT_ONCE)
    stream = Stream(random.Random(given.seed), driver.stdin.write)
    whole = sent_to(driver, stream, given)
    status = driver.wait()
    say_met(stream)
    print(f"seed {given.seed}, {stream.cases} cases in {time.monotonic() - start:.0f} seconds")
    return status or (0 if whole and all_met(stream, given.salvage) else 1)


def show(given):
    try:
        (send_salvage if given.salvage else send)(Stream(random.Random(given.seed), lambda content: None, given.show), given.show)
    except Shown:
        return 0
    print("no such case")
    return 1


def main():
    given = arguments()
    remembering.remember()
    return show(given) if given.show is not None else compare(given)


if __name__ == "__main__":
    sys.exit(main())
