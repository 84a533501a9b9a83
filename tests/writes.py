"""Writes the corpus of crates/writing_run and the model's answers to it, or says whether the ones there are these.

usage: python3 tests/writes.py [--check]

A record of `stdin` is a run. Four numbers of two bytes, most significant first: the length of its name, the bytes lent
as the buffer, the length of the file that stands in it at first, and how many calls are made; then the name, the file
and the calls. A begin is four numbers of two bytes, 0, the brand (0 is `paff`, 1 `pmff`) and the lengths of the URL and
of the MIME text, and the two texts. An append is 1, whether its good chunks go outside (1 where they do), how many
numbers of its chunk list are given, and the length of its data; then eight numbers of eight bytes, the stated length,
source offset, repair time, flags, and the length of the list, which goes on with the same numbers again, how many text
lengths are given, the length of that list, which goes on in the same way, and how many text bytes there are; then the
numbers of the chunk list, the data, the text lengths and the text bytes. `stdout` is made of the model's answers alone;
at the end of a run the file is read twice, with source 0 and with source 1.

Refusal 1 is not met: it takes a file of over 1,073,741,824 bytes.
"""

import os
from collections import Counter

import model
import writes_elsewhere
import writes_index
import writes_limits
import writes_mixed
import writes_random
import writes_refusals
import writes_sources
from corpus import ROOT, command, line, read_line
from additions import BRANDS
from faults import FAULTS
from sums import sum_of
from writes_run import Append, Begin, length_after, performed

CRATE = os.path.join(ROOT, "crates", "writing_run")
MOST_BYTES = 630_000
SHORT = 96
OF_BEGIN = {33, 34}
OF_APPEND = set(FAULTS) - {12} | set(range(30, 36))
MOST_LENGTHS = 1_300


def runs():
    return [run for part in (writes_refusals, writes_limits, writes_mixed, writes_elsewhere, writes_index, writes_sources, writes_random) for run in part.runs()]


# Their bytes.

def numbers(width, *given):
    return b"".join(number.to_bytes(width, "big") for number in given)


def encoded_call(call):
    if isinstance(call, Begin):
        return numbers(2, 0, BRANDS.index(call.brand), len(call.url), len(call.mime)) + call.url + call.mime
    assert call.length_count <= MOST_LENGTHS
    front = numbers(2, 1, int(call.outside), len(call.given), len(call.data))
    front += numbers(8, call.stated, call.offset, call.repair, call.flags, call.count, len(call.lengths), call.length_count, len(call.texts))
    return front + numbers(8, *call.given) + call.data + numbers(8, *call.lengths) + call.texts


def encoded(run):
    name = run.name.encode("ascii")
    front = numbers(2, len(name), run.lent, len(run.file), len(run.calls))
    return front + name + run.file + b"".join(encoded_call(call) for call in run.calls)


# What the program is to write.

def call_line(call, answer, buffer):
    """The answer, the sum of the whole buffer, and the new bytes where they are few."""
    begun = isinstance(call, Begin)
    fields = [*answer, "sum", sum_of(buffer)]
    start = 0 if begun else call.stated
    if answer[0] == "length" and answer[1] - start <= SHORT:
        fields += ["bytes", *["%02x" % byte for byte in buffer[start:answer[1]]]]
    return line("begin" if begun else "append", *fields)


def read_lines(file):
    """What is read of the first source and of the second."""
    answer = model.read(file)
    if answer[0] == "refused":
        return 2 * line(*answer)
    return "".join(read_line(file, *map(len, answer[1:]), source) for source in (0, 1))


def answers(run):
    lines, length, buffer = [line("=", run.name)], len(run.file), run.file
    for call, answer, buffer in performed(run.file, run.lent, run.calls):
        lines.append(call_line(call, answer, buffer))
        length = length_after(answer, length)
    return "".join(lines) + read_lines(buffer[:length])


# The command.

def number_of(answer):
    return answer[1] if answer[0] == "refused" else 0


def agrees(wanted, found):
    return wanted is None or len(wanted) == len(found) and all(number in (None, other) for number, other in zip(wanted, found))


def checked(made):
    """How many calls of each kind have each number; each has the one that is wanted, and none is missing."""
    counts = {Begin: Counter(), Append: Counter()}
    for run in made:
        calls = performed(run.file, run.lent, run.calls)
        found = [number_of(answer) for call, answer, buffer in calls]
        assert agrees(run.wanted, found), (run.kind, run.name, found)
        for (call, answer, buffer), number in zip(calls, found):
            counts[type(call)][number] += 1
    names = Counter((run.kind, run.name) for run in made)
    assert max(names.values()) == 1, names.most_common(3)
    assert set(counts[Begin]) == OF_BEGIN | {0} and set(counts[Append]) == OF_APPEND | {0}, counts
    return counts


def told(word, counts):
    refused = ", ".join(f"{number}: {counts[number]}" for number in sorted(counts) if number)
    return f"{word} {sum(counts.values())}, taken {counts[0]}, refused {refused}"


def main():
    made = runs()
    counts = checked(made)
    print(told("begins", counts[Begin]) + "; " + told("appends", counts[Append]))
    return command(CRATE, made, Counter(run.kind for run in made), encoded, answers, MOST_BYTES)


if __name__ == "__main__":
    raise SystemExit(main())
