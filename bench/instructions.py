"""Counts the instructions that one call takes, of the proved library and of the plain C program, on the films of the
benchmark.

usage: python3 bench/instructions.py BENCH FOLDER [CALL FILM]

BENCH is the benchmark, with the places of its parts in BENCH.places beside it; FOLDER has the films. The emulator takes
one instruction at a time and writes down its address; what two calls take more than one is what one call takes.
Instructions of the C library are told apart: most of them make a table ready, and a string instruction counts there for
each of its bytes.
"""

import re
import shutil
import subprocess
import sys

CASES = [("read", "ordinary", 0), ("read", "largest", 0), ("read", "far", 0), ("read", "refused", 0), ("read", "chunks_16", 0),
         ("serve", "ordinary", 1048575), ("ask", "ordinary", 1048575), ("ask", "in_order", 65535),
         ("list", "ordinary", 0), ("list", "overlapping", 0), ("list", "in_order", 0), ("list", "largest", 0), ("list", "chunks_16", 0),
         ("map", "ordinary", 0), ("map", "in_order", 0), ("map", "damaged", 0), ("map", "chunks_16", 0), ("missmap", "in_order", 0),
         ("index", "in_order", 0), ("read", "indexed", 0), ("index", "indexed", 0),
         ("read", "layered", 0), ("list", "layered", 0), ("map", "layered", 0)]


def emulator():
    """Debian's emulator, which each processor can have."""
    found = shutil.which("qemu-x86_64")
    if not found:
        sys.exit("no emulator: install Debian's qemu-user")
    return found


def one_at_a_time(program):
    """The option by which the emulator takes one instruction at a time, which has another name in older ones."""
    said = subprocess.run([program, "-help"], capture_output=True, text=True, check=False).stdout
    return "-one-insn-per-tb" if "-one-insn-per-tb" in said else "-singlestep"


def stretches(bench):
    """Where the code of each program stands: first address and end of each of its parts."""
    found = {"proved": [], "plain": []}
    with open(bench + ".places", encoding="utf-8") as lines:
        text = lines.read()
    for first, size, of in re.findall(r"^ \.text\S*\s+0x([0-9a-f]+)\s+0x([0-9a-f]+)\s+\S*/(proved|plain)\.o$", text, re.M):
        found[of].append((int(first, 16), int(first, 16) + int(size, 16)))
    return found


def counted(words, within):
    """How many instructions a run takes within some stretches, and how many elsewhere."""
    run = subprocess.Popen(words, stdout=subprocess.DEVNULL, stderr=subprocess.PIPE, text=True)
    inside = outside = 0
    for line in run.stderr:
        place = re.match(r"Trace \d+: \S+ \[[0-9a-f]+/([0-9a-f]+)/", line)
        if place:
            at = int(place.group(1), 16)
            if any(first <= at < end for first, end in within):
                inside += 1
            else:
                outside += 1
    if run.wait():
        sys.exit("failed: %s" % " ".join(words))
    return inside, outside


def one_call(bench, folder, program, case, within):
    """What one call takes: its own instructions, and those of the C library."""
    call, film, position = case
    found, program_for = [], emulator()
    for times in (1, 2):
        words = [program_for, one_at_a_time(program_for), "-d", "exec,nochain", bench, folder, program, call, film, str(position), str(times)]
        found.append(counted(words, within))
    return found[1][0] - found[0][0], found[1][1] - found[0][1]


def main():
    if len(sys.argv) not in (3, 5):
        sys.exit(__doc__)
    bench, folder = sys.argv[1:3]
    places = stretches(bench)
    cases = [case for case in CASES if len(sys.argv) == 3 or list(case[:2]) == sys.argv[3:]]
    print("case\tproved\tof the C library\tplain C\tof the C library\tratio")
    for case in cases:
        proved, made_ready = one_call(bench, folder, "proved", case, places["proved"])
        plain, library = one_call(bench, folder, "plain", case, places["plain"])
        print("%s %s\t%d\t%d\t%d\t%d\t%.2f" % (case[0], case[1], proved, made_ready, plain, library, proved / plain), flush=True)


main()
