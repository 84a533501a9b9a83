"""The largest stack of each exported call, read from the machine code of the archive: python3 bench/stack.py ARCHIVE

A function's frame is what it pushes and takes off the stack pointer, and the return address; a call's stack is the
largest sum along the calls that its function makes. An index list and its boxes call each other, eight levels deep.
std's sort of up to 1,024 spans calls itself for the part before a pivot, no deeper than twice the logarithm of their
number, and for a pivot the median of medians of an eighth, four levels deep. The archive has no other recursion and no
call through a pointer, or this ends with an error. The C library's memcpy, memmove and memset count as a return address
alone.
"""

import re
import subprocess
import sys

FUNCTION = re.compile(r"^[0-9a-f]+ <(.+)>:$")
PUSH = re.compile(r"\tpush ")
TAKES = re.compile(r"\tsub +\$0x([0-9a-f]+),%(rsp|r11)")
PAGE = 0x1000
CALLS = re.compile(r"\tcall ")
LEAPS = re.compile(r"\tjmp ")
TARGET = re.compile(r"R_X86_64_(?:PLT32|PC32)\t(?:\.text\.)?(.+?)-0x4")
EXPORTED = "vrazhupa_"
WORD = 8
FROM_C = {"memcpy", "memmove", "memset"}
# What calls itself, with how many levels there are.
LEVELS = [(re.compile("index_list|indexed_box"), 8), (re.compile("quicksort"), 21), (re.compile("median_of_medians"), 4)]


def taken_by(line):
    """What a line takes off the stack. Of many pages each is taken in a loop, up to a mark in r11 that lies below by
    all of them: the mark is made once, and the line of the loop takes the page that the mark counts too many. Of less
    than a page r11 is no mark."""
    taken = TAKES.search(line)
    if not taken:
        return 0
    size = int(taken[1], 16)
    return size if taken[2] == "rsp" else max(0, size - PAGE)


def functions(archive):
    """Of each function its frame, and what it calls."""
    said = subprocess.run(["x86_64-linux-gnu-objdump", "-dr", "--no-show-raw-insn", archive], capture_output=True, text=True, check=True).stdout
    frames, calls, name, waiting = {}, {}, None, False
    for line in said.split("\n"):
        start = FUNCTION.match(line)
        if start:
            name = start[1]
            frames[name], calls[name] = WORD, set()
        elif name:
            frames[name] += WORD if PUSH.search(line) else taken_by(line)
            target = TARGET.search(line)
            if waiting and target:
                calls[name].add(target[1])
            elif waiting and waiting.endswith(f"<{name}>"):
                calls[name].add(name)
            elif waiting and CALLS.search(waiting):
                sys.exit(f"a call without a name in {name}: {waiting}")
            waiting = line if CALLS.search(line) or LEAPS.search(line) else None
    return frames, calls


def levels(name):
    """How often a function may stand above itself."""
    return next((many for pattern, many in LEVELS if pattern.search(name)), 1)


def deepest(name, frames, calls, above=()):
    if name in FROM_C:
        return WORD
    if name in above and levels(name) == 1:
        sys.exit(f"{name} calls itself")
    if above.count(name) == levels(name):
        return 0
    return frames[name] + max((deepest(called, frames, calls, (*above, name)) for called in calls[name]), default=0)


frames, calls = functions(sys.argv[1])
for name in sorted(frames):
    if name.startswith(EXPORTED):
        print(f"{name}\t{deepest(name, frames, calls)}")
