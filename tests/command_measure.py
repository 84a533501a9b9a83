"""Runs a command and writes its seconds and its peak memory in KiB to a file; the peak of a process counts that of its
parent, so this one is small.

usage: python3 tests/command_measure.py REPORT WORDS...
"""

import os
import sys
import time

if __name__ == "__main__":
    began = time.monotonic()
    child = os.fork()
    if child == 0:
        os.execvp(sys.argv[2], sys.argv[2:])
    _, status, usage = os.wait4(child, 0)
    with open(sys.argv[1], "w", encoding="ascii") as report:
        report.write(f"{time.monotonic() - began:.3f} {usage.ru_maxrss}\n")
    raise SystemExit(os.waitstatus_to_exitcode(status))
