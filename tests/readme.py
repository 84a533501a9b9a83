"""Types the lines of README.md on `paff`, as they stand there, and holds what is printed against what README.md says.

usage: python3 tests/readme.py

In an indented block the lines up to the first empty one are typed, and those behind it are printed. They are typed in a
folder of their own, which has links to what a reader has in this one; the port that README.md names is taken by one
such run at a time.
"""

import os
import re
import socket
import subprocess
import tempfile
import time

import expecting
from corpus import ROOT
from expecting import expect

FIRST, LAST = "### Whose box is it?", "### Chunks held elsewhere"
LONGEST = 300
SERVER = "target/nginx.pid"

# What a reader's shell does not have, and `make` says something about or the bar is as wide as.
UNLIKE_A_READER = ("COLUMNS", "MAKEFLAGS", "MAKELEVEL", "MFLAGS")


def blocks(text):
    """The indented blocks, each as what is typed and what is printed."""
    for block in re.findall(r"(?:^(?: {4}.*)?\n)+", text, re.MULTILINE):
        lines = [line[4:] for line in block.strip("\n").split("\n")]
        if block.strip():
            typed, _, printed = "\n".join(lines).partition("\n\n")
            yield typed, printed + "\n" if printed else ""


def type_in(folder, typed, printed):
    """What is typed as lines of a shell, each of which has to succeed."""
    env = {name: value for name, value in os.environ.items() if name not in UNLIKE_A_READER and not name.lower().endswith("_proxy")}
    answer = subprocess.run(["sh", "-eu", "-c", typed], cwd=folder, env=env, stdin=subprocess.DEVNULL, capture_output=True, timeout=LONGEST, check=False)
    expect(typed, (answer.returncode, answer.stdout.decode("utf-8", "replace"), answer.stderr), (0, printed, b""))


def alone():
    """A name of the system that one run has at a time, whoever runs it, until it ends; waits for it."""
    name, end = socket.socket(socket.AF_UNIX), time.monotonic() + LONGEST
    while True:
        try:
            name.bind("\0vrazhupa-readme")
            return name
        except OSError:
            if time.monotonic() > end:
                raise
            time.sleep(0.5)


def stop_server(folder):
    """Ends nginx where a line that failed left it."""
    pid = os.path.join(folder, SERVER)
    if os.path.exists(pid):
        with open(pid, encoding="ascii") as file:
            os.kill(int(file.read()), 15)


def main():
    with open(os.path.join(ROOT, "README.md"), encoding="utf-8") as file:
        text = file.read().split(FIRST)[1].split(LAST)[0]
    with alone(), tempfile.TemporaryDirectory() as folder:
        for name in ("paff", "samples"):
            os.symlink(os.path.join(ROOT, name), os.path.join(folder, name))
        os.mkdir(os.path.join(folder, "target"))
        try:
            for typed, printed in blocks(text):
                type_in(folder, typed, printed)
        finally:
            stop_server(folder)
    return expecting.close()


if __name__ == "__main__":
    raise SystemExit(main())
