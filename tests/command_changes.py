"""Changes one token of command/*.c at a time, and prints the changes that no test of the command sees. It is not in the
gate: it takes some hours.

usage: python3 tests/command_changes.py [--only NAME]... [--native] [--list]

Each change is built over the plain C program for this processor, and tried by tests/command.py up to the first claim
that fails; one that all claims let through is built again under both sanitizers, unless --native is given. A change
that does not compile is counted by itself. --only takes the changes of one file, or the one of a number, and may be
given again; --list prints the changes.
"""

import argparse
import glob
import os
import re
import subprocess
import sys
import tempfile
from collections import namedtuple

from corpus import ROOT

FLAGS = ["-std=c11", "-D_GNU_SOURCE", "-O1", "-w", "-Iinclude", "-Icommand"]
SANITIZED = ["-fsanitize=address,undefined", "-fno-sanitize-recover=all"]
LONGEST = 600

# The groups of tests/command.py that see most changes of a file, which are tried first.
NEAREST = {
    "addition.c": "usage,write,sources", "append.c": "traced,large,write,killed", "bar.c": "info", "begin.c": "write", "facts.c": "info", "files.c": "usage,together,write", "get.c": "show,failing,sources",
    "heading.c": "info", "index.c": "index", "info.c": "info", "line.c": "info", "meant.c": "sources,usage", "paff.c": "usage,help,sources", "pieces.c": "usage,write", "refusals.c": "help", "say.c": "usage,failing", "screen.c": "info,sources", "show.c": "show,sources", "sources.c": "info,sources", "surls.c": "sources,write", "tables.c": "info,index,write",
    "text.c": "info,index,show", "times.c": "write", "words.c": "usage", "writes.c": "traced,killed,failing"}

Change = namedtuple("Change", "file line old new text")

# What a token is changed to; a number is made one larger.
EXCHANGED = {"<": "<=", "<=": "<", ">": ">=", ">=": ">", "==": "!=", "!=": "==", "&&": "||", "||": "&&", "+": "-", "-": "+", "+=": "-=", "!": "", "true": "false", "false": "true",
             "DONE": "FAILED", "REFUSED": "DONE", "FAILED": "REFUSED", "<<": ">>", ">>": "<<", "|": "&"}
TOKEN = re.compile(r"->|\+\+|--|\+=|-=|\|=|<<|>>|<=|>=|==|!=|&&|\|\||[-<>+!|]|\b\d+\b|\b(?:true|false|DONE|REFUSED|FAILED)\b")


def masked(text):
    """The text with its comments, strings, characters and lines of the preprocessor blanked, so that no token is found
    there."""
    pattern = re.compile(r'/\*.*?\*/|"(?:\\.|[^"\\])*"|\'(?:\\.|[^\'\\])*\'|^#[^\n]*', re.DOTALL | re.MULTILINE)
    return pattern.sub(lambda found: re.sub(r"[^\n]", " ", found[0]), text)


def text_of(file):
    with open(os.path.join(ROOT, "command", file), encoding="utf-8") as source:
        return source.read()


def changes_in(file):
    text = text_of(file)
    for found in TOKEN.finditer(masked(text)):
        old = found[0]
        new = str(int(old) + 1) if old.isdigit() else EXCHANGED.get(old)
        if new is not None:
            changed = text[:found.start()] + new + text[found.end():]
            yield Change(file, text.count("\n", 0, found.start()) + 1, old, new, changed)


def compiled(folder, source, name, flags):
    """The object of one source; None where it does not compile."""
    answer = subprocess.run(["gcc", *FLAGS, *flags, "-c", "-o", os.path.join(folder, name), source], cwd=ROOT, capture_output=True, check=False)
    return os.path.join(folder, name) if answer.returncode == 0 else None


class Build:
    """The objects of the whole command, of which one at a time is changed."""

    def __init__(self, folder, flags):
        self.folder, self.flags = folder, flags
        os.mkdir(folder)
        sources = sorted(glob.glob(os.path.join(ROOT, "command", "*.c")) + glob.glob(os.path.join(ROOT, "bench", "plain*.c")))
        self.objects = {os.path.basename(source): compiled(folder, source, os.path.basename(source) + ".o", flags) for source in sources}

    def program(self, change):
        """The program with the change; None where it does not compile."""
        source = os.path.join(self.folder, "changed.c")
        with open(source, "w", encoding="utf-8") as file:
            file.write(change.text)
        changed = compiled(self.folder, source, "changed.o", self.flags)
        objects = self.objects | {change.file: changed}
        program = os.path.join(self.folder, "paff")
        if changed is None or subprocess.run(["gcc", *self.flags, "-o", program, *objects.values()], capture_output=True, check=False).returncode != 0:
            return None
        return program


def seen(program, file):
    """What the tests say of the program with a changed file: the first claim that fails, None where none does."""
    env = dict(os.environ, ASAN_OPTIONS="detect_leaks=0", PYTHONDONTWRITEBYTECODE="1")
    words = [sys.executable, os.path.join(ROOT, "tests", "command.py"), "--first", NEAREST.get(file, ""), program]
    try:
        answer = subprocess.run(words, env=env, capture_output=True, timeout=LONGEST, check=False)
    except subprocess.TimeoutExpired:
        return "no end"
    return None if answer.returncode == 0 else answer.stdout.decode("utf-8", "replace").strip().splitlines()[-1:] or "ended"


def tried(change, builds):
    """What a change does: it does not compile, it is seen, or it is left."""
    for build in builds:
        program = build.program(change)
        if program is None:
            return "not compiled"
        if seen(program, change.file) is not None:
            return "seen"
    return "left"


def main():
    parser = argparse.ArgumentParser()
    parser.add_argument("--only", action="append")
    parser.add_argument("--native", action="store_true")
    parser.add_argument("--list", action="store_true")
    given = parser.parse_args()
    changes = [change for path in sorted(glob.glob(os.path.join(ROOT, "command", "*.c"))) for change in changes_in(os.path.basename(path))]
    counts = {}
    with tempfile.TemporaryDirectory() as folder:
        builds = [Build(os.path.join(folder, "native"), [])]
        builds += [] if given.native else [Build(os.path.join(folder, "sanitized"), SANITIZED)]
        unchanged = changes[0]._replace(text=text_of(changes[0].file))
        if not given.list and tried(unchanged, builds) != "left":
            raise SystemExit("the tests see what was not changed")
        for number, change in enumerate(changes):
            if given.only and change.file not in given.only and str(number) not in given.only:
                continue
            answer = "listed" if given.list else tried(change, builds)
            if answer in ("left", "listed"):
                print(f"{number}: {change.file}:{change.line}: {change.old} to {change.new or 'nothing'}: {change.text.splitlines()[change.line - 1].strip()}", flush=True)
            file = counts.setdefault(change.file, {})
            file[answer] = file.get(answer, 0) + 1
    print("\n".join(f"{name}: {count}" for name, count in counts.items()))


if __name__ == "__main__":
    main()
