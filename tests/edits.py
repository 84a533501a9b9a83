"""Wrong programs and wrong definitions as edits of a crate: the format of crates/NAME/must-fail and crates/NAME/wrong.

A `file:` line holds for the `old:` and `new:` pairs after it; each pair replaces a text that stands exactly once.
"""

import glob
import os

FOLDERS = ("must-fail", "wrong")
# Where an edit may change a file.
PARTS = ("src/", "specs/", "proofs/")


class Bad(Exception):
    """An edit that does not fit its crate."""


def names(top, crate, folders=FOLDERS):
    """The labels of a crate's edits in these folders, with the file of each."""
    found = []
    for folder in folders:
        for path in sorted(glob.glob(os.path.join(top, "crates", crate, folder, "*.edit"))):
            found.append((os.path.splitext(os.path.basename(path))[0], path))
    return found


def pairs(path):
    """The replacements of an edit: file, old text and new text of each."""
    found, file, old = [], None, None
    with open(path, encoding="utf-8") as lines:
        for line in lines.read().splitlines():
            if line.startswith("file: "):
                file = line[len("file: "):]
            elif line.startswith("old: "):
                old = line[len("old: "):]
            elif line.startswith("new:"):
                found.append((file, old, line[len("new:"):].removeprefix(" ")))
                old = None
    if not found:
        raise Bad("no pair of `old:` and `new:`")
    return found


def edited(crate_folder, path):
    """The files of a crate that an edit changes, each with its new text."""
    texts, before = {}, {}
    for file, old, new in pairs(path):
        if not file or not old:
            raise Bad("a `new:` without its `file:` or `old:`")
        if not file.startswith(PARTS):
            raise Bad("names no file of a crate: %s" % file)
        if file not in texts:
            with open(os.path.join(crate_folder, file), encoding="utf-8") as source:
                texts[file] = before[file] = source.read()
        times = texts[file].count(old)
        if times != 1:
            raise Bad("stands %d times in %s: %s" % (times, file, old))
        texts[file] = texts[file].replace(old, new)
    if texts == before:
        raise Bad("changes nothing")
    return texts
