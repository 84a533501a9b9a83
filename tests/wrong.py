"""Tries the wrong programs of crates/NAME/wrong, which are no part of the gate: the prover has to refuse each because a
fact fails.

usage: python3 tests/wrong.py [CRATE | CRATE/LABEL]..     those of all crates, of some, or one alone, of must-fail/ too
       python3 tests/wrong.py --texts                     whether each `old:` text of wrong/ and must-fail/ stands exactly once

Each is tried by `rt must-fail` in a copy of the tree, in which the wrong programs that are asked for are all that
must-fail/ has. The crates are checked there before: of one that is not proved as it stands anything would be refused. A
line says why each was refused; the last line is `N passed, M failed`. One that is refused only since the proof no longer
fits the code or at a limit of the prover, or that does not compile, shows nothing about a contract and fails.
"""

import os
import re
import shutil
import sys
import tempfile

import edits
import expecting
from copies import TOP, copied, rt

# What `rt must-fail` says of one, as a pattern of what stands behind its name, and what that is here.
VERDICTS = [
    ("shape", r"refused, as it must be \(only because a proof file"),
    ("limit", r"refused, as it must be \(only by a limit"),
    ("fact", r"refused, as it must be"),
    ("does not fit", r"BAD EDIT: (an 'old:'|a 'file:'|a 'new:'|there is no file|it has no|it changes nothing)"),
    ("words", r"BAD EDIT"),
    ("not refused", r"NOT REFUSED"),
    ("not understood", r"NOT TRIED")]


def crates():
    with open(os.path.join(TOP, "crates.txt"), encoding="utf-8") as lines:
        return [line.split(":")[0].split()[0] for line in lines if ":" in line and not line.startswith("#")]


def look_at_texts():
    for crate in crates():
        for label, path in edits.names(TOP, crate):
            try:
                edits.edited(os.path.join(TOP, "crates", crate), path)
                found = "fits"
            except (edits.Bad, OSError) as bad:
                found = str(bad)
            expecting.expect("%s/%s" % (crate, label), found, "fits")


def wanted(words):
    """The wrong programs that are asked for: crate, label and file of each."""
    found = []
    for word in words or crates():
        crate, _, label = word.partition("/")
        of_crate = edits.names(TOP, crate, edits.FOLDERS if label else ("wrong",))
        found += [(crate, name, path) for name, path in of_crate if label in ("", name)]
        if label and (crate, label) not in [(c, n) for c, n, _ in found]:
            sys.exit("there is no wrong program %s" % word)
    return found


def copy_of_tree(folder, jobs):
    """The crates, with these wrong programs alone."""
    for crate in crates():
        shutil.rmtree(os.path.join(copied(folder, crate), "must-fail"), ignore_errors=True)
    for name in ("crates.txt", "HANDLES"):
        if os.path.exists(os.path.join(TOP, name)):
            shutil.copy(os.path.join(TOP, name), folder)
    for crate, label, path in jobs:
        own = os.path.join(folder, "crates", crate, "must-fail")
        os.makedirs(own, exist_ok=True)
        shutil.copy(path, os.path.join(own, label + ".edit"))


def verdict(text):
    """What came of one by what was said of it: `fact` where all is well; and the reason that was given."""
    found = next((name for name, pattern in VERDICTS if re.match(pattern, text)), "not understood")
    return found, re.sub(r"^[^:]*: ", "", text)


def try_all(jobs):
    of = list(dict.fromkeys(crate for crate, _, _ in jobs))
    with tempfile.TemporaryDirectory() as folder:
        copy_of_tree(folder, jobs)
        for crate in of:
            status, said = rt(os.path.join(folder, "crates", crate), "check")
            if status:
                sys.exit("%s is not proved as it stands\n%s" % (crate, said[-2000:]))
        said = rt(folder, "must-fail", *of)[1]
    told = dict(re.findall(r"^rt: must-fail (\S+)\.edit: (.*)$", said, re.MULTILINE))
    for crate, label, _ in jobs:
        found, reason = verdict(told.get("%s/%s" % (crate, label), said[-400:]))
        print("%s/%s: %s: %s" % (crate, label, found, reason[:160]), flush=True)
        expecting.expect("%s/%s" % (crate, label), found, "fact")


def main():
    words = sys.argv[1:]
    if words == ["--texts"]:
        look_at_texts()
    elif any(word.startswith("-") for word in words):
        sys.exit(__doc__)
    else:
        try_all(wanted(words))
    sys.exit(expecting.close())


main()
