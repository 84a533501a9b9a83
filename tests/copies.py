"""Copies of our crates outside the repository."""

import os
import shutil
import subprocess

TOP = os.path.dirname(os.path.dirname(os.path.abspath(__file__)))


def copied(folder, crate):
    """A copy of a crate of ours in a folder's crates/, with the library that an earlier check made of it: rt takes that
    only where the crate's files are the same."""
    ours, copy = [os.path.join(top, "crates", crate) for top in (TOP, folder)]
    shutil.copytree(ours, copy, ignore=lambda at, names: {"out"} if at == ours else set())
    made = os.path.join(ours, "out", "rlib")
    if os.path.isdir(made):
        os.mkdir(os.path.join(copy, "out"))
        subprocess.run(["cp", "-a", made, os.path.join(copy, "out")], check=True)
    return copy


def rt(folder, *words):
    """What a command of rt ended with in a folder, and what it said."""
    run = subprocess.run(["rt", *words], cwd=folder, stdin=subprocess.DEVNULL, stdout=subprocess.PIPE, stderr=subprocess.STDOUT, text=True, errors="replace", check=False)
    return run.returncode, run.stdout
