"""Runs the tests of the command: every subcommand, refusal and failure that a person can meet.

usage: python3 tests/command.py [--first GROUPS] WORDS...

WORDS start the program, as target/command/paff, or qemu-x86_64 target/command/paff where the processor is no x86-64.
With --first it begins with the named groups, parted by commas, and ends at the first claim that fails.
"""

import signal
import sys
import tempfile
import time

import command_failing
import command_help
import command_index
import command_info
import command_killed
import command_large
import command_show
import command_sources
import command_together
import command_traced
import command_usage
import command_write
import expecting
from command_run import Command

GROUPS = {
    "usage": command_usage, "help": command_help, "index": command_index, "info": command_info, "sources": command_sources, "write": command_write, "failing": command_failing, "traced": command_traced, "killed": command_killed,
    "together": command_together, "large": command_large, "show": command_show}


def run_group(name, group, words):
    before, began = expecting.claims(), time.monotonic()
    with tempfile.TemporaryDirectory() as folder:
        group.check(Command(words, folder))
    print(f"{name}: {expecting.claims() - before} claims in {time.monotonic() - began:.1f} s", flush=True)


def heed_signals():
    """A shell that runs this in the background lets it ignore signals, which the command would inherit."""
    for number in (signal.SIGHUP, signal.SIGINT, signal.SIGQUIT):
        if signal.getsignal(number) == signal.SIG_IGN:
            signal.signal(number, signal.SIG_DFL)


def main():
    heed_signals()
    expecting.end_at_first = sys.argv[1:2] == ["--first"]
    first, words = (sys.argv[2:3], sys.argv[3:]) if expecting.end_at_first else ([""], sys.argv[1:])
    if not words:
        print(__doc__.strip(), file=sys.stderr)
        return 2
    named = [name for name in first[0].split(",") if name]
    for name in named + [name for name in GROUPS if name not in named]:
        run_group(name, GROUPS[name], words)
    print(f"{expecting.claims()} claims, {expecting.failed} failed")
    return 1 if expecting.failed else 0


if __name__ == "__main__":
    raise SystemExit(main())
