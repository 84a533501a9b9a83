"""Holds the definitions of specs/ against the independent model, on generated files, additions and beginnings, and on
spoiled files that are salvaged.

usage: python3 tests/agreement.py [--files N] [--additions N] [--beginnings N] [--spoiled N] [--large] [--seed N] [--batch N]

It writes crates over ours to a folder of its own outside the repository and has the checker compute the definitions on
each case. The last line is `N passed, M failed`; a case that differs is printed with what it was made from.
"""

import argparse
import random
import sys
import tempfile
import time

import agreement_cases
import agreement_crates
import agreement_salvage
import generate

# Every refusal of the base; 1 and 27 are met by statements on the length of a list that is not written out.
BY_LENGTH = {1, 27}
REFUSALS = {1, 26, 27} | set(generate.FAULTS) | set(range(30, 36))
# Each third of the run's files is salvaged too.
STEP = 3


def arguments():
    parser = argparse.ArgumentParser(description=__doc__.split("\n")[0])
    parser.add_argument("--files", type=int, default=150)
    parser.add_argument("--additions", type=int, default=40)
    parser.add_argument("--beginnings", type=int, default=8)
    parser.add_argument("--spoiled", type=int, default=60)
    parser.add_argument("--large", action="store_true", help="salvage files of some thousand bytes too, for 6 and 13")
    parser.add_argument("--seed", type=int, default=1)
    parser.add_argument("--batch", type=int, default=150)
    return parser.parse_args()


def counts(met):
    return ", ".join("%d: %d" % (number, met[number]) for number in sorted(met))


def report(cases, salvaged, refused, seconds):
    """Prints what differs and what was met."""
    for case in refused:
        print(("differs: %s: %s" % (case.name, case.source))[:2000])
    print("refusals met: " + counts(agreement_cases.refusals(cases)))
    print("refusals of salvage met: " + counts(agreement_cases.refusals(salvaged)))
    print("dropped by salvage: " + counts(agreement_salvage.dropped(salvaged)))
    print("computed in %d seconds" % seconds)


def unmet_of(cases, salvaged, large):
    """Which refusals, and which numbers of what salvage drops, no case meets."""
    refusals = REFUSALS - BY_LENGTH - set(agreement_cases.refusals(cases))
    return ["refusal %d" % number for number in sorted(refusals)] + agreement_salvage.unmet(salvaged, large)


def main():
    given = arguments()
    rng = random.Random(given.seed)
    cases = agreement_cases.choose(rng, given.files, given.additions, given.beginnings)
    salvaged = agreement_salvage.choose(rng, given.spoiled, agreement_cases.files_of(cases)[::STEP], given.large)
    every = cases + salvaged
    batches = [every[at:at + given.batch] for at in range(0, len(every), given.batch)]
    start = time.monotonic()
    with tempfile.TemporaryDirectory() as folder:
        agreement_crates.write_all(folder, batches)
        refused, proved, output = agreement_crates.refused_cases(folder, batches)
    report(cases, salvaged, refused, time.monotonic() - start)
    unmet = unmet_of(cases, salvaged, given.large)
    if unmet:
        print("not met: " + ", ".join(unmet))
    if not proved and not refused:
        print(output[-4000:])
    failed = max(len(refused), 0 if proved else 1) + len(unmet)
    print("%d passed, %d failed" % (len(every) - len(refused), failed))
    sys.exit(1 if failed else 0)


if __name__ == "__main__":
    main()
