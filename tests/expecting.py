"""Counts what a check expects, prints what is not so, and closes with the count."""

passed = failed = 0

# Whether a check ends at the first thing that is not so.
end_at_first = False


def expect(name, found, wanted=True):
    global passed, failed
    if found == wanted:
        passed += 1
    else:
        failed += 1
        print(f"FAILED {name}: found {found!r}, wanted {wanted!r}")
        if end_at_first:
            raise SystemExit(1)


def claims():
    """How many things were expected so far."""
    return passed + failed


def close():
    """Prints the count; the exit status."""
    print(f"{passed} passed, {failed} failed")
    return 1 if failed else 0
