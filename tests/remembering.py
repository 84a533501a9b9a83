"""Lets the model remember what it said of the file or reading that it was last asked about, so that many calls on one
file cost one reading."""

import model
import model_salvage

# Functions of the model that are pure, with a file or a reading as their first argument.
REMEMBERED = ["accept", "read_earlier", "edges", "supplier", "run_length", "ranges", "named_ranges", "accept_index"]
REMEMBERED_OF_SALVAGE = ["salvaged", "dropped_and_faults"]


def remembered(step):
    """The same function, each answer worked out once while its first argument stays the same; a refusal is raised
    again."""
    subject, known = None, {}

    def again(given, *more):
        nonlocal subject, known
        if given != subject:
            subject, known = given, {}
        if more not in known:
            known[more] = model.attempt(step, given, *more)
        number, value = known[more]
        model.refuse_if(number, number)
        return value

    return again


def remember():
    for name in REMEMBERED:
        setattr(model, name, remembered(getattr(model, name)))
    for name in REMEMBERED_OF_SALVAGE:
        setattr(model_salvage, name, remembered(getattr(model_salvage, name)))
