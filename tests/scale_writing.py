"""Makes the cases of begin and append: random runs on a file begun or on any other, with buffers of every awkward
length, and the runs of the corpus."""

import additions
import additions_texts
import generate
import model
import writes_elsewhere
import writes_index
import writes_limits
import writes_mixed
import writes_random
import writes_refusals
import writes_sources
from boxes import bare_head
from scale_reading import awkward, file_cases, number_of
from scale_stream import AFTER, BEFORE, DATA, LENGTHS, LIST, MIME, NONE, TEXTS, URL, Memory, packed
from writes_run import Append, Begin, chunk_list, lent_buffer, made, of_arguments, performed, text_lengths, with_texts

# The longest buffer that is lent for a stated length which no buffer holds.
LONGEST = 400_000
# Sizes of data at which a width changes, and some that are large.
LARGE = (127, 128, 129, 255, 256, 257, 32_767, 32_768, 32_769, 65_535, 65_536, 150_000)


# Faults of an append in an order in which each can be put beside the earlier ones. Those that fill the file up come
# seldom, as it is large then.
FILLINGS = [additions_texts.fill_with_sources, additions.fill_with_chunks, additions.fill_with_segments, additions.fill_with_boxes]
FAULTS = [additions.overstep_limit, additions.overstep_size, additions.spoil_outside, additions_texts.put_zero, additions.spoil_data, additions.spoil_lists]


# One case each. `known` is the front of the buffer; what lies behind it is marks, which the model need not know, since
# it is not read.

def begin_case(stream, call, room):
    answer, buffer = made(bytes(room), call)
    refusal = number_of(answer)
    stream.hold(URL, call.url)
    stream.hold(MIME, call.mime)
    if not refusal:
        stream.hold(AFTER, buffer[:answer[1]])
    memories = [Memory(room, NONE, NONE if refusal else AFTER), stream.whole(URL), stream.whole(MIME)]
    stream.call("begin", refusal, (additions.BRANDS.index(call.brand),), memories, answer[1:])


def append_case(stream, known, call, room):
    known = known[:room]
    assert call.stated <= len(known) or call.stated > room, "the file would go on into the marks"
    answer, buffer = made(known + bytes(room - len(known)), call)
    refusal = number_of(answer)
    stream.hold(BEFORE, known)
    stream.hold(AFTER, buffer[:max(len(known), 0 if refusal else answer[1])])
    stream.hold(LIST, packed(chunk_list(call)))
    stream.hold(DATA, call.data)
    stream.hold(TEXTS, call.texts)
    stream.hold(LENGTHS, packed(text_lengths(call)))
    memories = [Memory(room, BEFORE, AFTER), stream.whole(LIST, 8), stream.whole(DATA), stream.whole(TEXTS), stream.whole(LENGTHS, 8)]
    stream.call("append", refusal, (call.stated, call.offset, call.repair, call.flags % 2, call.outside), memories, answer[1:])


def addition_case(stream, given):
    """A case of arguments as tests/additions.py makes them."""
    append_case(stream, given["buffer"], of_arguments(given), len(given["buffer"]))


def addition_with_faults(rng, file):
    """Arguments with two faults or more, of which the model says which one counts; only a file that append takes can be
    filled up."""
    given = additions.acceptable(rng, file)
    taken = model.attempt(model.read_earlier, file)[0] == 0
    fillings = rng.sample(FILLINGS, rng.choice([0] * 12 + [1, 1, 2, 3])) if taken else []
    faults = rng.sample(FAULTS, 2)
    for step in FILLINGS + FAULTS:
        if step in fillings or step in faults:
            step(rng, given)
    additions.lend_buffer(rng, given)
    if rng.random() < 0.3:
        given["buffer"] = given["buffer"][:rng.randint(given["stated_length"] - 1, len(given["buffer"]))]
    return given


# Runs.

def begin_cases(stream, rng, call):
    """All awkward lengths; the file that is begun."""
    end = 54 + len(call.url) + len(call.mime)
    for room in awkward(end):
        begin_case(stream, call, room)
    for given in (generate.beginning(rng), generate.faulty_beginning(rng, 34)):
        begin_case(stream, Begin(given["brand"], given["url"], given["mime"]), len(given["buffer"]))
    return made(bytes(end), call)[1]


def append_cases(stream, rng, known, call):
    """A buffer that just holds the result, and some that do not or have bytes to spare; the file that is left."""
    if call.stated > len(known):
        for room in (len(known), min(call.stated - 1, LONGEST)):
            append_case(stream, known, call, room)
        return None
    end = call.stated + additions.added_length(call.offset, chunk_list(call), call.data, call.outside, call.texts, text_lengths(call))
    others = (0, max(0, call.stated - 1), call.stated, end - 1, end + 1, end + rng.randint(0, 99))
    for room in [end, *rng.sample(others, 2)]:
        append_case(stream, known, call, room)
    answer, buffer = made(known[:end] + bytes(max(0, end - len(known))), call)
    return buffer[:answer[1]] if answer[0] == "length" else None


def with_bytes_behind(rng, file, stated):
    """The file and some bytes behind it, which append must keep or write over, and which a stated length may count
    in."""
    behind = 20 if len(file) < stated <= len(file) + 20 else rng.choice([0, 0, 0, 30, 300])
    return file + rng.randbytes(behind)


def large_append(rng, file):
    """An append of a few chunks, some of them large."""
    numbers = []
    for _ in range(rng.randint(1, 3)):
        numbers += [rng.choice(LARGE), rng.choice([0, 1, 2, 2, 3])]
    outside = additions.is_mixed(file) and rng.random() < 0.5
    data = additions.data_for(rng, numbers, outside)
    call = Append(len(file), rng.choice([0, 7, 2 ** 31, 2 ** 32 - 1, 2 ** 32, 2 ** 39]), rng.getrandbits(64), rng.getrandbits(1), outside, tuple(numbers), len(numbers), data)
    return with_texts(call, *additions_texts.some_texts(rng, file))


def first_file(stream, rng):
    """What a run appends to: a file that is begun, by another writer with an index or without a list in pfil, or any
    other."""
    if rng.random() < 0.05:
        return bare_head(brand=rng.choice(additions.BRANDS))
    if rng.random() < 0.55:
        return begin_cases(stream, rng, Begin(rng.choice(additions.BRANDS), *additions.texts(rng)))
    if rng.random() < 0.35:
        return additions.begun_with_index(rng, rng.choice([None, None, 36, 37, 39, 39]))
    file = generate.foreign_file(rng)
    return generate.spoil(rng, file) if rng.random() < 0.3 else file


def random_run(stream, rng):
    file = first_file(stream, rng)
    earlier = [len(file)]
    for _ in range(rng.randint(2, 8)):
        call = large_append(rng, file) if rng.random() < 0.01 else writes_random.some_append(rng, file, earlier)
        if rng.random() < 0.2:
            addition_case(stream, generate.addition(rng, file))
        if rng.random() < 0.15:
            addition_case(stream, addition_with_faults(rng, file))
        known = with_bytes_behind(rng, file, call.stated)
        file = append_cases(stream, rng, known, call) or file
        earlier.append(len(file))
    return file


def run_of_corpus(stream, run):
    buffer = lent_buffer(run.file, run.lent)
    for call, answer, after in performed(run.file, run.lent, run.calls):
        if isinstance(call, Begin):
            begin_case(stream, call, run.lent)
        else:
            append_case(stream, buffer, call, run.lent)
        buffer = after


def corpus_runs(stream):
    for run in [*writes_limits.runs(), *writes_refusals.runs(), *writes_mixed.runs(), *writes_elsewhere.runs(), *writes_index.runs(), *writes_sources.runs()]:
        run_of_corpus(stream, run)


def run_cases(stream, rng):
    """A random run, whose file is read now and then."""
    file = random_run(stream, rng)
    if rng.random() < 0.15:
        file_cases(stream, rng, file)
