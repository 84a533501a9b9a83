"""Chooses the cases on which the definitions are held against the model, with the model's answers as numbers.

A case is a name, an antt term over the definitions, and the numbers that the model gives for it.
"""

from collections import Counter, namedtuple

import generate
import model

# `refusal` is the number that the model refuses with, 0 where it does not; `dropped` are those of the boxes that salvage
# drops.
Case = namedtuple("Case", "name term numbers refusal source dropped", defaults=[()])

# Positions and lists are computed one position after the other, so only sources up to this length are listed whole.
LISTED = 120
# A file above this length is costly to compute on, so only its map is.
SMALL = 1_000
# The faults of append that need such a file.
LARGE = (6, 13, 22)
MARK = 7


def listing(numbers):
    """An antt list of numbers."""
    return "".join("%d ∷ " % number for number in numbers) + "[]"


def octets(data):
    """An antt list of bytes, as numerals of 32 bytes each."""
    parts = [data[at:at + 32] for at in range(0, len(data), 32)]
    terms = ["bytes_of %d 0x%s" % (len(part), part.hex()) for part in parts]
    return "(" + " ++ (".join(terms + ["[]"]) + ")" * (len(terms) + 1)


def flag(value):
    return 1 if value else 0


def answer_numbers(answer, values):
    """0 and the number of a refusal, or 1 and the values."""
    if answer[0] == "refused":
        return [0, answer[1]]
    return [1] + values(answer)


def counted(data):
    return [len(data)] + list(data)


def read_numbers(file, source):
    def values(answer):
        segments, chunks = answer[1:]
        described, closed = model.length(file, source)[1:]
        rows = [number for row in segments + chunks for number in row]
        return [len(segments), len(chunks), model.sources(file)[1], described, flag(closed)] + rows
    return answer_numbers(model.read(file), values)


def text_numbers(file, source):
    """The texts of pfil and those of a source."""
    numbers = []
    for place, length in [model.url(file), model.mime(file), model.source_url(file, source), model.source_mime(file, source)]:
        numbers += counted(file[place:place + length])
    return numbers


def asked_numbers(file, source, p):
    replies = {"served": 1, "missing": 0, "beyond": 2}
    reply = answer_numbers(model.ask(file, p, source=source), lambda answer: [replies[answer[0]]] + list(answer[1:]))
    return list(model.serve(file, p, source=source)) + reply


def table_after(rows, table):
    return rows + table[len(rows):]


def tables_numbers(file, segment_table, chunk_table):
    """The answer and both tables at exit."""
    answer = model.read(file, len(segment_table), len(chunk_table))
    if answer[0] == "refused":
        return [0, answer[1]] + segment_table + chunk_table
    flat = [[number for row in rows for number in row] for rows in answer[1:]]
    return [1] + table_after(flat[0], segment_table) + table_after(flat[1], chunk_table)


def lists_numbers(file, source, had_list, missing_list):
    """The answer, both totals and both lists of a source at exit."""
    answer = model.lists(file, had_room=len(had_list), missing_room=len(missing_list), source=source)
    if answer[0] == "refused":
        return [0, answer[1]] + had_list + missing_list
    had, missing, received, lacking = answer[1:]
    flat = [[number for pair in pairs for number in pair] for pairs in (had, missing)]
    head = [1, len(had), len(missing), received, lacking]
    return head + table_after(flat[0], had_list) + table_after(flat[1], missing_list)


def index_numbers(file, table):
    """The answer and the table at exit."""
    answer = model.index(file, len(table))
    if answer[0] == "refused":
        return [0, answer[1]] + table
    return [1, len(answer[1])] + table_after([number for row in answer[1] for number in row], table)


def texts_numbers(file, segment, text_buffer, length_list):
    """The answer, and the texts of a segment and their lengths at exit."""
    answer = model.texts(file, segment, len(text_buffer), len(length_list))
    if answer[0] == "refused":
        return [0, answer[1]] + text_buffer + length_list
    texts, lengths = list(answer[1]), answer[2]
    return [1, len(texts), len(lengths)] + table_after(texts, text_buffer) + table_after(lengths, length_list)


def written_numbers(answer, buffer):
    return answer_numbers(answer, lambda value: [value[1]]) + list(buffer)


def some_source(rng, file):
    """A source of the file, or sometimes one that it has not."""
    answer = model.sources(file)
    count = 0 if answer[0] == "refused" else answer[1]
    return rng.choice([*range(count), *range(count), count, 9])


def positions(rng, file, source):
    """Positions at the edges of chunks of any source, each with a short run before the next change of this one."""
    answer = model.read(file)
    if answer[0] == "refused":
        return [0]
    described = model.length(file, source)[1]
    edges = {0, described, described + 1}
    for segment, index, start, size, state, place in answer[2]:
        edges |= {start - 1, start, start + size - 1, start + size}
    found = []
    for p in sorted(edge for edge in edges if edge >= 0):
        reply = model.ask(file, p, source=source)
        if len(reply) < 2 or reply[1] <= LISTED:
            found.append(p)
    return sorted(rng.sample(found, min(4, len(found))))


def room(rng, needed):
    """A lent table with room to spare, with exactly enough, or too short."""
    return [MARK] * max(0, needed + rng.choice([-1, 0, 0, 3]))


def number_of(answer):
    return answer[1] if answer[0] == "refused" else 0


def read_case(rng, name, file, made_from):
    """Every row, the texts, and of a source serving and asking at some positions."""
    source = some_source(rng, file)
    points = positions(rng, file, source)
    numbers = read_numbers(file, source) + text_numbers(file, source)
    for p in points:
        numbers += asked_numbers(file, source, p)
    term = "read_of %s %d (%s)" % (octets(file), source, listing(points))
    return Case(name, term, numbers, number_of(model.read(file)), made_from)


def texts_case(rng, name, file, made_from):
    """The texts of a segment, or of one that the file has not."""
    answer = model.read(file)
    segment = rng.randint(0, 2 if answer[0] == "refused" else len(answer[1]))
    texts, lengths = (b"", []) if answer[0] == "refused" else model.texts(file, segment)[1:]
    a, b = room(rng, len(texts)), room(rng, len(lengths))
    term = "texts_of %s %d %s (%s)" % (octets(file), segment, octets(bytes(a)), listing(b))
    return Case(name, term, texts_numbers(file, segment, a, b), number_of(model.texts(file, segment, len(a), len(b))), made_from)


def tables_case(rng, name, file, source, lend=room):
    answer = model.read(file)
    segments, chunks = ([], []) if answer[0] == "refused" else answer[1:]
    a, b = lend(rng, 8 * len(segments)), lend(rng, 6 * len(chunks))
    term = "tables_of %s (%s) (%s)" % (octets(file), listing(a), listing(b))
    return Case(name, term, tables_numbers(file, a, b), number_of(model.read(file, len(a), len(b))), source)


def short_case(rng, name):
    """26, which chance may leave out: the tables of an accepted file, each one number too short."""
    file = accepted_file(rng)
    return tables_case(rng, name, file, "file " + file.hex(), lend=lambda rng, needed: [MARK] * max(0, needed - 1))


def lists_case(rng, name, file, made_from):
    source = some_source(rng, file)
    answer = model.lists(file, source=source)
    had, missing = ([], []) if answer[0] == "refused" else answer[1:3]
    a, b = room(rng, 2 * len(had)), room(rng, 2 * len(missing))
    term = "lists_of %s %d (%s) (%s)" % (octets(file), source, listing(a), listing(b))
    refusal = number_of(model.lists(file, had_room=len(a), missing_room=len(b), source=source))
    return Case(name, term, lists_numbers(file, source, a, b), refusal, made_from)


def index_case(rng, name, file, source):
    answer = model.index(file)
    table = room(rng, 5 * (0 if answer[0] == "refused" else len(answer[1])))
    term = "index_rows_of %s (%s)" % (octets(file), listing(table))
    return Case(name, term, index_numbers(file, table), number_of(model.index(file, len(table))), source)


def short_boxes(file):
    """Whether each indexed box of a file is short enough that its positions can be computed one after the other."""
    answer = model.index(file)
    return answer[0] == "refused" or all(row[2] <= LISTED for row in answer[1])


def map_case(name, file, source):
    return Case(name, "map_of_input %s" % octets(file), list(model.map_text(file)), number_of(model.read(file)), source)


def missmap_case(name, file, source):
    return Case(name, "missmap_of_input %s" % octets(file), list(model.missmap_text(file)), number_of(model.read(file)), source)


def boxes_case(name, file, source):
    return Case(name, "boxes_of_input %s" % octets(file), list(model.boxes_text(file)), 0, source)


def longest(file):
    """The described length of the longest source, 0 where the file is refused."""
    number, reading = model.attempt(model.accept, file)
    return 0 if number else max(source.described for source in reading.sources)


def file_cases(rng, name, file):
    """What the definitions are asked of one file."""
    source = "file " + file.hex()
    if len(file) > SMALL:
        return [map_case(name + "-map", file, source)]
    cases = [read_case(rng, name, file, source), boxes_case(name + "-boxes", file, source)]
    if rng.random() < 0.3:
        cases.append(tables_case(rng, name + "-tables", file, source))
    if rng.random() < 0.5:
        cases.append(texts_case(rng, name + "-texts", file, source))
    if short_boxes(file):
        cases.append(index_case(rng, name + "-index", file, source))
    if longest(file) <= LISTED:
        cases.append(map_case(name + "-map", file, source))
        cases.append(missmap_case(name + "-missmap", file, source))
        cases.append(lists_case(rng, name + "-lists", file, source))
        if model.read(file)[0] == "read":
            cases.append(mapped_case(rng, name + "-mapped", file, source))
    return cases


def mapped_case(rng, name, file, made_from):
    """Demand 2 in a source of an accepted file: eight facts, then five for each position."""
    number, numbers = rng.randrange(model.sources(file)[1]), 8 * [1]
    source = model.accept(file).sources[number]
    points = [p for p in positions(rng, file, number) if p < source.described]
    for p in points:
        supplied = flag(model.ask(file, p, source=number)[0] == "served")
        word = model.name_of(source, p)
        numbers += [supplied, supplied, 1 - supplied, flag(word == "held"), flag(word == "lost")]
    return Case(name, "mapped_of %s %d (%s)" % (octets(file), number, listing(points)), numbers, 0, made_from)


def truth(value):
    return "true" if value else "false"


def addition_term(given):
    return "%s %d %d %d %s %s (%s) %s %s (%s)" % (
        octets(given["buffer"]), given["stated_length"], given["source_offset"], given["repair_time"], truth(given["last"]), truth(given["outside"]),
        listing(given["chunk_list"]), octets(given["data"]), octets(given["texts"]), listing(given["lengths"]))


def addition_cases(rng, name, given):
    """What append answers and leaves and, where it accepts, what demands 2 and 3 say of that."""
    answer, buffer = model.append(**given)
    source, term = "addition %r" % given, addition_term(given)
    cases = [Case(name, "appended_of " + term, written_numbers(answer, buffer), number_of(answer), source)]
    if answer[0] == "length":
        after = buffer[:answer[1]]
        number = rng.choice([model.read(after)[1][-1][7], some_source(rng, after)])
        points = positions(rng, after, number)
        term = "demands_of %s %d (%s)" % (term, number, listing(points))
        cases.append(Case(name + "-demands", term, [1, 1, 1] + [1] * len(points), 0, source))
    return cases


def rewriting_case(rng, name):
    """Demand 2: a file that begin and append alone made, written again."""
    buffer = bytes(2 * SMALL)
    answer, buffer = model.begin(buffer, rng.choice([model.PAFF, model.PMFF]), b"u", b"")
    size = answer[1]
    for _ in range(rng.randint(1, 3)):
        given = generate.addition(rng, buffer[:size])
        given.update(buffer=buffer, stated_length=size)
        answer, buffer = model.append(**given)
        size = answer[1] if answer[0] == "length" else size
    file = buffer[:size]
    refusal = number_of(model.read(file))
    return Case(name, "again_of %s" % octets(file), [0, refusal] if refusal else [1], refusal, "file " + file.hex())


def beginning_case(name, given):
    answer, buffer = model.begin(**given)
    brand = "Pmff" if given["brand"] == model.PMFF else "Paff"
    term = "begun_of %s %s %s %s" % (octets(given["buffer"]), brand, octets(given["url"]), octets(given["mime"]))
    return Case(name, term, written_numbers(answer, buffer), number_of(answer), "beginning %r" % given)


def some_file(rng, index):
    """First each fault once; then of ten files four as another writer makes them, one of them mixed at least, four
    spoiled, two with a fault.

    A file with a 513th box is large, so that fault is chosen once.
    """
    faults = sorted(generate.FAULTS)
    if index < len(faults):
        return generate.faulty_file(rng, faults[index])
    if index % 10 == 0:
        return generate.mixed_file(rng)
    if index % 10 < 4:
        return generate.foreign_file(rng)
    if index % 10 < 8:
        return generate.spoil(rng, generate.foreign_file(rng))
    return generate.faulty_file(rng, rng.choice([number for number in faults if number != 6]))


def accepted_file(rng):
    """A file as another writer makes it, which reading accepts."""
    while True:
        file = generate.foreign_file(rng)
        if model.read(file)[0] == "read":
            return file


def some_addition(rng, index):
    """Mostly as a clerk would add, one in four outside, and each fault of append in turn, to an accepted file, so that
    it is met; those that need a large file once."""
    file = accepted_file(rng)
    if index < len(generate.FAULTS_OF_APPEND):
        number = generate.FAULTS_OF_APPEND[index]
        return large_addition(rng, number) if number in LARGE else generate.faulty_addition(rng, file, number)
    if index % 4 == 1:
        return outside_addition(rng)
    if index % 4 == 0:
        small = [number for number in generate.FAULTS_OF_APPEND if number not in LARGE]
        return generate.faulty_addition(rng, file, small[index // 4 % len(small)])
    return addition_to(rng, file)


def large_addition(rng, number):
    """A fault that needs a large file, which has little else in it, since the checker computes a case only so far."""
    answer, buffer = model.begin(bytes(SMALL), rng.choice([model.PAFF, model.PMFF]), b"u", b"")
    while True:
        given = generate.faulty_addition(rng, buffer[:answer[1]], number)
        if number == 6 or len(given["lengths"]) <= 2:
            return given


def addition_to(rng, file):
    """An addition that does not need a large file."""
    while True:
        given = generate.addition(rng, file)
        if len(given["buffer"]) < 1_000:
            return given


def outside_addition(rng):
    """Good chunks that go outside and are taken."""
    while True:
        given = addition_to(rng, generate.mixed_file(rng))
        if given["outside"] and model.GOOD in given["chunk_list"][1::2] and model.append(**given)[0][0] == "length":
            return given


def some_beginning(rng, index):
    if index < len(generate.FAULTS_OF_BEGIN):
        return generate.faulty_beginning(rng, generate.FAULTS_OF_BEGIN[index])
    return generate.beginning(rng)


def choose(rng, files, additions, beginnings):
    """The cases of so many files, additions and beginnings."""
    cases = []
    for index in range(files):
        cases += file_cases(rng, "file%d" % index, some_file(rng, index))
    for index in range(additions):
        cases += addition_cases(rng, "addition%d" % index, some_addition(rng, index))
    for index in range(beginnings):
        cases.append(beginning_case("beginning%d" % index, some_beginning(rng, index)))
        cases.append(rewriting_case(rng, "again%d" % index))
    return cases + [short_case(rng, "short")]


def refusals(cases):
    """How many cases the model refuses, by number."""
    return Counter(case.refusal for case in cases if case.refusal)


def files_of(cases):
    """The files that cases were made from, each once."""
    return list(dict.fromkeys(bytes.fromhex(case.source[5:]) for case in cases if case.source.startswith("file ")))
