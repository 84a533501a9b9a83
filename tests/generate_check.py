"""Checks that the makers reach everything they promise, and the model on what they make."""

import random
import statistics
import sys
from collections import Counter
from itertools import groupby

import additions_texts
import generate
import model
import model_index
import remembering
from additions import top_level_count
from boxes import head
from expecting import close, expect
from foreign import LIMIT, WIDE
from spoiling import boxes_in
from vendors import containers, faulty_vendors, refused_for_its_size

KNOWN = [b"ftyp", b"pfil", b"pfhd", b"surl", b"pseg", b"pshd", b"ploc", b"pdat"]


def accepted(file):
    return model.read(file)[0] == "read"


# Foreign files.

def plocs_and_pshds(file):
    """The width byte and the version of each segment of an accepted file."""
    for row in model.read(file)[1]:
        large = file[row[0]:row[0] + 4] == bytes([0, 0, 0, 1])
        size_place, size_width = (row[0] + 8, 8) if large else (row[0], 4)
        end = row[0] + int.from_bytes(file[size_place:size_place + size_width], "big")
        places = {part.kind: part.body for part in model.frame(file, row[0] + (16 if large else 8), end)}
        yield file[places[b"ploc"] + 4], file[row[5]]


def check_foreign(files):
    share = sum(map(accepted, files)) / len(files)
    print(f"foreign files accepted: {100 * share:.1f} %, "
          f"median length {statistics.median(map(len, files)):.0f}, longest {max(map(len, files))}")
    expect("nine in ten accepted", share >= 0.9)
    expect("median under 320", statistics.median(map(len, files)) < 320)
    expect("nearly all under 800", sum(len(file) < 800 for file in files) > 0.96 * len(files))
    files = [file for file in files if accepted(file)]
    short = sum(model.length(file)[1] < 80 for file in files) / len(files)
    expect("mostly a described length under 80", 0.8 < short < 0.97)
    widths = [pair for file in files for pair in plocs_and_pshds(file)]
    for width in range(9):
        expect(f"length_size {width}", any(byte >> 4 == width for byte, _ in widths))
        expect(f"offset_size {width}", any(byte & 15 == width for byte, _ in widths))
    versions = {version for _, version in widths}
    expect("pshd of version 0, 1 and above", {0, 1} < versions)
    check_size_forms(files)
    check_skipped(files)
    single = [file for file in files if model.sources(file)[1] == 1]
    check_states(single)
    check_damage(single)
    check_far(single)
    check_elsewhere(single)
    check_mixed(files)
    check_indexes(files)
    check_sources(files)


def check_size_forms(files):
    forms = {(file[place + 4:place + 8], header)
             for file in files for place, _, header in boxes_in(file, 0, len(file))}
    for kind in KNOWN + [b"uuid", b"free"]:
        for header in (8, 16):
            expect(f"{kind} with a header of {header}", (kind, header) in forms)


def check_skipped(files):
    """Vendor boxes in both forms, and types that do not print, in each container."""
    met = set()
    for file in files:
        for name, place, end in containers(file):
            for box in model.frame(file, place, end):
                met.add((name, f"{box.kind.decode('latin-1')} with a header of {box.body - box.place}" if box.kind.isalnum() else "odd type"))
    for name in ("file", "pfil", "pseg"):
        for wanted in ("uuid with a header of 24", "uuid with a header of 32", "odd type"):
            expect(f"{wanted} in {name}", (name, wanted) in met)


def check_states(files):
    """What a file by another writer may hold is met in some accepted file."""
    met = {"data after": 0, "data before": 0, "open": 0, "open last": 0, "closed": 0,
           "overlap": 0, "out of order": 0, "empty present": 0, "limit": 0, "shared pdat": 0}
    for file in files:
        segments, chunks = model.read(file)[1:]
        held = [chunk for chunk in chunks if chunk[5] > 0]
        met["data after"] += any(chunk[5] > segments[chunk[0]][0] for chunk in held)
        met["data before"] += any(chunk[5] < segments[chunk[0]][0] for chunk in held)
        met["open"] += any(row[4] == 0 for row in segments)
        met["open last"] += any(row[4] == 0 and row[2] & 1 for row in segments)
        met["closed"] += model.length(file)[2]
        good = [range(chunk[2], chunk[2] + chunk[3]) for chunk in chunks if chunk[4] == 2]
        met["overlap"] += any(max(one[0], two[0]) <= min(one[-1], two[-1])
                              for one in good for two in good if one and two and one is not two)
        met["out of order"] += [row[1] for row in segments] != sorted(row[1] for row in segments)
        met["empty present"] += any(chunk[3] == 0 and chunk[4] in (1, 2) for chunk in chunks)
        met["limit"] += model.length(file)[1] == LIMIT
        pdats = [(place, end) for place, end, _ in boxes_in(file, 0, len(file))
                 if file[place + 4:place + 8] == b"pdat"]
        met["shared pdat"] += any(
            len({chunk[0] for chunk in held if place < chunk[5] < end}) > 1 for place, end in pdats)
    for name, count in met.items():
        expect(f"{name} met", count > 0)


def check_far(files):
    """Source offsets on both sides of the first that takes the 64-bit form of pshd, chunks across it, larger than it
    and behind it, and ends near the limit."""
    met = {f"an offset just below, form {form}": 0 for form in (0, 1)} | {"an offset just above": 0, "far above": 0, "across": 0, "larger": 0, "good behind": 0, "near the limit": 0}
    for file in files:
        segments, chunks = model.read(file)[1:]
        for row in segments:
            below = f"an offset just below, form {min(1, file[row[5]])}"
            met[below] += WIDE - 9 <= row[1] < WIDE
            met["an offset just above"] += WIDE <= row[1] <= WIDE + 9
            met["far above"] += row[1] > 2 * WIDE
        met["across"] += any(chunk[2] < WIDE < chunk[2] + chunk[3] for chunk in chunks)
        met["larger"] += any(chunk[3] > WIDE for chunk in chunks)
        met["good behind"] += any(chunk[4] == 2 and chunk[2] >= WIDE and chunk[3] > 0 for chunk in chunks)
        met["near the limit"] += LIMIT - 9 <= model.length(file)[1] < LIMIT
    for name, count in met.items():
        expect(f"{name} met", count > 0)


def overlap(one, two):
    """Whether two chunk rows cover a position both."""
    return max(one[2], two[2]) < min(one[2] + one[3], two[2] + two[3])


def check_damage(files):
    """Damage is held and is under good chunks, in each order; beside lost ones and on their positions, in each order;
    and held ranges of one chunk, of several and of parts."""
    met = Counter()
    for file in files:
        chunks = model.read(file)[2]
        named = [one.split(b"\t") for one in model.map_text(file, len(file)).splitlines()[1:-1]]
        words = [word.decode("ascii") for word, first, run in named]
        met.update({f"{one} before {two}" for one, two in zip(words, words[1:])} | set(words))
        held = {(int(first), int(run)) for word, first, run in named if word == b"held"}
        damaged = [chunk for chunk in chunks if chunk[4] == 1]
        met["held, a whole chunk"] += any((chunk[2], chunk[3]) in held for chunk in damaged)
        met["held, two chunks"] += any(sum(first <= chunk[2] and chunk[2] + chunk[3] <= first + run and chunk[3] > 0 for chunk in damaged) > 1 for first, run in held)
        met["held, a part of a chunk"] += any(chunk[2] < first or first + run < chunk[2] + chunk[3] for first, run in held for chunk in damaged if overlap(chunk, (0, 0, first, run)))
        met["empty"] += any(chunk[3] == 0 for chunk in damaged)
        for state, word in [(0, "lost"), (2, "good"), (3, "elsewhere")]:
            beside = [(one, two) for one in damaged for two in chunks if two[4] == state and overlap(one, two)]
            met[f"{word} behind"] += any(two[0] > one[0] for one, two in beside)
            met[f"{word} in front"] += any(two[0] < one[0] for one, two in beside)
    names = ["have", "held", "lost"]
    wanted = [f"{one} before {two}" for one in names for two in names if one != two] + ["held, a whole chunk", "held, two chunks", "held, a part of a chunk", "empty"]
    wanted += [f"{word} {where}" for word in ("lost", "good", "elsewhere") for where in ("behind", "in front")]
    for name in wanted:
        expect(f"damage, {name}", met[name] >= 10)
    expect("no name twice in a row", not any(met[f"{name} before {name}"] for name in names))
    expect("a fifth of the files has something held", met["held"] / len(files) > 0.2)


def check_elsewhere(files):
    """Chunks held elsewhere: many, empty ones, at the end of what is described, and beside good ones of the same
    positions, before and behind."""
    met = {"held elsewhere": 0, "empty": 0, "to the end": 0, "good behind": 0, "good before": 0}
    for file in files:
        described, chunks = model.length(file)[1], model.read(file)[2]
        elsewhere = [chunk for chunk in chunks if chunk[4] == 3]
        beside = [(one, two) for one in elsewhere for two in chunks if two[4] == 2 and overlap(one, two)]
        met["held elsewhere"] += any(chunk[3] > 0 for chunk in elsewhere)
        met["empty"] += any(chunk[3] == 0 for chunk in elsewhere)
        met["to the end"] += {chunk[4] for chunk in chunks if chunk[3] > 0 and chunk[2] + chunk[3] == described} == {3}
        met["good behind"] += any(two[0] > one[0] for one, two in beside)
        met["good before"] += any(two[0] < one[0] for one, two in beside)
    for name, count in met.items():
        expect(f"a chunk held elsewhere, {name}", count > 0)
    expect("a third of the files has a chunk held elsewhere", met["held elsewhere"] / len(files) > 0.33)


def outside_runs(file):
    """Of each good chunk of an accepted file that lies in no pdat, how many boxes it is, its place and its size."""
    boxes = model.read_head(file).boxes
    for segment, index, start, size, state, place in model.read(file)[2]:
        run = [box for box in boxes if place <= box.place and box.end <= place + size]
        if run and state == 2:
            yield len(run), place, size


def check_mixed(files):
    """Mixed files with one brand or both, and in them chunks of one box and of several, before and behind their
    segment, whole and shared."""
    heads = [(file, model.read_head(file)) for file in files]
    mixed = [file for file, head in heads if head.mixed]
    expect("a quarter of the files is mixed", 0.25 < len(mixed) / len(files) < 0.45)
    brands = [file[16:model.frame(file, 0, len(file))[0].end] for file in mixed]
    expect("with both brands and with one", {b"paff" in listed for listed in brands}, {True, False})
    met = {"one box": 0, "several boxes": 0, "shared boxes": 0, "the same boxes": 0, "behind its segment": 0, "beside a pdat": 0, "a vendor's box": 0}
    for file in mixed:
        runs = list(outside_runs(file))
        met["one box"] += any(count == 1 for count, place, size in runs)
        met["several boxes"] += any(count > 1 for count, place, size in runs)
        met["the same boxes"] += len(runs) > len(set(runs))
        met["shared boxes"] += any(one != two and one[1] < two[1] + two[2] and two[1] < one[1] + one[2] for one in runs for two in runs)
        met["behind its segment"] += any(place > max(row[0] for row in model.read(file)[1]) for count, place, size in runs)
        met["beside a pdat"] += any(file[place + size + 4:place + size + 8] == b"pdat" for count, place, size in runs)
        met["a vendor's box"] += any(file[place + 4:place + 8] == b"uuid" for count, place, size in runs)
    for name, count in met.items():
        expect(f"a chunk outside, {name}", count > 0)
    expect("no chunk outside in the others", not any(list(outside_runs(file)) for file, head in heads if not head.mixed))


def forms_of_index(file):
    """What stands in the indexes of an accepted file: forms of sizes, front parts, boxes that are skipped, and where."""
    for name, place, end in containers(file):
        for index in model.of_kind(model.frame(file, place, end), b"fidx") if name != "file" else []:
            yield f"in {name}"
            yield from forms_in_list(file, model.frame(file, index.body, index.end), 1)


def forms_in_list(file, boxes, level):
    yield from ["empty"] if not boxes else []
    for at, one in enumerate(boxes):
        if one.kind != b"bidx":
            yield "a front part" if one.kind == b"frpa" else "an integrity box" if one.kind == b"dint" else "another box"
            continue
        size, kind, header, place = model_index.stated_header(file, one)
        inner = model.frame(file, place, one.end)
        yield from ["large"] * (file[one.body:one.body + 4] == bytes([0, 0, 0, 1])) + ["a vendor's"] * (kind == b"uuid") + ["a large bidx"] * (one.body - one.place == 16)
        yield from ["a front part longer than its box"] * any(size is not None and part.end - part.body > size for part in model.of_kind(inner, b"frpa"))
        yield from [f"to the end, {'inside' if level > 1 else 'of the source'}", "something behind it"][:1 + (at + 1 < len(boxes))] if size is None else []
        yield from forms_in_list(file, inner, level + 1)


def check_indexes(files):
    """Indexes in pfil and in segments, in every form, and of rows each level with none, some and all."""
    met = Counter(form for file in files for form in set(forms_of_index(file)))
    for form in ("in pfil", "in pseg", "empty", "a front part", "an integrity box", "another box", "large", "a vendor's", "a large bidx", "a front part longer than its box",
                 "to the end, inside", "to the end, of the source", "something behind it"):
        expect(f"an index, {form}", met[form] >= 5)
    found = [(file, row) for file in files for row in model.index(file)[1]]
    levels = Counter((row[0], row[4]) for file, row in found)
    for level in range(1, 9):
        expect(f"rows of level {level}", sum(levels[level, served] for served in (0, 1, 2)) >= 10)
        expect(f"none, some and all of level {level}", level > 3 or all(levels[level, served] >= 3 for served in (0, 1, 2)))
    expect("a third of the files has rows", len({file for file, row in found}) / len(files) > 0.3)
    expect("rows past what is described", any(row[1] >= model.length(file)[1] for file, row in found))
    expect("a row to the limit", any(row[1] + row[2] == LIMIT for file, row in found))


# Sources.

def lists_of(file):
    """Of each segment of an accepted file its own list of URLs, that which it uses, its source, and its MIME texts."""
    of_pfil = additions_texts.lists_in(file)[0]
    for number, row in enumerate(model.read(file)[1]):
        pairs = additions_texts.pairs_of(*model.texts(file, number)[1:])
        own = [url for url, mime in pairs]
        yield own, own or of_pfil, row[7], [mime for url, mime in pairs]


def forms_of_sources(file):
    """How the sources of an accepted file stand to each other and to pfil."""
    of_pfil, known = additions_texts.lists_in(file)
    segments = list(lists_of(file))
    yield f"{len(known)} sources"
    yield from ["no list in pfil"] * (not of_pfil) + ["the list in pfil is not used"] * (of_pfil != [] and of_pfil not in known)
    yield from ["that of pfil comes later"] * (of_pfil in known[1:]) + ["that of pfil by its own list"] * any(own == of_pfil for own, used, source, mimes in segments)
    yield from ["by its own list and by none"] * (len({own == [] for own, used, source, mimes in segments if used == of_pfil}) == 2)
    mimes_of = {}
    for own, used, source, mimes in segments:
        mimes_of.setdefault(source, set()).add(tuple(mimes))
    yield from ["other MIME texts in one source"] * any(len(found - {()}) > 1 for found in mimes_of.values())
    yield from ["segments by turns"] * ([source for own, used, source, mimes in segments] != sorted(source for own, used, source, mimes in segments))
    for urls in known:
        yield from ["several URLs"] * (len(urls) > 1) + ["an empty URL"] * (b"" in urls) + ["a URL twice"] * (len(set(urls)) < len(urls)) + ["only an empty URL"] * (urls == [b""])
    for one in known:
        for two in known:
            yield from ["turned"] * (one != two and one == two[::-1]) + ["a part of another"] * (one != two and one == two[:len(one)]) + ["cut in another way"] * (one != two and b"".join(one) == b"".join(two))


def check_sources(files):
    """Files of one source and of eight, in every way that lists can stand to each other; sources that differ in length
    and in whether it is known, on the same positions; and indexes beside several."""
    met = Counter(form for file in files for form in set(forms_of_sources(file)))
    for form in ("1 sources", "2 sources", "3 sources", "8 sources", "no list in pfil", "the list in pfil is not used", "that of pfil comes later", "that of pfil by its own list",
                 "by its own list and by none",
                 "other MIME texts in one source", "segments by turns", "several URLs", "an empty URL", "a URL twice", "only an empty URL", "turned", "a part of another",
                 "cut in another way"):
        expect(f"sources, {form}", met[form] >= 5)
    layered = [file for file in files if model.sources(file)[1] > 1]
    expect("a quarter of the files has several sources", 0.25 < len(layered) / len(files) < 0.5)
    found = Counter()
    for file in layered:
        said = [model.length(file, source) for source in range(model.sources(file)[1])]
        had = [set(p for first, run in model.lists(file, source=source)[1] for p in range(first, first + min(run, 99))) for source in range(len(said))]
        found["several sizes"] += len({answer[1] for answer in said if answer[2]}) > 1
        found["closed and open"] += len({answer[2] for answer in said}) == 2
        found["the same position had"] += any(one & two for one in had for two in had if one is not two)
        found["had by one alone"] += any(one - two for one in had for two in had if one is not two)
        forms, reading = set(forms_of_index(file)), model.accept(file)
        found["an index in pfil of no source"] += "in pfil" in forms and reading.of_pfil is None
        found["an index in pfil of a later source"] += "in pfil" in forms and bool(reading.of_pfil)
        found["an index in a segment of a later source"] += any(rows and segment.source for rows, segment in zip(reading.indexed[1:], reading.segments))
        found["to the end of a later source"] += bool(reading.of_pfil) and "to the end, of the source" in forms and "in pfil" in forms
    for name, count in found.items():
        expect(f"several sources, {name}", count > 0)


# The meaning, position by position.

def position_by_position(chunks, described):
    """The number of the supplying chunk for each position, None where missing."""
    suppliers = described * [None]
    for number in reversed(range(len(chunks))):
        segment, index, start, size, state, place = chunks[number]
        for p in range(start, start + size):
            if state == 2:
                suppliers[p] = number
    return suppliers


def run_from(suppliers, p):
    end = p
    while end < len(suppliers) and suppliers[end] == suppliers[p]:
        end += 1
    return end - p


def check_meaning(file):
    """Lists, serving, asking, rows and maps of each source against a table of all its positions."""
    texts, had = [], []
    for source in range(model.sources(file)[1]):
        numbers = [number for number, row in enumerate(model.read(file)[1]) if row[7] == source]
        chunks = [chunk for chunk in model.read(file)[2] if chunk[0] in numbers]
        suppliers = position_by_position(chunks, model.length(file, source)[1])
        check_source(file, source, chunks, suppliers)
        texts.append(texts_by_position(file, source, chunks, suppliers))
        had.append({p for p, number in enumerate(suppliers) if number is not None})
    expect("map", model.map_text(file), b"".join(named for named, without_names in texts))
    expect("map without names", model.missmap_text(file), b"".join(without_names for named, without_names in texts))
    check_rows(file, had)


def check_source(file, source, chunks, suppliers):
    answers, parts, had, missing = [], [], [], []
    for p, number in enumerate(suppliers):
        run = run_from(suppliers, p)
        word = "missing" if number is None else "served"
        answers.append((word, run))
        parts.append((0, 0) if number is None else (chunks[number][5] + p - chunks[number][2], run))
        (missing if number is None else had).append(p)
    described = len(suppliers)
    asked = [model.ask(file, p, source=source) for p in range(described + 2)]
    expect("asked", asked, answers + [("beyond",), ("beyond",)])
    expect("served", [model.serve(file, p, source=source) for p in range(described + 2)], parts + [(0, 0), (0, 0)])
    answer = model.lists(file, source=source)
    for found, wanted in [(answer[1], had), (answer[2], missing)]:
        expect("list", [p for first, run in found for p in range(first, first + run)], wanted)
        apart = [one[0] + one[1] < two[0] for one, two in zip(found, found[1:])]
        expect("list not touching", all(apart))
        expect("list never empty", all(run > 0 for first, run in found))
    expect("totals", answer[3:], (len(had), len(missing)))


def text_by_position(closed, names, totals):
    """The map of a source of which the name of each position is known."""
    text, first = f"source\t{len(names)}\t{'closed' if closed else 'open'}\n", 0
    for name, run in groupby(names):
        length = len(list(run))
        text += f"{name}\t{first}\t{length}\n"
        first += length
    return (text + "\t".join(["total", *[str(names.count(name)) for name in totals]]) + "\n").encode("ascii")


def texts_by_position(file, source, chunks, suppliers):
    """Both maps of a source by the name of each position."""
    covered = {p for segment, index, start, size, state, place in chunks if state == 1 for p in range(start, start + size)}
    names = ["have" if number is not None else "held" if p in covered else "lost" for p, number in enumerate(suppliers)]
    closed = model.length(file, source)[2]
    without_names = ["have" if name == "have" else "miss" for name in names]
    return text_by_position(closed, names, ["have", "held", "lost"]), text_by_position(closed, without_names, ["have", "miss"])


def check_rows(file, had):
    """Of each indexed box whether none, some or all of its positions are had, of the source of its index."""
    reading, numbers = model.accept(file), []
    for number, boxes in zip([reading.of_pfil, *[segment.source for segment in reading.segments]], reading.indexed):
        numbers += len(boxes) * [number]
    for source, (level, place, size, kind, served) in zip(numbers, model.index(file)[1], strict=True):
        inside = len([p for p in (had[source] if source is not None else []) if place <= p < place + size])
        expect("how many of a box are served", served, 0 if inside == 0 else 2 if inside == size else 1)


# Faulty and spoiled files.

def check_faulty(rng, runs):
    for number in sorted(generate.FAULTS):
        for _ in range(runs):
            file = generate.faulty_file(rng, number)
            expect(f"faulty file for {number}", model.read(file), ("refused", number))
            expect(f"maps of a file for {number}", [model.map_text(file), model.missmap_text(file)],
                   2 * [b"refused\t%d\n" % number])
            expect(f"index of a file for {number}", model.index(file), ("refused", number))
            expect(f"parts of a file for {number}",
                   [model.url(file), model.mime(file), model.serve(file, 0)], 3 * [(0, 0)])


def check_reserved(rng, runs):
    """A reserved bit stands beside the bits of every state."""
    met, told = set(), model.state_of
    model.state_of = lambda flag_byte: met.add(flag_byte) or told(flag_byte)
    for _ in range(runs):
        expect("a reserved bit", model.read(generate.faulty_file(rng, 20)), ("refused", 20))
    model.state_of = told
    for bits in (0x00, 0x40, 0x80, 0xC0):
        expect(f"reserved bits beside {bits:#04x}", len({flag_byte for flag_byte in met if flag_byte & 0xC0 == bits and flag_byte != bits}) > 5)


def check_faulty_vendors(rng, runs):
    """Each size of a uuid around its header, and each container that ends in a user type."""
    files = [generate.faulty_file(rng, number) for number in (2, 3, 4, 5) for _ in range(runs if number > 3 else 60)]
    met = {(name, number, size, plain, left) for file in files for name, number, (kind, size, plain), left in faulty_vendors(file)}
    short = {(name, size, plain) for name, number, size, plain, left in met if number == 4}
    inside = {(name, plain, left) for name, number, size, plain, left in met if number == 5}
    for name in ("file", "pfil", "pseg"):
        for size in (2, 7, 8, 9, 15, 16, 17, 19, 20, 22, 23):
            expect(f"uuid of size {size} in {name}", (name, size, 8) in short)
        for size in (0, 8, 15, 16, 17, 23, 24, 25, 30, 31):
            expect(f"uuid of large size {size} in {name}", (name, size, 16) in short)
        for plain in (8, 16):
            for part in (0, 1, 15):
                expect(f"{part} bytes of a user type after {plain} in {name}", (name, plain, plain + part) in inside)
    expect("uuid of size 20 at 20 and fewer and more", {left - 20 for name, number, size, plain, left in met if size == 20} > {-12, 0, 4})
    for number in (2, 3):
        expect(f"uuid for {number}", any(number == other for name, other, size, plain, left in met))


def lists_unjudged(file):
    """The lists of URLs of the sources of a file whose segments are right, whether or not it is refused for them; and the
    number of that of pfil, None where it is none of them."""
    head = model.read_head(file)
    segments = model.read_segments(file, head)[0]
    lists = model.lists_by_number([model.list_of(file, head, segment) for segment in segments])
    of_pfil = model.urls_of(file, head.surls)
    return lists, lists.index(of_pfil) if of_pfil in lists else None


def surls_in(file):
    """Of each pfil and pseg the types of its boxes, surl boxes as right or wrong."""
    for name, place, end in containers(file):
        words = []
        for part in model.frame(file, place, end) if name != "file" else []:
            wrong = part.kind == b"surl" and model.attempt(model.read_surls, file, [part], 1)[0]
            words.append("wrong" if wrong else part.kind.decode("latin-1"))
        yield name, words


def check_faulty_sources(rng, runs):
    """Wrong surl boxes alone and beside right ones, on both sides of ploc; none in one segment of several; a ninth source
    with sizes that agree and that do not, that of pfil or another."""
    met = Counter()
    for _ in range(runs):
        for number, name in [(11, "pfil"), (16, "pseg")]:
            for words in [words for found, words in surls_in(generate.faulty_file(rng, number)) if found == name and "wrong" in words]:
                met[number, "beside a right one" if "surl" in words else "alone"] += 1
                met[number, "before ploc" if "ploc" in words[words.index("wrong"):] else "behind ploc"] += 1
        bare = [words for name, words in surls_in(generate.faulty_file(rng, 41)) if name == "pseg"]
        met[41, "alone" if not any("surl" in words for words in bare) else "beside others"] += 1
        for number in (25, 40):
            lists, of_pfil = lists_unjudged(generate.faulty_file(rng, number))
            met[number, "nine or more" if len(lists) > 8 else "fewer"] += 1
            met[number, "just nine" if len(lists) == 9 else "another count"] += 1
            met[number, "pfil's behind the eighth"] += of_pfil is not None and of_pfil > 7
    for how in [(11, "alone"), (11, "beside a right one"), (16, "alone"), (16, "beside a right one"), (16, "before ploc"), (16, "behind ploc"), (41, "alone"), (41, "beside others"),
                (25, "nine or more"), (25, "fewer"),
                (40, "just nine"), (40, "another count"), (40, "pfil's behind the eighth")]:
        expect(f"faults of sources, {how}", met[how] >= 3)
    expect("no fewer than nine for 40", met[40, "fewer"], 0)


def check_spoiled(rng, files):
    """Every spoiled file gets some answer, and no part outside of itself."""
    numbers, too_short = set(), 0
    for file in files:
        spoiled = generate.spoil(rng, file)
        answer = model.read(spoiled)
        too_short += refused_for_its_size(spoiled)
        numbers.add(answer[1] if answer[0] == "refused" else 0)
        if answer[0] == "read":
            ends = [row[5] + row[3] for row in answer[2] if row[5] > 0]
            expect("places in the spoiled file", all(end <= len(spoiled) for end in ends))
    expect("spoiled files meet many numbers", len(numbers) >= 15)
    expect("spoiled files meet that of a wrong index", 36 in numbers)
    expect("spoiled files meet those of surl boxes", {11, 16, 41} < numbers)
    expect("spoiled files have a uuid that is too short", too_short >= 20)


# Arguments of append and begin.

def check_additions(rng, files):
    for number in generate.FAULTS_OF_APPEND:
        for file in files:
            given = generate.faulty_addition(rng, file, number)
            fields = [given["source_offset"], given["repair_time"]] + given["chunk_list"] + given["lengths"]
            expect("arguments of 64 bits", all(0 <= field < 2 ** 64 for field in fields))
            answer, buffer = model.append(**given)
            own = model.read(given["buffer"][:given["stated_length"]])
            if number != "own":
                expect(f"append refuses with {number}", answer, ("refused", number))
            elif own[0] == "read" or own == ("refused", 12):
                expect("append takes a file that the spoiling left acceptable",
                       answer[0] == "length" or answer[1] in (35, 6, 13, 41, 22, 23, 25, 40, 36, 37, 39))
            else:
                expect("append refuses the file", answer, own)
            if answer[0] == "refused":
                expect("buffer kept", buffer, given["buffer"])


def check_all_additions(rng, files):
    answers = [model.append(**generate.addition(rng, file))[0] for file in files]
    taken = sum(answer[0] == "length" for answer in answers) / len(answers)
    expect("more than half of the additions taken", 0.5 < taken < 0.9)
    for number in [30, 31, 32, 35, 34, 6, 13, 41, 22, 23, 25, 40, 36, 37, 39, 33]:
        expect(f"append meets {number}", ("refused", number) in answers)
    print(f"additions taken: {100 * taken:.1f} %")


def check_additions_far(rng, files):
    """Additions on both sides of the first source offset of the 64-bit form, and at the limit, are taken."""
    met = set()
    for file in files:
        given = generate.addition(rng, file)
        offset, end = given["source_offset"], given["source_offset"] + sum(given["chunk_list"][0::2])
        if model.append(**given)[0][0] == "length":
            met |= {word for word, holds in [("below", WIDE - 20 <= offset < WIDE), ("above", WIDE <= offset < WIDE + 60), ("across", offset < WIDE < end),
                                             ("far", offset > 2 * WIDE), ("at the limit", end == LIMIT)] if holds}
    expect("additions far from the front", met, {"below", "above", "across", "far", "at the limit"})


def check_additions_elsewhere(rng, files):
    """Chunks held elsewhere are taken, alone and beside each other state, inside and outside; a list that is refused
    has any state above theirs."""
    met, above = set(), set()
    for file in files:
        given = generate.addition(rng, file)
        states = given["chunk_list"][1::2]
        if 3 in states and model.append(**given)[0][0] == "length":
            met |= {(given["outside"], state) for state in states if state != 3} or {"alone"}
        above |= {state for state in generate.faulty_addition(rng, file, 31)["chunk_list"][1::2] if state > 3}
    expect("additions held elsewhere", met, {"alone"} | {(outside, state) for outside in (False, True) for state in (0, 1, 2)})
    expect("states above 3", {4, 5, 255, 256, 259, 2 ** 64 - 1} < above)


def check_additions_outside(rng, files):
    """Additions with the argument are taken with good chunks, of one box and of several, beside damaged ones and
    without, and with no good one in any file."""
    met = set()
    for file in files:
        given = generate.addition(rng, file)
        if given["outside"] and model.append(**given)[0][0] == "length":
            parts = model.data_of(model.pairs_of(given["chunk_list"]), given["data"], True, model.goes_outside)
            met |= {("boxes", min(2, top_level_count(part))) for part in parts}
            met.add((model.read_head(file).mixed, len(parts) > 0, 1 in given["chunk_list"][1::2]))
    wanted = {("boxes", 1), ("boxes", 2)} | {(True, good, damaged) for good in (False, True) for damaged in (False, True)}
    expect("additions outside", met, wanted | {(False, False, False), (False, False, True)})


def check_additions_to_sources(rng, files):
    """Additions are taken without texts and with those of a source that is there, with its MIME texts and with others,
    and of a new one, in files of one source and of several; and texts are wrong in each way."""
    met, wrong = Counter(), Counter()
    for file in files:
        given = generate.addition(rng, file)
        of_pfil, known = additions_texts.lists_in(file)
        if model.append(**given)[0][0] == "length" and given["buffer"].startswith(file):
            urls = additions_texts.urls_used(file, given["texts"], given["lengths"])
            how = "no text" if not given["lengths"] else "the list in pfil" if urls == of_pfil else "a list"
            met[how, "new" if urls not in known else "first" if urls == known[0] else "later"] += 1
            met["several surl"] += len(given["lengths"]) > 2
        for number in (31, 32, 6):
            bad = generate.faulty_addition(rng, file, number) if number != 6 or rng.random() < 0.05 else given
            wrong[number, "odd"] += len(bad["lengths"]) % 2
            wrong[number, "sum"] += len(bad["lengths"]) % 2 == 0 and sum(bad["lengths"]) != len(bad["texts"])
            wrong[number, "wraps"] += sum(bad["lengths"]) >= 2 ** 64
            wrong[number, "many"] += len(bad["lengths"]) > 1020
    for how in [*[(word, when) for word in ("no text", "the list in pfil") for when in ("first", "later", "new")], *[("a list", when) for when in ("first", "later", "new")], "several surl"]:
        expect(f"additions to sources, {how}", met[how] >= 3)
    for how in [(31, "odd"), (32, "sum"), (32, "wraps"), (6, "many")]:
        expect(f"wrong texts, {how}", wrong[how] >= 3)


def check_beginnings(rng, runs):
    for number in generate.FAULTS_OF_BEGIN:
        for _ in range(runs):
            given = generate.faulty_beginning(rng, number)
            expect(f"begin refuses with {number}", model.begin(**given),
                   (("refused", number), given["buffer"]))
    for _ in range(runs):
        given = generate.faulty_beginning(rng, None)
        answer, buffer = model.begin(**given)
        file = head(given["url"], given["mime"], given["brand"])
        expect("begun", (answer, buffer),
               (("length", len(file)), file + given["buffer"][len(file):]))


def main(seed):
    remembering.remember()
    rng = random.Random(seed)
    files = [generate.foreign_file(rng) for _ in range(2000)]
    again = random.Random(seed)
    expect("same seed, same file", generate.foreign_file(again), files[0])
    check_foreign(files)
    good = [file for file in files if accepted(file)]
    for file in good[:400]:
        if all(model.length(file, source)[1] < 80 for source in range(8)):
            check_meaning(file)
    check_faulty(rng, 30)
    check_reserved(rng, 150)
    check_faulty_vendors(rng, 1500)
    check_faulty_sources(rng, 120)
    check_spoiled(rng, files)
    check_additions(rng, good[:40] + 10 * [head()] + 10 * [head(brand=b"pmff")])
    check_all_additions(rng, good[:1200])
    check_additions_far(rng, good)
    check_additions_elsewhere(rng, good[:1200])
    check_additions_outside(rng, good[:1200])
    check_additions_to_sources(rng, good[:900])
    check_beginnings(rng, 100)
    return close()


if __name__ == "__main__":
    raise SystemExit(main(int(sys.argv[1]) if len(sys.argv) > 1 else 1))
