"""Says what the command is to answer, by its manual page and the independent model."""

import time as clock

import model
from command_run import KEPT, claim, claim_missing, claim_not_got, claim_refused, in_form, why
from expecting import expect
from film_boxes import shown_type

STATES = {"lost": model.LOST, "damaged": model.DAMAGED, "good": model.GOOD, "elsewhere": model.ELSEWHERE}
WORDS = {state: word for word, state in STATES.items()}
SEGMENT_HEADING = ("segment", "place", "offset", "flags", "time", "chunks", "header", "length", "repaired", "source")
CHUNK_HEADING = ("segment", "index", "start", "size", "state", "place")
SERVED = {model.NONE: "none", model.SOME: "some", model.ALL: "all"}
SIGNS = {model.NONE: "-", model.SOME: "%", model.ALL: " "}


def number_of(file):
    """The number of the file's refusal, 0 where it is read."""
    answer = model.read(file)
    return answer[1] if answer[0] == "refused" else 0


def map_text(file):
    return model.map_text(file, most=len(file))


def missmap_text(file):
    return model.missmap_text(file, most=len(file))


def boxes_text(file):
    return model.boxes_text(file, most=len(file))


def fault_in(text):
    """The number in the last line of a text, where that has two fields and so tells of a fault; 0 where it does not."""
    fields = text[:-1].split(b"\n")[-1].split(b"\t")
    return int(fields[1]) if len(fields) == 2 else 0


def shown(text):
    """A text with each byte that is no printing character, and the backslash, in two digits."""
    return b"".join(bytes([byte]) if 0x20 <= byte <= 0x7E and byte != 0x5C else b"\\x%02x" % byte for byte in text)


def part(file, text):
    place, length = text
    return file[place:place + length]


# Seconds from 1900, where the times of RFC 5905 begin, to 1970; times lie from half of their first era of 2^32 seconds
# to half of the next.
TO_1970 = 2_208_988_800
HALF_AN_ERA = 2 ** 31


def repaired(timestamp):
    """A repair time as a date and a time of day."""
    seconds = timestamp >> 32
    seconds += 2 ** 32 if seconds < HALF_AN_ERA else 0
    return clock.strftime("%Y-%m-%dT%H:%M:%SZ", clock.gmtime(seconds - TO_1970)) if timestamp else "unknown"


def rows_text(file):
    answer = model.read(file)
    text = b"url\t" + shown(part(file, model.url(file))) + b"\nmime\t" + shown(part(file, model.mime(file))) + b"\n"
    text += model.line(*SEGMENT_HEADING)
    for number, row in enumerate(answer[1]):
        text += model.line(number, *row[:7], repaired(row[3]), row[7])
    text += model.line(*CHUNK_HEADING)
    return text + b"".join(model.line(*row[:4], WORDS[row[4]], row[5]) for row in answer[2])


def index_fields(file):
    """Of each indexed box of an accepted file its level, its place, its size, its type as it is shown, and whether all,
    some or none of it is there."""
    return [(*row[:3], shown_type(row[3].to_bytes(4, "big")), row[4]) for row in model.index(file)[1]]


def index_text(file):
    return b"".join(model.line(*row[:4], SERVED[row[4]]) for row in index_fields(file))


def tree_text(file):
    """The same for a person: columns as wide as their widest field, and a last line with the counts."""
    rows = index_fields(file)
    columns = [["box", *["  " * (row[0] - 1) + row[3] for row in rows]], ["place", *[f"{row[1]:,}" for row in rows]], ["size", *[f"{row[2]:,}" for row in rows]]]
    box, place, size = [max(len(field) for field in column) for column in columns]
    lines = [f"{fields[0]:<{box}}  {fields[1]:>{place}}  {fields[2]:>{size}}" for fields in zip(*columns)]
    lines = ["  " + lines[0], *[f"{SIGNS[row[4]]} {line}  {SERVED[row[4]]}" for row, line in zip(rows, lines[1:])]]
    whole, some, none = [f"{sum(row[4] == how for row in rows):,}" for how in (model.ALL, model.SOME, model.NONE)]
    lines.append(f"{len(rows):,} {'box' if len(rows) == 1 else 'boxes'}: {whole} whole, {some} in part, {none} missing")
    return "".join(line + "\n" for line in lines).encode("ascii") if rows else b""


def source_count(file):
    """How many sources an accepted file has."""
    return model.sources(file)[1]


def sources_text(file, percent=None):
    """A line for each source; the URLs by a function in the place of how a text is shown."""
    text = b""
    for number in range(source_count(file)):
        described, closed = model.length(file, number)[1:3]
        url, mime = part(file, model.source_url(file, number)), part(file, model.source_mime(file, number))
        text += model.line(number, described, "closed" if closed else "open", *model.lists(file, source=number)[3:5])[:-1]
        text += b"\t" + (percent or shown)(url) + b"\t" + shown(mime) + b"\n"
    return text


def lines_of(text, source):
    """The lines of one source in a map."""
    return b"source" + text.split(b"source")[source + 1]


def got(file, first, length, source=0):
    """The bytes of positions of a source and the first missing one, None where none is; the file is accepted."""
    asked, content = model.source_of(model.accept(file), source), bytearray()
    for p in range(first, first + length):
        chunk = model.supplier(asked, p)
        if chunk is None:
            return b"", p
        content.append(file[chunk.place + p - chunk.start])
    return bytes(content), None


def left(film, before, file):
    """What append says on standard error once it left this file: of what an eighth or less is left, of sources where
    there is a new one."""
    segments, chunks = model.read(file)[1:3]
    counts = [(len(segments), 64, "segments"), (len(chunks), 1_024, "chunks"), (boxes_text(file).count(b"\n"), 512, "boxes")]
    if source_count(file) > (0 if number_of(before) else source_count(before)):
        counts.append((source_count(file), 8, "sources"))
    return "".join(f"paff: {film}: {most - used} of {most} {what} are left\n" for used, most, what in counts if 8 * (most - used) <= most).encode("ascii")


def texts_to(file, source):
    """The texts that an addition to a source has, those of its first segment; none where the file was only begun."""
    if number_of(file):
        return b"", []
    first = next(number for number, row in enumerate(model.read(file)[1]) if row[7] == source)
    return model.texts(file, first)[1:3]


def texts_of(surls):
    """The texts of `surl` boxes, each a pair, as the library takes them."""
    texts = [text for surl in surls for text in surl]
    return b"".join(texts), [len(text) for text in texts]


def appended(file, offset, chunks, last=False, time=None, outside=False, source=0, surls=()):
    """The number of the refusal, 0 where it is taken, and the file after an append to a source, or with these `surl`
    boxes."""
    chunk_list, data = [], b""
    for chunk in chunks:
        size = len(chunk.value) if chunk.kind in KEPT else chunk.value
        chunk_list += [size, STATES[chunk.kind]]
        data += chunk.value if chunk.kind in KEPT else b""
    texts, lengths = texts_of(surls) if surls else texts_to(file, source)
    buffer = file + bytes(len(data) + 100 + 17 * len(chunks) + len(texts) + 7 * len(lengths))
    answer, buffer = model.append(buffer, len(file), offset, time or 0, last, outside, chunk_list, data, texts, lengths)
    return (answer[1], file) if answer[0] == "refused" else (0, buffer[:answer[1]])


def begun(url, mime=b"", brand=model.PAFF):
    answer, file = model.begin(bytes(54 + len(url) + len(mime)), brand, url, mime)
    assert answer == ("length", len(file))
    return file


def film_of(*additions, url=b"u", mime=b"", brand=model.PAFF):
    """A file begun, and the taken additions, each an offset and its chunks and where it says so, last, its time,
    outside, the source and the `surl` boxes."""
    file = begun(url, mime, brand)
    for addition in additions:
        number, file = appended(file, *addition)
        assert number == 0, addition
    return file


# Claims of what reads a file.

def said_of(film, number):
    """What standard error says of a file with this refusal, 0 where it has none."""
    return why(film, number) if number else b""


def claim_map(name, command, film, file):
    """Both maps, and that of the last source alone."""
    number = number_of(file)
    status, err = (1 if number else 0), said_of(film, number)
    claim(f"map of {name}", command.run("map", film), status, map_text(file), err)
    claim(f"map --missing of {name}", command.run("map", "--missing", film), status, missmap_text(file), err)
    last = 0 if number else source_count(file) - 1
    wanted = map_text(file) if number else lines_of(map_text(file), last)
    claim(f"map --source {last} of {name}", command.run("map", "--source", str(last), film), status, wanted, err)


def claim_sources(name, command, film, file):
    number, answer = number_of(file), command.run("sources", film)
    if number:
        claim_refused(f"sources of {name}", answer, number, film)
    else:
        claim(f"sources of {name}", answer, 0, sources_text(file))


def claim_boxes(name, command, film, file):
    text = boxes_text(file)
    number = fault_in(text)
    claim(f"boxes of {name}", command.run("boxes", film), 1 if number else 0, text, said_of(film, number))


def claim_rows(name, command, film, file):
    number, answer = number_of(file), command.run("rows", film)
    if number:
        claim_refused(f"rows of {name}", answer, number, film)
    else:
        claim(f"rows of {name}", answer, 0, rows_text(file))


def claim_index(name, command, film, file):
    """The rows, and the tree, which says where there are none."""
    number, rows, tree = number_of(file), command.run("index", film), command.run("index", "--tree", film)
    if number:
        claim_refused(f"index of {name}", rows, number, film)
        claim_refused(f"index --tree of {name}", tree, number, film)
        return
    text = tree_text(file)
    claim(f"index of {name}", rows, 0, index_text(file))
    claim(f"index --tree of {name}", tree, 0, text, b"" if text else b"paff: %s: no box is indexed\n" % film.encode())


def claim_not_named(name, answer, film, last, named=None):
    """A wrong use, as the file has other sources than the one that is named, or several and none is."""
    what = "no --source is given" if named is None else f"there is no source {named}"
    line = f"paff: {what}; " + ("the only source is 0" if last == 0 else f"the sources are 0 to {last}") + f": {film}"
    expect(name, (answer.status, answer.out, answer.err.split(b"\n")[0], in_form(answer.err)), (2, b"", line.encode(), True))


def claim_get(name, command, film, file, first, length, source=0):
    """Of a source that is named, and where there is but one, of that without its number too."""
    name, number = f"get {first} {length} of source {source} of {name}", number_of(file)
    words = ["get", film, str(first), str(length)]
    answers = [command.run(*words), command.run(*words, "--source", str(source))]
    if number:
        for answer in answers:
            claim_not_got(name, answer, number, film)
        return
    if source_count(file) > 1:
        claim_not_named(f"{name}, not named", answers.pop(0), film, source_count(file) - 1)
    content, missing = got(file, first, length, source)
    for answer in answers:
        if missing is None:
            claim(name, answer, 0, content)
        else:
            claim_missing(name, answer, missing, model.length(file, source)[1])
