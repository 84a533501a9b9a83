"""Makes the texts that append is given, URL and MIME text by turns: of a source of the file, of a new one, and wrong
ones."""

import model
from boxes import open_segment, surl
from layers import SOURCES, fresh_list, fresh_lists, mime

# The most surl boxes that a pseg has room for, beside pshd and ploc.
MOST = 510
TOP = 2 ** 64


def pairs_of(texts, lengths):
    """The URL and the MIME text of each surl."""
    parts, at = [], 0
    for length in lengths:
        parts.append(texts[at:at + length])
        at += length
    return list(zip(parts[0::2], parts[1::2]))


def surls_of(texts, lengths):
    """The boxes that append writes of these texts."""
    return b"".join(surl(*pair) for pair in pairs_of(texts, lengths))


def given_texts(parts):
    """All bytes, and the length of each text."""
    return b"".join(parts), [len(part) for part in parts]


def texts_of_urls(rng, urls):
    """The texts of a list of URLs, with any MIME texts."""
    return given_texts([part for url in urls for part in (url, mime(rng))])


# Of which source they are.

def lists_in(file):
    """The list in pfil, and those of the sources by their numbers; none where the file is refused."""
    number, head = model.attempt(model.read_head, file)
    if number:
        return [], []
    number, reading = model.attempt(model.accept, file)
    sources = [] if number else reading.sources
    return model.urls_of(file, head.surls), [model.urls_of(file, source.surls) for source in sources]


def urls_used(file, texts, lengths):
    """The list of the source that an addition is of."""
    return [url for url, mime_text in pairs_of(texts, lengths)] or lists_in(file)[0]


def said_of(file, texts, lengths):
    """The described length of that source and whether it is the known size; 0 where the file does not have it."""
    urls, known = urls_used(file, texts, lengths), lists_in(file)[1]
    return model.length(file, known.index(urls))[1:] if urls in known else (0, False)


def some_texts(rng, file):
    """Texts with which an addition is taken: none, the list of a source with its own MIME texts or others, or a new
    one."""
    of_pfil, known = lists_in(file)
    room = len(known) < SOURCES
    if of_pfil and (room or of_pfil in known) and rng.random() < 0.5:
        return rng.choice([(b"", []), (b"", []), (b"", []), texts_of_urls(rng, of_pfil)])
    if known and (not room or rng.random() < 0.6):
        segment = rng.randrange(len(model.read(file)[1]))
        texts = model.texts(file, segment)[1:]
        return texts if texts[1] and rng.random() < 0.5 else texts_of_urls(rng, rng.choice(known))
    return texts_of_urls(rng, fresh_list(rng, [of_pfil, *known]))


# Wrong ones, each in arguments that are acceptable otherwise.

def spoil_lengths(rng, given):
    """A list of an odd length, with as many bytes as it says or not."""
    more = rng.choice([0, 1, 3, TOP - 1])
    if given["lengths"] and rng.random() < 0.4:
        given["lengths"] = given["lengths"][:-1]
    else:
        given["lengths"] = given["lengths"] + [more]
        given["texts"] += bytes(rng.choice([more, 0]) if more < 9 else 0)


def spoil_texts(rng, given):
    """More bytes or fewer than the lengths say, also where a sum would wrap to as many."""
    if rng.random() < 0.3:
        given["lengths"] = given["lengths"] + rng.choice([[TOP - 1, 1], [2 ** 63, 2 ** 63], [2 ** 32, 0], [1, 0]])
    elif given["texts"] and rng.random() < 0.5:
        given["texts"] = given["texts"][:-1]
    else:
        given["texts"] += rng.choice([b"\0", b"x", b"\0\0"])


def put_zero(rng, given):
    """A zero byte in one of the texts, which are made where there are none."""
    if not given["lengths"]:
        given["texts"], given["lengths"] = texts_of_urls(rng, [b"a", b"b"])
    at = rng.randrange(len(given["lengths"]))
    before = sum(given["lengths"][:at]) + rng.randint(0, given["lengths"][at])
    given["texts"] = given["texts"][:before] + b"\0" + given["texts"][before:]
    given["lengths"] = [length + (1 if number == at else 0) for number, length in enumerate(given["lengths"])]


def too_many_texts(rng):
    """Of more surl boxes than a pseg has room for."""
    count = MOST + rng.choice([1, 1, 2, 90])
    return given_texts(count * rng.choice([[b"", b""], [b"a", b""], [b"", b"m"]]))


def fill_with_sources(rng, given):
    """Puts so many sources behind the file that there is room for no other, and gives texts of a new one, or of that in
    pfil where it is none of them."""
    of_pfil, known = lists_in(given["buffer"])
    lists = fresh_lists(rng, [of_pfil, *known], SOURCES - len(known))
    for urls in lists:
        given["buffer"] += open_segment(rng.randint(0, 9), parts=surls_of(*texts_of_urls(rng, urls)))
    given["stated_length"] = len(given["buffer"])
    given["texts"], given["lengths"] = texts_of_urls(rng, fresh_list(rng, [of_pfil, *known, *lists]))
    if of_pfil and of_pfil not in known and rng.random() < 0.5:
        given["texts"], given["lengths"] = b"", []
