"""Makes the lists of URLs of layered films, some hardly apart, puts them into the plan of a file as surl boxes, and tells
which segments of a plan are of one source."""

from boxes import box, full, surl

SOURCES = 8
# Lists that a reader may take for each other, or for one that it has not.
NEAR = [[b"a"], [b"b"], [b"a", b"b"], [b"b", b"a"], [b""], [b"", b""], [b"ab"], [b"a", b""], [b"", b"a"], [b"a", b"a"], [b"A"], [b"a", b"b", b"c"], [b"a", b"bc"], [b"ab", b"c"], [b"\x01"],
        [b"a/"]]


def seldom(rng):
    return rng.random() < 0.1


def mime(rng):
    return rng.choice([b"", b"", b"m", b"n", b"a", b"video/mp4"])


def some_bytes(rng):
    return bytes(rng.randint(1, 255) for _ in range(rng.choice([1, 2, 5])))


def fresh_list(rng, known):
    """A list of URLs that is none of those that are known: near to others, as another order of one, or any."""
    while True:
        turned = [urls[::-1] for urls in known] + [[*urls, *urls[:1]] for urls in known] + [urls[:-1] for urls in known]
        urls = rng.choice([rng.choice(NEAR), rng.choice(NEAR), rng.choice(turned or NEAR), [some_bytes(rng) for _ in range(rng.choice([1, 1, 2]))]])
        if urls and urls not in known:
            return urls


def fresh_lists(rng, known, count):
    """So many of them."""
    made = []
    for _ in range(count):
        made.append(fresh_list(rng, known + made))
    return made


# Of boxes and plans.

def kind_of(part):
    return part[4:8]


def urls_in(parts):
    """The URLs of the surl boxes among these parts, in order."""
    bodies = [part[16 if part[:4] == bytes([0, 0, 0, 1]) else 8:] for part in parts if kind_of(part) == b"surl"]
    return [body[4:].split(b"\0")[0] for body in bodies]


def is_segment(container):
    return hasattr(container, "entries")


def own_urls(container):
    """The list in pfil, for a plan, or in a segment."""
    return urls_in(container.between + container.after if is_segment(container) else container.pfil_parts)


def urls_for(plan, container):
    """The list of the source that pfil or a segment belongs to."""
    return own_urls(container) or own_urls(plan)


def segments_for(plan, container):
    """The segments of the same source."""
    urls = urls_for(plan, container)
    return [segment for segment in plan.segments() if urls and urls_for(plan, segment) == urls]


def lists_of(plan):
    """The lists of the sources of a plan."""
    found = []
    for segment in plan.segments():
        urls = urls_for(plan, segment)
        if urls not in found:
            found.append(urls)
    return found


# Putting them in.

def put_in_order(rng, parts, boxes):
    places = sorted(rng.randint(0, len(parts)) for _ in boxes)
    for shift, (place, made) in enumerate(zip(places, boxes)):
        parts.insert(place + shift, made)


def boxes_for(rng, urls):
    return [surl(url, mime(rng), large=seldom(rng)) for url in urls]


def put_urls(rng, segment, urls):
    """Puts surl boxes before the ploc of a segment, behind it, or on both sides."""
    boxes = boxes_for(rng, urls)
    cut = rng.choice([0, 0, len(boxes), rng.randint(0, len(boxes))])
    put_in_order(rng, segment.between, boxes[:cut])
    put_in_order(rng, segment.after, boxes[cut:])


def without_surls(parts):
    return [part for part in parts if kind_of(part) != b"surl"]


def take_urls(container):
    """Takes the surl boxes out of pfil or of a segment."""
    if is_segment(container):
        container.between, container.after = without_surls(container.between), without_surls(container.after)
    else:
        container.pfil_parts = without_surls(container.pfil_parts)


def make_bare(rng, plan):
    """Takes the list out of pfil, and gives it to the segments that have none of their own."""
    for segment in plan.segments():
        if not own_urls(segment):
            put_urls(rng, segment, own_urls(plan))
    take_urls(plan)


def spread(rng, plan, groups):
    """Makes a source of each group of segments. That in pfil may be one of them, by segments without a list or with the
    same one; or it is none of them, or not there."""
    of_pfil = own_urls(plan)
    lists = fresh_lists(rng, [of_pfil], len(groups))
    if rng.random() < 0.7:
        lists[rng.randrange(len(lists))] = of_pfil
    for urls, group in zip(lists, groups):
        for segment in group:
            if urls != of_pfil or rng.random() < 0.25:
                put_urls(rng, segment, urls)
    if rng.random() < 0.25:
        make_bare(rng, plan)


# Ill-formed.

def ill_formed(rng):
    """A surl with one fault."""
    url, front = some_bytes(rng), rng.choice([full(rng.randint(1, 255)), full(0, rng.choice([1, 0x800000, rng.randint(1, 2 ** 24 - 1)]))])
    body = rng.choice([front + url + b"\0\0", bytes(rng.randint(0, 3)), full(), full() + url, full() + url + b"\0", full() + url + b"\0m",
                       full() + url + b"\0m\0" + rng.choice([b"\0", b"x", some_bytes(rng)])])
    return box(b"surl", body, large=seldom(rng))
