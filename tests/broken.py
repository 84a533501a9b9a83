"""Makes bytes that no framing takes at the end of a container."""

from boxes import sized, sized_large


def cut_header(rng):
    small = rng.randbytes(rng.randint(1, 7))
    large = sized(1, rng.choice([b"free", b"uuid"])) + rng.randbytes(rng.randint(0, 7))
    return rng.choice([small, large])


def size_0(rng):
    kind = rng.choice([b"free", b"pdat", b"pseg", b"uuid", b"bidx"])
    return sized(0, kind) + rng.randbytes(rng.choice([0, 9, 16]))


def short_vendor(rng):
    """A uuid whose size leaves out some of its user type, with as many bytes as it says, or fewer, or more."""
    size, header = rng.choice([
        (rng.choice([2, 7, 8, 9, 15, 16, 17, 19, 20, 22, 23]), sized),
        (rng.choice([0, 8, 15, 16, 17, 23, 24, 25, 30, 31]), sized_large)])
    front = header(size, b"uuid")
    return front + rng.randbytes(rng.choice([0, max(0, size - len(front)), 16, rng.randint(0, 20)]))


def below_header(rng):
    small = sized(rng.randint(2, 7)) + rng.randbytes(rng.choice([0, 4]))
    large = sized_large(rng.randint(0, 15))
    return rng.choice([small, large, short_vendor(rng), short_vendor(rng)])


def cut_vendor(rng):
    """A uuid large enough for its user type, in which the container ends."""
    front = rng.choice([
        sized(rng.choice([24, 24, 25, 31, 32, 40, 2 ** 32 - 1]), b"uuid"),
        sized_large(rng.choice([32, 32, 33, 40, 2 ** 32 + 32, 2 ** 64 - 1]), b"uuid")])
    return front + rng.randbytes(rng.choice([0, 1, 12, 15, rng.randint(0, 15)]))


def past_container(rng):
    small = sized(rng.choice([9, 9, 10, 2 ** 31, 2 ** 32 - 1]), b"pdat")
    large = sized_large(rng.choice([17, 2 ** 32 - 1, 2 ** 32 + 16, 2 ** 63, 2 ** 64 - 1]), b"pdat")
    return rng.choice([small, large, cut_vendor(rng)])
