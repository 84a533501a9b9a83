"""Makes files of several sources, each with the lines that its map is to have between the first and the last, worked out
by hand."""

from boxes import bare_head, bidx, fidx, head, lost_segment, open_segment, surl
from foreign import LIMIT
from lists_record import file_of

LAST = 1
A, B = [b"a"], [b"b"]


def layers():
    base, other = (0, "good 4, lost 6", LAST), (2, "good 3", 0, A)
    yield "two layers", file_of(base, other), "have 0 4, lost 4 6, total 4 0 6, source 5 open, lost 0 2, have 2 3"
    yield "two layers, turned", file_of(other, base), "lost 0 2, have 2 3, total 3 0 2, source 10 closed, have 0 4, lost 4 6"
    yield "a repair of the first", file_of(base, other, (4, "good 2")), "have 0 6, lost 6 4, total 6 0 4, source 5 open, lost 0 2, have 2 3"
    yield "a repair of the second", file_of(base, other, (0, "good 2", 0, A)), "have 0 4, lost 4 6, total 4 0 6, source 5 open, have 0 5"
    yield "damage in the second alone", file_of(base, (0, "damaged 9", LAST, A), (4, "good 2", 0, A)), "have 0 4, lost 4 6, total 4 0 6, source 9 closed, held 0 4, have 4 2, held 6 3"
    yield "three by turns", file_of((0, "good 2", 0, A), (0, "good 2"), (2, "damaged 2", 0, A), (0, "lost 2", LAST, B), (4, "lost 1", LAST, A), (2, "elsewhere 2")), \
        "have 0 2, held 2 2, lost 4 1, total 2 2 1, source 4 open, have 0 2, lost 2 2, total 2 0 2, source 2 closed, lost 0 2"
    yield "by one list in two ways", file_of((0, "good 2", 0, [b"u"]), (2, "damaged 2"), (4, "", 0, [b"u", b"u"])), "have 0 2, held 2 2, total 2 2 0, source 4 open, lost 0 4"
    yield "lengths of 0", file_of((0, ""), (0, "lost 0", LAST, A), (0, "", LAST, B)), "total 0 0 0, source 0 closed, total 0 0 0, source 0 open"


def many():
    eight = [(0, f"good {at + 1}", at % 2, [bytes([97 + at])]) for at in range(8)]
    words = [f"have 0 {at + 1}, total {at + 1} 0 0" for at in range(8)]
    between = [f", source {at + 2} {'open' if at % 2 else 'closed'}, " for at in range(7)]
    yield "eight sources", file_of(*eight), "".join(word + more for word, more in zip(words, [*between, ""])).rpartition(", total")[0]
    far = head() + open_segment(LIMIT) + open_segment(LIMIT, parts=surl(b"a")) + lost_segment(LIMIT - 1, [1], flags=LAST, parts=surl(b"b"))
    yield "three up to the limit", far, f"lost 0 {LIMIT}, total 0 0 {LIMIT}, source {LIMIT} open, lost 0 {LIMIT}, total 0 0 {LIMIT}, source {LIMIT} closed, lost 0 {LIMIT}"


def beside_pfil():
    yield "no list in pfil", bare_head() + open_segment(3, parts=surl(b"")) + open_segment(4, parts=surl(b"") + surl(b"")), "lost 0 3, total 0 0 3, source 4 open, lost 0 4"
    yield "an index beside two layers", head(parts=fidx(bidx(0))) + open_segment(3, parts=surl(b"a")) + lost_segment(0, [9], flags=LAST), "lost 0 3, total 0 0 3, source 9 closed, lost 0 9"


def files():
    """Names, files, and the lines of their maps in words, but the first and the last."""
    for made in (layers, many, beside_pfil):
        yield from made()
