"""Models the sources of a partial file: the texts of its `surl` boxes, and which of its segments are of one source.

Written from request 8 and from 5.1.8 of ISO/IEC 23001-14.

Readings, where the request can be read in two ways:

 1. Which number has the source of the list in `pfil`?  That which its first segment gives it; without a segment it is
    none of the file's sources: rows get the number, and there is "a source number not in the file".
 2. Do MIME texts tell sources apart?  No: "segments whose lists of URLs are byte-equal in the same order".
 3. A segment whose own list is that of `pfil`?  It is of that source, as lists are compared and not where they stand.
 4. Is an empty URL a URL?  Yes, so a list of one empty URL is a list, and another than one of two.
 5. Which are the texts of a source?  Those of the first `surl` of its first segment, or of `pfil` where that has none.
"""

from collections import namedtuple

from model_boxes import of_kind, refuse_if

# A part of the file, and the two of a surl.
Text = namedtuple("Text", "place length")
Surl = namedtuple("Surl", "url mime")

NO_TEXTS = Surl(Text(0, 0), Text(0, 0))


def read_surl(file, surl, number):
    """The URL and the MIME text of one surl, as parts of the file; an ill-formed one is refused with the number."""
    body = file[surl.body:surl.end]
    refuse_if(len(body) < 4 or body[:4] != bytes(4), number)
    texts = body[4:].split(b"\0")
    refuse_if(len(texts) != 3 or texts[2] != b"", number)
    url = Text(surl.body + 4, len(texts[0]))
    mime = Text(url.place + url.length + 1, len(texts[1]))
    return Surl(url, mime)


def read_surls(file, parts, number):
    """The texts of every surl of a container, in order."""
    return [read_surl(file, surl, number) for surl in of_kind(parts, b"surl")]


def first_texts(surls):
    """Those of the first surl, empty parts at place 0 where there is none."""
    return surls[0] if surls else NO_TEXTS


def bytes_of(file, text):
    return file[text.place:text.place + text.length]


def urls_of(file, surls):
    """The list of URLs that tells a source from others."""
    return [bytes_of(file, surl.url) for surl in surls]


def lists_by_number(lists):
    """The lists of URLs of the sources, in the order in which these have their numbers."""
    found = []
    for urls in lists:
        if urls not in found:
            found.append(urls)
    return found
