"""The index of a real film: ffmpeg makes a short fragmented film, a walk over it writes its index, parts of the film
are lost on the way and fetched one by one. What `paff index` tells is held against the walk and against what is lost
each time, for indexes of one, three and eight levels, in `pfil` and in every segment.

usage: python3 tests/film_index.py WORDS...

WORDS start the program, as for tests/command.py.
"""

import subprocess
import sys
import tempfile

import expecting
from command_run import Command, claim, claim_refused
from expecting import expect
from film_boxes import flat, index_of, lines, walk, with_index, word_of

LEVELS = (1, 3, 8)
MAKE = ("ffmpeg -nostdin -v error -f lavfi -i testsrc=size=64x48:rate=10:duration=4 -f lavfi -i sine=frequency=440:duration=4 -threads 1 -c:v mpeg4 -g 10 -c:a aac -b:a 32k "
        "-map_metadata -1 -metadata title=lesson -fflags +bitexact -flags:v +bitexact -flags:a +bitexact -movflags frag_keyframe+empty_moov+default_base_moof -y")


def make_film(command):
    """Four seconds of picture and sound, a fragment each second, with a title, whose box has a type that does not
    print."""
    subprocess.run([*MAKE.split(), command.path("film.mp4")], check=True, stdin=subprocess.DEVNULL, timeout=120)
    return command.held("film.mp4")


def ranges_lost(film):
    """Some byte of the sound's description, the second fragment's `moof`, and from the midst of the third `mdat` to the
    first bytes of the box behind it."""
    top, deep = walk(film, 1), flat(walk(film, 8))
    esds = [one for one in deep if one.kind == b"esds"][-1]
    moof = [one for one in top if one.kind == b"moof"][1]
    mdat = [one for one in top if one.kind == b"mdat"][2]
    return [(esds.place + 12, esds.place + 13), (moof.place, moof.place + moof.size), (mdat.place + mdat.size // 2, mdat.place + mdat.size + 10)]


def pieces(film, first, end, lost):
    """What came and what was lost from one position to another, each with its bounds."""
    at, found = first, []
    for lost_first, lost_end in [(max(first, one), min(end, other)) for one, other in lost if one < end and other > first]:
        found += [("good", at, lost_first)] if at < lost_first else []
        found += [("lost", lost_first, lost_end)]
        at = lost_end
    return found + ([("good", at, end)] if at < end else [])


def append(command, film, first, end, lost):
    """Appends what came of a part of the film; its last part has the end."""
    words = ["append", "film.paff", "--offset", str(first)] + ["--last"] * (end == len(film))
    for number, (kind, at, to) in enumerate(pieces(film, first, end, lost)):
        words += ["--" + kind, command.put(f"piece{number}", film[at:to]) if kind == "good" else str(to - at)]
    claim(f"append from {first} to {end}", command.run(*words), 0)


def index_in_pfil(command, film, boxes, lost):
    """The index is sent first, and the film comes in one segment."""
    command.put("film.paff", with_index(command.held("begun"), b"pfil", index_of(film, boxes)))
    claim_refused("an index and no segment", command.run("index", "film.paff"), 12, "film.paff")
    append(command, film, 0, len(film), lost)


def index_in_segments(command, film, boxes, lost):
    """The film comes in a segment for each of its boxes, with the index of that box."""
    command.put("film.paff", command.held("begun"))
    for walked in boxes:
        append(command, film, walked.place, walked.place + walked.size, lost)
        command.put("film.paff", with_index(command.held("film.paff"), b"pseg", index_of(film, [walked])))


def claim_told(name, command, boxes, lost):
    """The rows, and of the tree a line for each with its sign, and the counts."""
    claim(f"the index, {name}", command.run("index", "film.paff"), 0, lines(boxes, lost))
    words = [word_of(one, lost) for one in flat(boxes)]
    tree = command.run("index", "--tree", "film.paff")
    told = tree.out.decode("ascii").splitlines()
    expect(f"the signs of the tree, {name}", "".join(line[0] for line in told[1:-1]), "".join({"all": " ", "some": "%", "none": "-"}[word] for word in words))
    counts = [words.count(word) for word in ("all", "some", "none")]
    expect(f"the counts of the tree, {name}", (tree.status, told[-1].replace(",", "")), (0, "{} boxes: {} whole {} in part {} missing".format(len(words), *counts)))
    return counts


def claim_film(command, film, levels, put_index):
    """An index of so many levels: what is told after the loss and after each repair; answers the counts at first."""
    boxes, lost = walk(film, levels), ranges_lost(film)
    put_index(command, film, boxes, lost)
    name = f"{levels} levels, {put_index.__name__}"
    counts = claim_told(name, command, boxes, lost)
    while lost:
        first, end = lost.pop()
        append(command, film, first, end, [])
        claim_told(f"{name}, {len(lost)} ranges left", command, boxes, lost)
    claim(f"the film, {name}", command.run("get", "film.paff"), 0, film)
    return counts


def to_the_end(film):
    """The film with the size of its last box 0, so that it runs to the end of the film."""
    last = walk(film, 1)[-1]
    return film[:last.place] + bytes(4) + film[last.place + 4:]


def main():
    if len(sys.argv) < 2:
        print(__doc__.strip(), file=sys.stderr)
        return 2
    with tempfile.TemporaryDirectory() as folder:
        command = Command(sys.argv[1:], folder)
        film = make_film(command)
        claim("begin", command.run("begin", "begun", "http://films.example/film.mp4", "video/mp4"), 0)
        for put_index in (index_in_pfil, index_in_segments):
            for levels in LEVELS:
                counts = claim_film(command, film, levels, put_index)
            claim_film(command, to_the_end(film), 3, put_index)
    levels = max(one.level for one in flat(walk(film, 99)))
    expect("levels of the film", levels, 8)
    print(f"the index of a real film: {len(film)} bytes in {sum(counts)} boxes of {levels} levels; {counts[0]} whole, {counts[1]} in part, {counts[2]} missing before the repair")
    return expecting.close()


if __name__ == "__main__":
    raise SystemExit(main())
