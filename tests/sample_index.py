"""Makes samples/index.paff: a film of three scenes with its index, of which the first scene came, the second in part
and the third not.

usage: python3 tests/sample_index.py
"""

import os

from boxes import box
from command_run import good, lost
from command_wanted import appended, begun
from corpus import ROOT
from film_boxes import index_of, walk, with_index

PATH = os.path.join(ROOT, "samples", "index.paff")

# A box for each scene with its pictures, too small for a player.
SCENES = [bytes([number]) * size for number, size in ((1, 120), (2, 200), (3, 160))]
MOOV = box(b"moov", box(b"mvhd", bytes(12)), box(b"trak", box(b"tkhd", bytes(8)), box(b"mdia", bytes(16))))
FILM = box(b"ftyp", b"isom", bytes(4)) + MOOV + b"".join(box(b"moof", box(b"mfhd", bytes(8))) + box(b"mdat", scene) for scene in SCENES)
CAME = 400
LEVELS = 3


def sample():
    file = with_index(begun(b"http://films.example/lesson.mp4", b"video/mp4"), b"pfil", index_of(FILM, walk(FILM, LEVELS)))
    number, file = appended(file, 0, [good(FILM[:CAME]), lost(len(FILM) - CAME)], last=True)
    assert number == 0
    return file


if __name__ == "__main__":
    with open(PATH, "wb") as output:
        output.write(sample())
