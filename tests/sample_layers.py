"""Makes samples/layers.paff: a film of two layers, of which the base came whole and the other in part.

usage: python3 tests/sample_layers.py
"""

import os

from command_run import good, lost
from command_wanted import film_of
from corpus import ROOT

PATH = os.path.join(ROOT, "samples", "layers.paff")

# The URLs of both layers, and what each has, too short for a player.
BASE, SHARP = b"http://films.example/lesson/base", b"http://films.example/lesson/sharp"
MIME = b"video/mp4"
SMALL_FILM = b"a small film\n"
SHARP_FILM = b"the same film, but sharp\n"
LOST, LOST_END = SHARP_FILM.index(b"film"), SHARP_FILM.index(b",")


def sample():
    came = [good(SHARP_FILM[:LOST]), lost(LOST_END - LOST), good(SHARP_FILM[LOST_END:])]
    return film_of((0, [good(SMALL_FILM)], True), (0, came, True, None, False, 0, [(SHARP, MIME)]), url=BASE, mime=MIME)


if __name__ == "__main__":
    with open(PATH, "wb") as output:
        output.write(sample())
