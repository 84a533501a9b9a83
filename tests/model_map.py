"""Prints the independent model's map of the partial file on standard input, with the word --missing the one that does
not name damage.

usage: python3 tests/model_map.py [--missing] <FILE
"""

import sys

import model

TEXTS = {(): model.map_text, ("--missing",): model.missmap_text}

if __name__ == "__main__":
    text_of = TEXTS.get(tuple(sys.argv[1:]))
    if text_of is None:
        sys.exit(__doc__.strip())
    sys.stdout.buffer.write(text_of(sys.stdin.buffer.read()))
