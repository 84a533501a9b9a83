#!/usr/bin/env python3
"""Brings the names of this repository's definitions and lemmas to snake case, after the kit's port.py has run.

usage: python3 tools/respell.py        at the top, once

A name declared in a crate's specs/ or proofs/ is respelled wherever it stands in .antt and .rt files: words that ran
together by capitals, and words of a lemma's name that a dash joined, are joined by an underscore; a dash stays between
the names of two functions, and names of types stay. A name whose new spelling stands already in a file that has it is
left as it is, and is printed; so is a word that is a name of Rattle's own.
"""
import os
import re
import sys

DECLARED = re.compile(r"\s*(?:abbrev |unfoldable )?(?:pub )?(?:abbrev |unfoldable )?([^\s:{}()=,;|\[\]«».]+) :(?: |$)")
TOKEN = re.compile(r"[^\s:{}()=,;|\[\]«».`\"⌜⌝]+")
# Functions of the library that a lemma's name has a dash before or behind.
LIBRARY = set("length take drop append map get_or set add mul sub mod div pow min max suc nil cons reverse replicate concat leb ltb eqb".split())
KEPT = re.compile(r"^(Need|After|Then|Else|In|At|Start)-|^(invariant|decreases|returns|overflow|loop|in|if|then|else)-")

# Names whose plain spelling stands beside them only in a path, as a label or as another name for a module.
FREE = set("boxAt countsOf goesOut liesIn lastOrSized pfhdRight placeAfter textsOf givesSize indexIn partOf leftOut lengthOver tooMany byIndex asLong noLonger inPfil".split())
# Lemmas that make room for a function of their name.
ROOM = {"list_right": "listRight", "new_in": "newIn", "no_index": "noIndex", "kept_from": "keptFrom"}
# Functions that have the name of a field: `_of` tells them apart.
FIELDS = set("lengthSize offsetSize offsetWidth".split())


def files():
    for folder, dirs, names in os.walk("crates"):
        dirs[:] = sorted(d for d in dirs if d != "out")
        for n in sorted(names):
            if n.endswith((".antt", ".rt")):
                yield os.path.join(folder, n)


def snake(word):
    return re.sub(r"(?<=[a-z0-9])([A-Z])", lambda m: "_" + m.group(1).lower(), word)


def declared(texts):
    names, defined = set(), set()
    for path, text in texts.items():
        if not path.endswith(".antt"):
            continue
        for line in text.split("\n"):
            m = DECLARED.match(line)
            if m and re.match(r"[a-z]", m.group(1)):
                names.add(m.group(1))
                if "/specs/" in path and "-" not in m.group(1) and not line.startswith("  "):
                    defined.add(snake(m.group(1)))
    return names, defined


def respelled(name, defined):
    if KEPT.match(name):
        return name
    words = [snake(w) if re.match(r"[a-z]", w) else w for w in name.split("-")]
    functions = LIBRARY | defined
    new = words[0]
    for one, other in zip(words, words[1:]):
        dash = not re.match(r"[a-z0-9]", other) or not re.match(r"[a-zA-Z0-9]", one) or (one in functions and other in functions)
        new += ("-" if dash else "_") + other
    return new


def main():
    if len(sys.argv) > 1:
        sys.exit(__doc__.strip())
    if os.path.exists("docs/PORT.md"):
        sys.exit("this tree is respelled already: docs/PORT.md stands in it")
    texts = {p: open(p, encoding="utf-8").read() for p in files()}
    words = {p: set(TOKEN.findall(t)) for p, t in texts.items()}
    names, defined = declared(texts)
    functions = {n for p, t in texts.items() if p.endswith(".rt") for n in re.findall(r"\bfn (\w+)", t)}
    taken, turned = {}, {}
    for lemma, function in ROOM.items():
        turned[lemma] = lemma + "_lem"
        turned[function] = lemma
    for name in sorted(names, key=lambda n: ("-" in n, n)):
        new = respelled(name, defined)
        if new == name or name in turned or name in FIELDS:
            continue
        here = [p for p, w in words.items() if name in w]
        clash = [p for p in here if new in words[p] and not (p.endswith(".rt") and new in functions)]
        if (clash and name not in FREE) or new in turned.values():
            taken[name] = (new, clash[:2])
        else:
            turned[name] = new
    field = re.compile(r"(\.|\n  pub |)\b(%s)\b( =|)" % "|".join(sorted(FIELDS)))
    for path, text in texts.items():
        text = field.sub(lambda m: m.group(1) + snake(m.group(2)) + ("" if m.group(1) or m.group(3) else "_of") + m.group(3), text)
        new = TOKEN.sub(lambda m: turned.get(m.group(0), m.group(0)), text)
        if new != texts[path]:
            open(path, "w", encoding="utf-8").write(new)
    for name, (new, clash) in sorted(taken.items()):
        print("left: %s, since %s stands in %s" % (name, new, ", ".join(clash) or "another name's place"))
    print("respelled: %d names; left: %d" % (len(turned), len(taken)))


if __name__ == "__main__":
    sys.exit(main())
