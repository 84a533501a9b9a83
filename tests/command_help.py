"""Claims that the command says how it is used, which version it is, and what each refusal means, in the words of
README.md's table."""

import os
import re

from command_run import SENTENCES, claim
from command_wanted import begun
from corpus import ROOT
from expecting import expect

SUBCOMMANDS = ["map", "sources", "info", "boxes", "rows", "index", "get", "begin", "append", "why"]
NUMBERS = [*range(1, 21), *range(22, 28), *range(30, 42)]
LAST = b"The manual page, `man paff`, says all of it.\n"


def text_of(*path):
    with open(os.path.join(ROOT, *path), encoding="utf-8") as file:
        return file.read()


def helping(command):
    """On standard output with status 0: of all subcommands, or of one, whatever else stands there."""
    every = command.run("--help").out
    expect("the help names each subcommand", re.findall(rb"(?:usage:|      ) paff (\w+)", re.sub(rb"       paff append [^\n]*--open", b"", every)),
           [name.encode() for name in SUBCOMMANDS])
    expect("the help ends so", every.endswith(LAST))
    claim("help", command.run("help"), 0, every)
    before = os.listdir(command.folder)
    for name in SUBCOMMANDS:
        answer = command.run(name, "--help")
        claim(f"{name} --help", answer, 0, answer.out)
        expect(f"the help of {name}", answer.out.startswith(b"usage: paff " + name.encode() + b" ") and answer.out.endswith(LAST) or answer.out)
        expect(f"the help of {name} is of it alone", {word for word in re.findall(rb"paff (\w+) ", answer.out)}, {name.encode()})
        for words in [("help", name), ("--help", name), (name, "film", "--help"), (name, "--help", "u"), (name, "--unknown", "--help", "--", "x")]:
            claim(" ".join(words), command.run(*words), 0, answer.out)
    expect("nothing is made by that", os.listdir(command.folder), before)


def version(command):
    stated = re.search(r'#define VRAZHUPA_VERSION "([\d.]+)"', text_of("include", "vrazhupa.h"))[1]
    claim("--version", command.run("--version"), 0, f"paff {stated}\n".encode("ascii"))


def sentences(command):
    """Each refusal has one sentence, the same in README.md, and there are no others."""
    expect("the numbers in README.md", sorted(SENTENCES), NUMBERS)
    for number, sentence in SENTENCES.items():
        claim(f"why {number}", command.run("why", str(number)), 0, sentence.encode("ascii") + b"\n")


def names(command):
    """The header has a name for each refusal."""
    numbers = text_of("include", "vrazhupa.h").split("/* The refusals, by their numbers. */")[1].split("};")[0]
    expect("the refusals in the header", [int(number) for number in re.findall(r" = (\d+)", numbers)], NUMBERS)


def limits(command):
    """The header's numbers for buffers: what a new file and the largest addition take beside their texts and data."""
    stated = dict(re.findall(r"VRAZHUPA_(\w+) = (\d+)", text_of("include", "vrazhupa.h")))
    expect("what a new file has beside its texts", int(stated["BEGUN"]), len(begun(b"")))
    long, far = command.put("long", bytes(8_400_000)), str(2 ** 33)
    largest = ["--offset", far, "--lost", far, "--good", long, *["--good", command.put("piece", b"x")] * 1_022]
    for count in (0, 510):
        command.put("film", begun(b"u"))
        claim(f"the largest addition, with {count} URLs", command.run("append", "film", *largest, *["--url", "url", "--mime", "mime"] * count), 0, err=b"paff: film: 0 of 1024 chunks are left\n")
        added = os.path.getsize(command.path("film")) - len(begun(b"u")) - 8_400_000 - 1_022 - len("urlmime") * count
        expect(f"what it adds beside its data and its texts, {count}", added, int(stated["ADDED"]) + count * int(stated["ADDED_SURL"]))
    expect("the longest texts", (int(stated["MAP_TEXT"]), int(stated["BOXES_TEXT"])),
           ((8 + 64 + 1_024) * len("held\t1099511627775\t1099511627775\n") + 8 * (len("source\t1099511627775\tclosed\n") + len("total" + 3 * "\t1099511627775" + "\n")),
            512 * len("1073741824\t1073741824\tuuid\t" + 32 * "f" + "\n") + len("1073741824\t5\n")))


def manual(command):
    """The manual page and README.md know each option that the help knows."""
    options = set(re.findall(r"--([\w-]+)", command.run("--help").out.decode("ascii")))
    page, readme = text_of("command", "paff.1"), text_of("README.md")
    expect("options in the manual page", sorted(option for option in options if f"Fl -{option}" not in page), [])
    expect("options in README.md", sorted(option for option in options if f"--{option}" not in readme), [])


def check(command):
    for part in (helping, version, sentences, names, limits, manual):
        part(command)
