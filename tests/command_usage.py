"""Claims that bad usage, a file that is not there and a directory in place of a file are told, and change nothing."""

import os

from command_run import claim, claim_each_refused, claim_held, claim_missing, claim_refused, elsewhere, good, in_form, lost
from command_wanted import appended, begun, film_of, missmap_text
from expecting import expect
from foreign import LIMIT
from model import PMFF

FILM = film_of((0, [good(b"abcd"), lost(6)], True))
NO_NUMBERS = ["", "-1", "+1", " 1", "1 ", "1\n", "0x1", "1e3", "1.0", "1,000", "one", "--last", "\u0661", "18446744073709551616",
              "18446744073709551617", "36893488147419103232", "99999999999999999999", "184467440737095516150", "1" + 60 * "0"]
FEW_OR_MANY_WORDS = ["", "map", "map film other", "map --missing film other", "map --missing --missing film", "map --miss film", "sources", "sources film other", "sources --missing film", "sources --source 0 film", "sources --percent", "sources --percent --percent film", "boxes", "boxes film other",
                     "boxes --missing film", "rows", "rows film other", "rows --missing film", "index", "index --tree", "index film other",
                     "index --tree film other", "index --tree --tree film", "index --missing film", "index --tre film", "get", "get film 0", "get film 0 1 2", "begin", "begin new", "begin new u m x", "begin --brand", "begin --brand pmff", "begin --brand pmff new", "begin --brand pmff new u m x", "append", "append film"]
NO_COMMANDS = ["show film", "Map film", "maps film", "ma film", "box film", "boxlist film", "film", "film map", "-map film", "--map film", "append-film", "source film", "Sources film"]
OPTIONS = [
    "--offset", "--offset 0", "--lost 1", "--good piece", "--last --lost 1", "--offset 0 --last", "--offset 0 --time 4", "--time 4 --lost 1",
    "--offset 0 --lost", "--offset 0 --elsewhere", "--elsewhere 1", "--offset 0 --elsewhere piece", "--offset 0 --elsewhere 1 2",
    "--offset 0 --elsewher 1", "--offset 0 --elsewhere --lost 1", "--offset 0 --good", "--offset 0 --damaged", "--offset 0 --lost 1 --time", "--offset 0 --lost 1 --offset",
    "--offset 0 --offset 0 --lost 1", "--offset 0 --lost 1 --offset 4", "--offset 0 --time 1 --time 1 --lost 1",
    "--offset 0 --last --last --lost 1", "--offset 0 --last --lost 1 --last", "--offset 0 --outside --outside --lost 1", "--offset 0 --outside", "--outside --lost 1",
    "--offset 0 --lost 1 --outside 1", "--offset 0 --inside --lost 1", "--offset 0 --lost 1 --outsid", "--offset 0 --brand pmff --lost 1", "--offset 0 --first --lost 1", "--offset 0 --lost 1 --state 2",
    "--offset 0 -l --lost 1", "--off 0 --lost 1", "-offset 0 --lost 1", "--offset 0 lost 1",
    "--offset 0 --lost 1 2", "--offset 0 --good piece piece", "0 --lost 1", "other --offset 0 --lost 1", "--offset 0 - --lost 1",
    "--offset 0 -- --lost 1", "--offset 0 --lost 1 -"]


# What is said first of a wrong use, which names the word that is wrong.
SAID = {
    "": "no subcommand is given", "film": "not a subcommand: film", "help film": "not a subcommand: film", "help map film": "a word too many: film", "--version film": "not a subcommand: --version",
    "map": "a word is missing", "map film other": "a word too many: other", "map --json film": "not an option: --json", "map --missing=1 film": "takes no value: --missing",
    "index --tree": "a word is missing", "index --missing film": "not an option: --missing", "index --tree --tree film": "given twice: --tree", "get film 0": "a word is missing", "get film x 1": "not a number: x", "get film 1 x": "not a number: x", "get film --output": "no value is given: --output", "why 21": "not the number of a refusal: 21",
    "begin --brand isom new u": "not a brand: isom", "begin --lost new u": "not an option: --lost", "append film --offset": "no value is given: --offset", "append film --lost 1": "no --offset is given",
    "append film --offset 0": "no chunk is given", "append film --offset 0 --last --last --lost 1": "given twice: --last", "append film --offset 0 --lost 1 --time x": "not a time: x",
    "append film --at 4": "no chunk follows: --at", "append film --offset 4 --size 6": "no chunk follows: --size", "append film --offset 4 --open --lost 1": "--open is for a segment without chunks",
    "append film --offset 4 --size 6 --lost 6": "--size is for data: --lost", "append film --offset 4 --size 5 --good piece": "there are 6 bytes, and --size says 5: piece",
    "append film --at 4 --lost 2 --at 5 --lost 1": "position 5 is before 6, where the chunks before it end: --at", "append film --offset 4 --good - --good -": "given twice: -"}


def claim_usage(command, *words):
    """Status 2, nothing on standard output, and the folder as it was."""
    before = sorted(os.listdir(command.folder))
    claim(f"bad usage: {words}", command.run(*words), 2)
    expect(f"the folder after {words}", (sorted(os.listdir(command.folder)), command.held("film")), (before, FILM))


def words(command):
    for text in FEW_OR_MANY_WORDS + NO_COMMANDS:
        claim_usage(command, *text.split())
    claim_usage(command, "")
    for name in ("map", "sources", "info", "boxes", "rows", "index", "get", "begin", "append", "why"):
        answer = command.run(name)
        lines = [line for line in answer.err.splitlines() if b"paff " in line]
        expect(f"the usage of {name} alone", all(b"paff " + name.encode() + b" " in line for line in lines) and len(lines) > 0 or answer.err)
    answer = command.run()
    named = all(word in answer.err for word in (b"usage: ", b"map", b"--missing", b"--source N", b"sources", b"boxes", b"rows", b"index", b"--tree", b"get", b"begin", b"append"))
    expect("usage names each subcommand", named and in_form(answer.err) or answer.err)
    named = all(word in answer.err for word in (b"--good DATA", b"--damaged DATA", b"--lost SIZE", b"--elsewhere SIZE", b"--url U", b"--mime M"))
    expect("usage names each chunk", named or answer.err)


# Words that begin with a dash: none is a name unless `--` stands before it, and none makes a file.
DASHED = ["begin --brand=isom new u", "begin --brand= new u", "begin -- new", "begin --unknown=pmff new u", "begin --help= new u", "begin -new u", "begin - u", "begin new -u",
          "begin new u -", "begin --no-wait new u", "begin -- --brand=pmff", "map -", "map --missing=1 film", "map --missing= film", "map --json film", "boxes --percent film", "info -film",
          "info --json=1 film", "rows --raw film", "index -", "index -film", "index --tree=1 film", "index --tree= film", "index --json film", "get --output film", "get film --output", "get film --output=new --output=other", "get film --output -- 0 1", "get --percent film",
          "why", "why 1 2", "why --help=1", "why -1", "why 0", "why 21", "why 28", "why 29", "why 42", "why 43", "why 18446744073709551615", "why one", "help map film", "help film", "--version map",
          "append film --offset=4 --last=1 --lost 1", "append film --offset=4 --good -piece", "append film --offset=4 --good --lost 1", "append film --offset=4 --open=1",
          "append film --offset= --lost 1", "append film --offset 4 --lost=", "append film --offset 4 --no-wait=1 --lost 1", "append --offset 4 --lost 1 -- film other",
          "append --offset 4 --lost 1 -film"]

# The words for a place, a size and an open segment, at odds with the others.
AT_ODDS = ["--at 4", "--at 4 --offset 0", "--at 4 --at 5 --lost 1", "--at 4 --lost 1 --at 9", "--lost 1 --at 4 --lost 1", "--offset 5 --at 4 --lost 1", "--at 4 --lost 2 --at 5 --lost 1",
           "--at 4 --good piece --at 9 --lost 1", "--at 4 --lost 18446744073709551615 --at 9 --lost 1", "--at x --lost 1", "--offset 4 --size 6", "--offset 4 --size 6 --lost 6",
           "--offset 4 --size 6 --elsewhere 6", "--offset 4 --size 6 --size 6 --good piece", "--offset 4 --size x --good piece", "--offset 4 --size 5 --good piece",
           "--offset 4 --size 7 --damaged piece", "--offset 4 --size 0 --good piece", "--offset 4 --size 18446744073709551615 --good piece", "--offset 4 --good piece --size 6",
           "--offset 4 --size 6 --good piece --size 5 --good piece", "--open", "--offset 4 --open --open", "--offset 4 --open --lost 1", "--at 4 --open", "--offset 4 --size 1 --open",
           "--offset 4 --good - --good -", "--offset 4 --good - --damaged -"]

BRANDS = ["isom new u", "Pmff new u", "paf new u", "pmfff new u", "pmff --brand paff new u", "pmff --brand pmff new u", "pmff --brand"]


def options(command):
    for text in OPTIONS:
        claim_usage(command, "append", "film", *text.split())
    for text in BRANDS:
        claim_usage(command, "begin", "--brand", *text.split())
    claim_usage(command, "begin", "--brand", "", "new", "u")
    for text in DASHED:
        claim_usage(command, *text.split())
    for text in AT_ODDS:
        claim_usage(command, "append", "film", *text.split())
    for text, said in SAID.items():
        claim_usage(command, *text.split())
        expect(f"what is said of {text}", command.run(*text.split()).err.split(b"\n")[0], b"paff: " + said.encode("ascii"))


def values(command):
    """A value stands behind its option or its `=`, options stand before, between and behind the operands, and `--` ends
    them."""
    for text in ["append film --offset=4 --lost=1", "append --offset=4 --lost=1 film", "append --offset 4 film --lost 1", "append film --offset 4 --lost=1 --",
                 "append --offset 4 --lost 1 -- film", "append film --offset=4 --elsewhere=1", "append film --at=4 --lost=1", "append film --offset=4 --size=6 --good=piece"]:
        command.put("film", FILM)
        claim(" ".join(text.split()), command.run(*text.split()), 0)
        chunk = lost(1) if "lost" in text else elsewhere(1) if "elsewhere" in text else good(b"efghij")
        claim_held(f"the film after {text}", command, "film", appended(FILM, 4, [chunk])[1])
    command.put("film", FILM)
    claim("map FILE --missing", command.run("map", "film", "--missing"), 0, missmap_text(FILM))
    command.put("-piece", b"xy")
    claim("a value with a dash", command.run("append", "film", "--offset=4", "--good=-piece"), 0)
    claim_held("the film after a value with a dash", command, "film", appended(FILM, 4, [good(b"xy")])[1])
    command.put("film", FILM)
    for number, text in enumerate(["--brand=pmff new%d u", "new%d --brand pmff u", "new%d u --brand=pmff", "--brand=pmff -- new%d u"]):
        claim(f"begin {text}", command.run("begin", *(text % number).split()), 0)
        claim_held(f"the file of begin {text}", command, f"new{number}", begun(b"u", brand=PMFF))


def numbers(command):
    for text in NO_NUMBERS:
        claim_usage(command, "get", "film", text, "1")
        claim_usage(command, "get", "film", "0", text)
        claim_usage(command, "append", "film", "--offset", text, "--lost", "1")
        claim_usage(command, "append", "film", "--offset", "4", "--lost", text)
        claim_usage(command, "append", "film", "--offset", "4", "--elsewhere", text)
        claim_usage(command, "append", "film", "--offset", "4", "--lost", "1", "--time", text)
    claim("zeros in front of a number", command.run("get", "film", 30 * "0" + "1", "02"), 0, b"bc")
    for text in ("4294967295", "4294967296", "1099511627775", "1099511627776", "18446744073709551615"):
        claim_missing(f"a number of {len(text)} digits", command.run("get", "film", text, "1"), int(text), len("abcd") + 6)
        claim_refused(f"an offset of {len(text)} digits", command.run("append", "film", "--offset", text, "--lost", "1"), 25 if int(text) < LIMIT else 23)
        claim_refused(f"a size of {len(text)} digits", command.run("append", "film", "--offset", "0", "--lost", text), 25 if int(text) <= LIMIT else 23)
    claim("only zeros", command.run("get", "film", 30 * "0", "00"), 0)


# Files that are not there, directories, and an empty file.

def claim_failed(name, command, *given):
    """Status 2, and a line that names the file."""
    answer = command.run(*given)
    claim(name, answer, 2)
    expect(f"{name}, named", name.split()[-1].encode() in answer.err or answer.err)


def reading_words(film):
    return [("map", film), ("map", "--missing", film), ("map", "--source=0", film), ("sources", film), ("sources", "--percent", film), ("boxes", film), ("rows", film), ("index", film), ("index", "--tree", film), ("get", film, "0", "1"), ("get", film, "0", "0"), ("get", film, "--source=0", "0", "1"), ("append", film, "--offset", "0", "--lost", "1"),
            ("append", film, "--source=0", "--offset", "0", "--lost", "1"), ("append", film, "--url", "v", "--offset", "0", "--lost", "1")]


def absent(command):
    for given in reading_words("absent"):
        claim_failed(f"{' '.join(given)} of absent", command, *given)
    claim_held("not made by that", command, "absent", None)
    for given in reading_words("film/below"):
        claim_failed(f"{' '.join(given)} of film/below", command, *given)
    claim_failed("begin in a folder that is not there, absent/new", command, "begin", "absent/new", "u")
    claim_failed("begin below a file, film/new", command, "begin", "film/new", "u")
    for given in reading_words("absent\n\x1b[2J"):
        claim(f"a name of two lines, {given}", command.run(*given), 2)
    shown = rb"paff: absent\x9b2J\xc2\x9b\xff\x7f: No such file or directory" + b"\n"
    claim("a name of two words", command.run("map", "absent ~ film"), 2, err=b"paff: absent ~ film: No such file or directory\n")
    claim("a name with bytes of no ASCII", command.run("map", b"absent\x9b2J\xc2\x9b\xff\x7f"), 2, err=shown)
    claim("begin with an empty name", command.run("begin", "", "u"), 2)
    claim("map with an empty name", command.run("map", ""), 2)
    for kind in ("--good", "--damaged"):
        claim_failed("append of data in absent", command, "append", "film", "--offset", "0", kind, "absent")
        claim_failed("append of data first, then absent", command, "append", "film", "--offset", "0", "--good", "piece", kind, "absent")
    claim_held("the film after data that was not there", command, "film", FILM)


def directories(command):
    os.mkdir(command.path("folder"))
    for given in reading_words("folder"):
        claim_failed(f"{' '.join(given)} of a folder", command, *given)
    claim_failed("begin in place of a folder", command, "begin", "folder", "u")
    claim_failed("append of data in a folder", command, "append", "film", "--offset", "0", "--good", "folder")
    claim_held("the film after a folder as data", command, "film", FILM)
    expect("the folder is empty", os.listdir(command.path("folder")), [])


def devices(command):
    """A pipe that nobody writes to, and devices, in place of a file: told, without waiting for them."""
    os.mkfifo(command.path("pipe"))
    for name in ("pipe", "/dev/null", "/dev/zero"):
        for given in reading_words(name) + [("begin", name, "u")]:
            claim_failed(f"{' '.join(given)} of {name}", command, *given)


def empty(command):
    """An empty file is refused, but has no boxes to be listed and no fault in them."""
    command.put("empty", b"")
    for given in reading_words("empty"):
        if given[0] != "boxes":
            claim_each_refused(f"{' '.join(given)} of an empty file", command, given, 7)
    claim("boxes of an empty file", command.run("boxes", "empty"), 0)
    claim_held("the empty file", command, "empty", b"")


def check(command):
    command.put("film", FILM)
    command.put("piece", b"efghij")
    for part in (words, options, values, numbers, absent, directories, devices, empty):
        part(command)
    claim_held("the film after all bad usage", command, "film", FILM)
