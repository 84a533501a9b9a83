# Builds the library's archive, which is proved first, and the command `paff` over it. `make test` holds the archive and
# the plain C program against the model, runs the command as a person would and a build of it over the plain C program
# under both sanitizers, passes the clerk's evening, types the lines of README.md, keeps a real film in a mixed file and
# with an index, and builds a program over what `make install` installs. `make bench` measures the library beside the
# plain C program, and `make instructions` counts what both take (docs/PERFORMANCE.md).

# Debian has this name for its own compiler on x86-64 and for its cross compiler elsewhere (gcc-x86-64-linux-gnu).
CC := x86_64-linux-gnu-gcc
WARNINGS := -Wall -Wextra -Wpedantic -Wconversion -Wshadow -Wcast-qual -Wcast-align -Wformat=2 -Wstrict-prototypes -Wmissing-prototypes -Wundef -Werror
CFLAGS := -std=c11 -D_GNU_SOURCE -O2 $(WARNINGS) -Iinclude

# The address sanitizer runs on the machine's own processor only, so this build takes the plain C program in the place
# of the archive.
OWN_CC := gcc
SANITIZED := -fsanitize=address,undefined -fno-sanitize-recover=all

OUT := target/command
ARCHIVE := target/staticlib/libvrazhupa.a
SOURCES := $(wildcard command/*.c)
HEADERS := $(wildcard command/*.h) include/vrazhupa.h
PLAIN := $(wildcard bench/plain*.c)
PLAIN_HEADERS := $(wildcard bench/plain*.h)
DRIVER := $(wildcard tests/scale/*.c)
# What crates are made of; their own out/ holds what checks kept.
LIBRARY := crates.txt $(shell find crates -name out -prune -o -type f \( -name '*.rt' -o -name '*.antt' \) -print)

# How an x86-64 program is run here: on another processor under an emulator.
EMULATOR := $(shell sh command/emulator)

# What `make test` runs, each by itself, so that `make -j2 test` runs two at a time.
TESTS := test-scale test-scale-plain test-command test-command-sanitized test-films test-readme test-installed

# Where `make install` puts things, as they are used, and the folder that stands before that where a package is made.
PREFIX := /usr/local
DESTDIR :=
VERSION := $(shell sed -n 's/^.define VRAZHUPA_VERSION "\(.*\)"$$/\1/p' include/vrazhupa.h)
INSTALLED := $(DESTDIR)$(PREFIX)

.PHONY: all install uninstall test bench instructions $(TESTS)
.DELETE_ON_ERROR:

all: $(OUT)/paff

# `rt ci` removes what stands in out/, so the archive goes where the command is.
$(ARCHIVE): $(LIBRARY)
	cd crates/vrazhupa && rt lib
	install -D -m 644 crates/vrazhupa/out/libvrazhupa.a $@

$(OUT)/paff: $(SOURCES) $(HEADERS) $(ARCHIVE)
	mkdir -p $(OUT)
	$(CC) $(CFLAGS) -static -o $@ $(SOURCES) $(ARCHIVE)

install: $(OUT)/paff
	install -D -m 755 $(OUT)/paff $(INSTALLED)/bin/paff
	install -D -m 644 command/paff.1 $(INSTALLED)/share/man/man1/paff.1
	install -D -m 644 include/vrazhupa.h $(INSTALLED)/include/vrazhupa.h
	install -D -m 644 $(ARCHIVE) $(INSTALLED)/lib/libvrazhupa.a
	sed -e 's|@PREFIX@|$(PREFIX)|' -e 's|@VERSION@|$(VERSION)|' include/vrazhupa.pc.in >$(OUT)/vrazhupa.pc
	install -D -m 644 $(OUT)/vrazhupa.pc $(INSTALLED)/lib/pkgconfig/vrazhupa.pc

uninstall:
	rm -f $(INSTALLED)/bin/paff $(INSTALLED)/share/man/man1/paff.1 $(INSTALLED)/include/vrazhupa.h $(INSTALLED)/lib/libvrazhupa.a $(INSTALLED)/lib/pkgconfig/vrazhupa.pc

$(OUT)/paff-sanitized: $(SOURCES) $(HEADERS) $(PLAIN) $(PLAIN_HEADERS)
	mkdir -p $(OUT)
	$(OWN_CC) $(CFLAGS) -g $(SANITIZED) -o $@ $(SOURCES) $(PLAIN)

$(OUT)/scale: $(DRIVER) $(wildcard tests/scale/*.h) include/vrazhupa.h $(ARCHIVE)
	mkdir -p $(OUT)
	$(CC) $(CFLAGS) -static -o $@ $(DRIVER) $(ARCHIVE)

$(OUT)/scale-sanitized: $(DRIVER) $(wildcard tests/scale/*.h) include/vrazhupa.h $(PLAIN) $(PLAIN_HEADERS)
	mkdir -p $(OUT)
	$(OWN_CC) $(CFLAGS) -g $(SANITIZED) -o $@ $(DRIVER) $(PLAIN)

# Both programs have the same names, so each goes into one object with nothing but its calls to be seen. The plain one
# is built as fast as it gets.
$(OUT)/proved.o: $(ARCHIVE) bench/calls.c bench/calls.h include/vrazhupa.h
	mkdir -p $(OUT)
	$(CC) $(CFLAGS) -DWHOSE=proved -c -o $(OUT)/proved-calls.o bench/calls.c
	x86_64-linux-gnu-ld -r -o $@ $(OUT)/proved-calls.o $(ARCHIVE)
	x86_64-linux-gnu-objcopy --keep-global-symbol=proved $@

$(OUT)/plain.o: $(PLAIN) $(PLAIN_HEADERS) bench/calls.c bench/calls.h include/vrazhupa.h
	mkdir -p $(OUT)/plain
	cd $(OUT)/plain && $(CC) $(CFLAGS) -O3 -I$(CURDIR)/include -DWHOSE=plain -c $(CURDIR)/bench/calls.c $(PLAIN:%=$(CURDIR)/%)
	x86_64-linux-gnu-ld -r -o $@ $(OUT)/plain/*.o
	x86_64-linux-gnu-objcopy --keep-global-symbol=plain $@

$(OUT)/bench: bench/bench.c bench/timing.c bench/timing.h bench/calls.h $(OUT)/proved.o $(OUT)/plain.o
	$(CC) $(CFLAGS) -static -Wl,-Map=$@.places -o $@ bench/bench.c bench/timing.c $(OUT)/proved.o $(OUT)/plain.o

bench: $(OUT)/bench
	python3 bench/films.py $(OUT)/films
	$(EMULATOR) $(OUT)/bench $(OUT)/films

# Instructions, not times: every processor that can emulate x86-64 counts the same.
instructions: $(OUT)/bench
	python3 bench/films.py $(OUT)/films
	python3 bench/instructions.py $(OUT)/bench $(OUT)/films

test: $(TESTS) $(OUT)/bench

test-scale: $(OUT)/scale
	python3 tests/scale.py --cases 40000 --seed 7 $(EMULATOR) $(OUT)/scale

test-scale-plain: $(OUT)/scale-sanitized
	python3 tests/scale.py --cases 40000 --seed 7 $(OUT)/scale-sanitized
	python3 tests/scale.py --salvage --cases 20000 --seed 7 $(OUT)/scale-sanitized

test-command: $(OUT)/paff
	mandoc -T lint -W warning command/paff.1
	python3 tests/command.py $(EMULATOR) $(OUT)/paff

test-command-sanitized: $(OUT)/paff-sanitized
	ASAN_OPTIONS=detect_leaks=0 python3 tests/command.py $(OUT)/paff-sanitized

test-films: $(OUT)/paff
	sh tests/evening.sh $(EMULATOR) $(OUT)/paff
	sh tests/film.sh $(EMULATOR) $(OUT)/paff
	python3 tests/film_index.py $(EMULATOR) $(OUT)/paff

test-readme: $(OUT)/paff
	python3 tests/readme.py

test-installed: $(OUT)/paff
	CC=$(CC) sh tests/installed.sh $(EMULATOR)
