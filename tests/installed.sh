#!/bin/sh
# What `make install` installs: README.md's program in C is built with pkg-config over it and run, the command runs, and
# `make uninstall` leaves nothing. `CC=COMPILER sh tests/installed.sh [EMULATOR]`, where the emulator is how an x86-64
# program is run here.
set -eu
unset MAKEFLAGS MAKELEVEL MFLAGS # This make is not a part of the one that runs the test.
root=$(cd "$(dirname "$0")/.." && pwd)
folder=$(mktemp -d "${TMPDIR:-/tmp}/installed.XXXXXX")
trap 'rm -rf "$folder"' EXIT
trap 'exit 1' HUP INT TERM

# CLAIM EXPECTED CAME: ends with status 1 where the two differ.
same() { [ "$2" = "$3" ] || { printf '%s\nexpected:\n%s\ncame:\n%s\n' "$@" >&2; exit 1; }; }
makes() { make -s -C "$root" "$@" >&2; }
files() { (cd "$1" && find . -type f | sort | tr '\n' ' '); }

all="./bin/paff ./include/vrazhupa.h ./lib/libvrazhupa.a ./lib/pkgconfig/vrazhupa.pc ./share/man/man1/paff.1 "
makes install PREFIX="$folder/used"
same "what is installed" "$all" "$(files "$folder/used")"
makes install PREFIX=/opt/vrazhupa DESTDIR="$folder/staged"
same "what is staged" "$all" "$(files "$folder/staged/opt/vrazhupa")"
same "the prefix of what is staged" prefix=/opt/vrazhupa "$(head -n 1 "$folder/staged/opt/vrazhupa/lib/pkgconfig/vrazhupa.pc")"

# README.md's program: the indented block that begins with this line.
sed -n '/^    #include <inttypes.h>$/,/^    }$/s/^    //p' "$root/README.md" >"$folder/received.c"
PKG_CONFIG_PATH=$folder/used/lib/pkgconfig
export PKG_CONFIG_PATH
version=$(sed -n 's/^.define VRAZHUPA_VERSION "\(.*\)"$/\1/p' "$root/include/vrazhupa.h")
same "the version" "$version" "$(pkg-config --modversion vrazhupa)"
# shellcheck disable=SC2046 # The words of pkg-config are parted on purpose.
"${CC:-cc}" -std=c11 -Wall -Wextra -Wpedantic -Werror -static -o "$folder/received" "$folder/received.c" $(pkg-config --cflags --libs vrazhupa)
same "how many bytes of the sample came" 7 "$("$@" "$folder/received" <"$root/samples/lesson.paff")"
same "how many of the other" 12 "$("$@" "$folder/received" <"$root/samples/damaged.paff")"
same "what it says of no film" "$(printf 'refused\t7')" "$("$@" "$folder/received" </dev/null || :)"
same "the command" "paff $version" "$("$@" "$folder/used/bin/paff" --version)"

makes uninstall PREFIX="$folder/used"
makes uninstall PREFIX=/opt/vrazhupa DESTDIR="$folder/staged"
same "what is left" " " "$(files "$folder/used") $(files "$folder/staged")"
echo "what is installed: README.md's program runs, and nothing is left behind"
