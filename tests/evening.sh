#!/bin/sh
# The clerk's evening, from end to end: nginx serves a film on loopback, a partial file of it has gaps, and what the map
# calls missing is fetched with curl and appended until the film is whole; then the same of a film in two layers, each
# from a URL of its own. `sh tests/evening.sh WORDS...`, where the words are how paff is run, for instance
# target/command/paff.
set -eu
[ $# -gt 0 ] || { echo "usage: sh tests/evening.sh WORDS..." >&2; exit 2; }
export LC_ALL=C PATH="$PATH:/usr/sbin"
program=$* size=3145741 base_size=100003 sharp_size=400009 server=
folder=$(mktemp -d "${TMPDIR:-/tmp}/evening.XXXXXX")
file=$folder/film.paff

# Stops nginx and removes the folder.
leave() {
    [ -z "$server" ] || { kill "$server" || :; wait "$server" || :; } 2>/dev/null
    rm -rf "$folder"
}

# CLAIM EXPECTED CAME: ends with status 1 where the two differ.
same() { [ "$2" = "$3" ] || { printf '%s\nexpected:\n%s\ncame:\n%s\n' "$@" >&2; exit 1; }; }

# Runs the program, which has to succeed, with its output in the file `said`.
paff() {
    status=0
    # shellcheck disable=SC2086 # The words are parted on purpose.
    timeout 60 $program "$@" >"$folder/said" || status=$?
    same "the status of paff $*, which said $(head -c 200 "$folder/said" | tr -cd '\t -~')" 0 $status
}

# OFFSET ARGUMENT...: appends a segment, at which nothing is printed.
append() { paff append "$file" --offset "$@"; same "what append prints at $1" "" "$(cat "$folder/said")"; }

# FIELD...: lines of a map, three fields to a line; TOTAL...: its last line.
map_of() { printf '%s\t%s\t%s\n' "$@"; }
total_of() { printf total; printf '\t%s' "$@"; echo; }

# Asks nginx for the film with curl, its answer in the file `piece`, and prints the status of the answer.
ask() { timeout 20 curl -q --silent --noproxy '*' --output "$folder/piece" --write-out '%{http_code}' "$@" "$url" || printf ', curl ended with %s' $?; }

sum() { sha256sum <"$1" | cut -d ' ' -f 1; }

# NAME: the film, or the layer of one, that is served under this name.
take() { film=$folder/served/$1 url=http://127.0.0.1:${port:-}/$1; }

# NAME SIZE: makes it.
make_film() { take "$1"; python3 -c "import random, sys; sys.stdout.buffer.write(random.Random('$1').randbytes($2))" >"$film"; }

make_films() {
    mkdir "$folder/served"
    make_film film $size; make_film base $base_size; make_film sharp $sharp_size
    chmod -R a+rX "$folder" # The worker of nginx may be another user.
}

# Starts nginx at a free port, with all its paths in the folder, and waits until it answers.
serve() {
    port=$(python3 -c 'import socket; s = socket.socket(); s.bind(("127.0.0.1", 0)); print(s.getsockname()[1])')
    take film
    cat >"$folder/nginx.conf" <<END
daemon off; worker_processes 1; pid $folder/nginx.pid; lock_file $folder/nginx.lock; error_log $folder/error.log;
events { worker_connections 16; }
http {
    access_log off; client_body_temp_path $folder/body; proxy_temp_path $folder/proxy; fastcgi_temp_path $folder/fastcgi;
    uwsgi_temp_path $folder/uwsgi; scgi_temp_path $folder/scgi; server { listen 127.0.0.1:$port; root $folder/served; }
}
END
    nginx -e "$folder/error.log" -p "$folder" -c "$folder/nginx.conf" &
    server=$! deadline=$(($(date +%s) + 10))
    until [ "$(ask --head)" = 200 ] || [ "$(date +%s)" -gt "$deadline" ]; do sleep 0.1; done
    same "nginx at $url, whose log is: $(cat "$folder/error.log")" 200 "$(ask --head)"
}

# FIRST LENGTH: names a file with these bytes of the film (right), or with each of them changed (wrong), or only those
# before a third place (mixed).
right() { tail -c "+$(($1 + 1))" "$film" | head -c "$2" >"$folder/right.$1"; echo "$folder/right.$1"; }
wrong() { tr '\000-\377' '\001-\377\000' <"$(right "$@")" >"$folder/wrong.$1"; echo "$folder/wrong.$1"; }
mixed() { cat "$(wrong "$1" $(($3 - $1)))" "$(right "$3" $(($1 + $2 - $3)))" >"$folder/mixed.$1"; echo "$folder/mixed.$1"; }

# The night: segments out of order, damaged bytes wrong; the last three overlap what came before, two of them with wrong
# bytes that are called good.
receive() {
    paff begin "$file" "$url" video/mp4
    append 1200000 --good "$(right 1200000 300000)" --lost 200000 --good "$(right 1700000 100000)"
    append 0 --lost 1000 --good "$(right 1000 299000)" --lost 1 --good "$(right 300001 299999)" --damaged "$(wrong 600000 150000)"
    append 1499000 --damaged "$(wrong 1499000 2000)" --lost 9000 --good "$(right 1510000 10000)"
    append 590000 --time 2026-11-16T03:00:00Z --good "$(mixed 590000 50000 600000)" --lost 60000 --good "$(right 700000 50000)" --damaged "$(wrong 750000 10000)"
    append 1790000 --last --good "$(mixed 1790000 710000 1800000)" --damaged "$(wrong 2500000 300000)" --good "$(right 2800000 345740)" --lost 1
}

# The map after the night, by hand, with names for what is missing and without.
night_map() {
    map_of source 3145741 closed lost 0 1000 have 1000 299000 lost 300000 1 have 300001 339999 held 640000 60000 have 700000 50000 held 750000 10000 \
        lost 760000 440000 have 1200000 300000 held 1500000 1000 lost 1501000 9000 have 1510000 10000 lost 1520000 180000 have 1700000 800000 \
        held 2500000 300000 have 2800000 345740 lost 3145740 1
    total_of 2144739 371000 630002
}
night_missing() {
    map_of source 3145741 closed miss 0 1000 have 1000 299000 miss 300000 1 have 300001 339999 miss 640000 60000 have 700000 50000 miss 750000 450000 \
        have 1200000 300000 miss 1500000 10000 have 1510000 10000 miss 1520000 180000 have 1700000 800000 miss 2500000 300000 have 2800000 345740 \
        miss 3145740 1
    total_of 2144739 1001002
}

# The night of two layers in one file: the first has the URL that the file was begun with.
receive_layers() {
    file=$folder/layers.paff
    take base
    paff begin "$file" "$url" video/mp4
    append 0 --good "$(right 0 60000)"
    take sharp
    append 300000 --url "$url" --mime video/mp4 --last --good "$(right 300000 100009)"
    append 0 --source 1 --lost 5000 --good "$(right 5000 195000)"
    take base
    append 80000 --source 0 --last --damaged "$(wrong 80000 10000)" --good "$(right 90000 10003)"
}

layers_map() {
    map_of source $base_size closed have 0 60000 lost 60000 20000 held 80000 10000 have 90000 10003; total_of 70003 10000 20000
    map_of source $sharp_size closed lost 0 5000 have 5000 195000 lost 200000 100000 have 300000 100009; total_of 295009 0 105000
}
layers_whole() {
    map_of source $base_size closed have 0 $base_size; total_of $base_size 0 0
    map_of source $sharp_size closed have 0 $sharp_size; total_of $sharp_size 0 0
}

# [--source NUMBER]: one round of the evening: fetches and appends each missing range, held and lost together, as each
# range that is ordered has its price.
order() {
    paff map --missing "$@" "$file"; mv "$folder/said" "$folder/map"
    while read -r word first length; do
        [ "$word" = miss ] || continue
        rm -f "$folder/piece"
        same "the status for $length bytes at $first" 206 "$(ask --range "$first-$((first + length - 1))")"
        append "$first" "$@" --time now --size "$length" --good "$folder/piece"
        ranges=$((ranges + 1)) bytes=$((bytes + length))
    done <"$folder/map"
}

# Each layer is ordered from the URL that its source has, until both are whole.
order_layers() {
    paff sources --percent "$file"; cut -f 1,6 "$folder/said" >"$folder/sources"
    same "the URLs to order from" "$(printf '0\thttp://127.0.0.1:%s/base\n1\thttp://127.0.0.1:%s/sharp' "$port" "$port")" "$(cat "$folder/sources")"
    while read -r number url <&3; do
        for _ in 1 2; do order --source "$number"; done
        same "the status for the whole of source $number" 200 "$(ask)"
        paff get --source "$number" "$file" --output "$folder/whole.$number"
        same "the checksum of source $number as paff serves it" "$(sum "$folder/piece")" "$(sum "$folder/whole.$number")"
    done 3<"$folder/sources"
}

trap leave EXIT
trap 'exit 1' HUP INT TERM
make_films
serve
receive
paff map "$file"; same "the map before the evening" "$(night_map)" "$(cat "$folder/said")"
paff map --missing "$file"; same "what is missing before the evening" "$(night_missing)" "$(cat "$folder/said")"
paff rows --percent "$file"; same "the URL to order from" "$url" "$(sed -n 's/^url	//p' "$folder/said")"
same "the time of the one repair" 2026-11-16T03:00:00Z "$(cut -f 9 "$folder/said" | grep '^2')"
ranges=0 bytes=0
for _ in 1 2 3; do order; done
same "ranges and bytes fetched, each once" "8 1001002" "$ranges $bytes"
paff map "$file"; same "the map after the evening" "$(map_of source $size closed have 0 $size; total_of $size 0 0)" "$(cat "$folder/said")"
same "the status for the whole film" 200 "$(ask)"
same "the checksum of the film as nginx serves it" "$(sum "$film")" "$(sum "$folder/piece")"
paff get "$file" --output "$folder/whole"; same "the checksum of the film as paff serves it" "$(sum "$folder/piece")" "$(sum "$folder/whole")"
echo "the clerk's evening: $ranges ranges fetched, $bytes bytes, the film is whole"
receive_layers
paff map "$file"; same "the map of two layers before the evening" "$(layers_map)" "$(cat "$folder/said")"
ranges=0 bytes=0
order_layers
same "ranges and bytes fetched of two layers, each once" "3 135000" "$ranges $bytes"
paff map "$file"; same "the map of two layers after the evening" "$(layers_whole)" "$(cat "$folder/said")"
echo "the clerk's evening: $ranges ranges fetched of two layers, $bytes bytes, both are whole"
