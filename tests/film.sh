#!/bin/sh
# A real film as a mixed partial file: ffmpeg makes a short fragmented film, one fragment of it is lost on the way,
# `ftyp` is kept inside and all else outside. A player opens the file as it is, and the lost range, fetched and
# appended, gives back the film. `sh tests/film.sh WORDS...`, where the words are how paff is run.
set -eu
[ $# -gt 0 ] || { echo "usage: sh tests/film.sh WORDS..." >&2; exit 2; }
export LC_ALL=C
program=$*
folder=$(mktemp -d "${TMPDIR:-/tmp}/film.XXXXXX")
film=$folder/film.mp4 file=$folder/mixed.mp4

# CLAIM EXPECTED CAME: ends with status 1 where the two differ.
same() { [ "$2" = "$3" ] || { printf '%s\nexpected:\n%s\ncame:\n%s\n' "$@" >&2; exit 1; }; }

# STATUS ARGUMENT...: runs the program, which has to end with that status, its output in the file `said`.
paff_ends() {
    wanted=$1 status=0
    shift
    # shellcheck disable=SC2086 # The words are parted on purpose.
    timeout 60 $program "$@" >"$folder/said" 2>"$folder/noted" || status=$?
    same "the status of paff $*, which said $(head -c 200 "$folder/said" | tr -cd '\t -~') and noted $(cat "$folder/noted")" "$wanted" $status
}
paff() { paff_ends 0 "$@"; }

# What a player finds in a file: its streams, its packets, and the pictures of its packets, each line with the time and
# a sum.
streams() { ffprobe -v error -show_entries stream=codec_type,codec_name,width,height,sample_rate,channels -of csv=p=0 "$1"; }
packets() { ffmpeg -nostdin -v error -i "$1" -map 0 -c copy -f framemd5 - </dev/null | grep -v '^#'; }
pictures() { ffmpeg -nostdin -v error -threads 1 -i "$1" -map 0:v -f framemd5 - </dev/null | grep -v '^#'; }

# Four seconds of picture and sound, a fragment each second; its boxes are told by paff, and cut out into files.
make_film() {
    ffmpeg -nostdin -v error -f lavfi -i testsrc=size=64x48:rate=10:duration=4 -f lavfi -i sine=frequency=440:duration=4 -threads 1 -c:v mpeg4 -g 10 -c:a aac -b:a 32k \
        -map_metadata -1 -fflags +bitexact -flags:v +bitexact -flags:a +bitexact -movflags frag_keyframe+empty_moov+default_base_moof "$film"
    paff boxes "$film"
    mv "$folder/said" "$folder/boxes"
    while read -r place length type; do
        tail -c "+$((place + 1))" "$film" | head -c "$length" >"$folder/$place.$type"
    done <"$folder/boxes"
}

types() { paff boxes "$1"; cut -f 3 "$folder/said" | tr '\n' ' '; }

# NUMBER FIELD: a field of the fragment's `moof`, its place or its size, or of its `mdat`.
moof() { grep moof "$folder/boxes" | sed -n "$1p" | cut -f "$2"; }
mdat() { grep mdat "$folder/boxes" | sed -n "$1p" | cut -f "$2"; }

# What came: the film's first box inside, the rest outside but the third fragment.
receive() {
    paff begin --brand pmff "$file" "file://$film" video/mp4
    paff_ends 1 append "$file" --offset 0 --outside --good "$folder/0.ftyp"
    same "what append says of an ftyp outside" "$(printf 'refused\t35')" "$(cat "$folder/said")"
    paff append "$file" --offset 0 --good "$folder/0.ftyp"
    set -- --outside --last
    while read -r place length type; do
        case $place in
        0) ;;
        "$lost_at" | "$(mdat 3 1)") set -- "$@" --lost "$length" ;;
        *) set -- "$@" --good "$folder/$place.$type" ;;
        esac
    done <"$folder/boxes"
    paff append "$file" --offset "$(wc -c <"$folder/0.ftyp")" "$@"
}

# The packets of the film that the third fragment holds: those from its `mdat`, by their places in the film.
lost_packets() {
    ffprobe -v error -show_entries packet=stream_index,pts,pos -of csv=p=0 "$film" | while IFS=, read -r stream pts pos _; do
        [ "$pos" -lt "$lost_at" ] || [ "$pos" -ge "$lost_end" ] || echo "$stream,$pts"
    done
}

# Prints the packets of the film whose stream and time are not among the lost.
packets_left() {
    awk -F ', *' 'NR == FNR { lost[$1 "," $2] = 1; next } !($1 "," $3 in lost)' "$folder/lost" "$folder/packets"
}

trap 'rm -rf "$folder"' EXIT
trap 'exit 1' HUP INT TERM
make_film
size=$(wc -c <"$film")
same "the boxes of the film" "ftyp moov moof mdat moof mdat moof mdat moof mdat mfra " "$(types "$film")"
lost_at=$(moof 3 1) lost_end=$(moof 4 1) lost=$(($(moof 3 2) + $(mdat 3 2)))
same "the third fragment is one range" "$lost_end" $((lost_at + lost))
receive

same "the boxes of the mixed file" "ftyp pfil pdat pseg moov moof mdat moof mdat moof mdat mfra pseg " "$(types "$file")"
paff map "$file"
same "the map" "$(printf '%s\t%s\t%s\n' source "$size" closed have 0 "$lost_at" lost "$lost_at" "$lost" have "$lost_end" $((size - lost_end)); printf 'total\t%s\t0\t%s\n' $((size - lost)) "$lost")" \
    "$(cat "$folder/said")"

streams "$film" >"$folder/streams"
same "a video and an audio stream of the film" "$(printf 'mpeg4,video,64,48\naac,audio,44100,1')" "$(cat "$folder/streams")"
same "the streams of the mixed file" "$(cat "$folder/streams")" "$(streams "$file")"
lost_packets | sort -u >"$folder/lost"
same "pictures lost" 10 "$(grep -c '^0,' "$folder/lost")"
packets "$film" >"$folder/packets"
pictures "$film" >"$folder/pictures"
same "pictures of the film" 40 "$(wc -l <"$folder/pictures")"
same "the packets that came" "$(packets_left)" "$(packets "$file")"
same "the pictures that came, those of the third second missing" "$(sed 21,30d "$folder/pictures")" "$(pictures "$file")"

curl -q --silent --fail --range "$lost_at-$((lost_end - 1))" --output "$folder/piece" "file://$film"
paff append "$file" --offset "$lost_at" --outside --good "$folder/piece"
paff map "$file"
same "the map after the repair" "$(printf '%s\t%s\t%s\n' source "$size" closed have 0 "$size"; printf 'total\t%s\t0\t0\n' "$size")" "$(cat "$folder/said")"
paff get "$file" 0 "$size"
cmp "$film" "$folder/said"
same "the streams after the repair" "$(cat "$folder/streams")" "$(streams "$file")"
packets "$file" >"$folder/repaired"
same "the packets after the repair, in the order of the file" "$(cut -d , -f 1,5,6 "$folder/packets" | sort)" "$(cut -d , -f 1,5,6 "$folder/repaired" | sort)"
echo "a real film: $size bytes, of which $lost were lost and fetched; 30 of 40 pictures played before, all bytes are there after"
