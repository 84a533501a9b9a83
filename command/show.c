/* What is shown of a partial file as text: its map, with or without names for what is missing, its boxes, and its
   tables. */
#include "show.h"

#include "files.h"
#include "say.h"
#include "tables.h"
#include "text.h"
#include "times.h"

#include <inttypes.h>
#include <stdio.h>

/* Prints a text of a file, and of a fault that it tells of, why. */
static _Noreturn void show_text(const char *name, struct text text)
{
    if (fwrite(text.at, 1, text.length, stdout) != text.length) {
        failed("standard output");
    }
    if (text.fault != 0) {
        say_why(name, text.fault);
    }
    end(text.fault == 0 ? DONE : REFUSED);
}

/* Where the lines of a source begin in a map, or where the map ends. */
static size_t lines_of(struct text map, uint64_t source)
{
    for (size_t at = 0; at < map.length; at++) {
        if (map.at[at] == 's' && (at == 0 || map.at[at - 1] == '\n') && source-- == 0) {
            return at;
        }
    }
    return map.length;
}

void show_map(const char *name, const struct meant *meant, bool missing)
{
    struct bytes file = map_locked(name);
    struct text map = text_of(file, missing ? vrazhupa_missmap : vrazhupa_map);
    if (meant->named && map.fault == 0 && read_tables(file, 0) == 0) {
        uint64_t source = source_meant(meant, name);
        size_t first = lines_of(map, source);
        map = (struct text){map.at + first, lines_of(map, source + 1) - first, 0};
    }
    show_text(name, map);
}

void show_boxes(const char *name)
{
    show_text(name, text_of(map_locked(name), vrazhupa_boxes));
}

static void put_segment(uint64_t number, const uint64_t *row)
{
    char time[TIME_TEXT];
    put_time(time, row[SEGMENT_TIME]);
    printf("%" PRIu64, number);
    for (int i = 0; i < SEGMENT_SOURCE; i++) {
        printf("\t%" PRIu64, row[i]);
    }
    printf("\t%s\t%" PRIu64 "\n", time, row[SEGMENT_SOURCE]);
}

/* A chunk, with the word for its state that append takes as an option. */
static void put_chunk(const uint64_t *row)
{
    static const char *const states[] = {
        [VRAZHUPA_LOST] = "lost", [VRAZHUPA_DAMAGED] = "damaged", [VRAZHUPA_GOOD] = "good", [VRAZHUPA_ELSEWHERE] = "elsewhere"};
    printf("%" PRIu64 "\t%" PRIu64 "\t%" PRIu64 "\t%" PRIu64 "\t%s\t%" PRIu64 "\n", row[0], row[1], row[2], row[3], states[row[4]], row[5]);
}

void show_rows(const char *name, bool percent)
{
    uint64_t url[2], mime[2];
    struct bytes file = map_locked(name);
    uint64_t number = read_tables(file, 0);
    if (number != 0 || (number = vrazhupa_url(file.at, file.length, url)) != 0 || (number = vrazhupa_mime(file.at, file.length, mime)) != 0) {
        refused(name, number);
    }
    printf("url\t");
    (percent ? put_percent : put_printing)(file.at + url[0], url[1]);
    printf("\nmime\t");
    put_printing(file.at + mime[0], mime[1]);
    printf("\nsegment\tplace\toffset\tflags\ttime\tchunks\theader\tlength\trepaired\tsource\n");
    for (uint64_t i = 0; i < tables.segment_count; i++) {
        put_segment(i, &tables.segments[i * VRAZHUPA_SEGMENT_ROW]);
    }
    printf("segment\tindex\tstart\tsize\tstate\tplace\n");
    for (uint64_t i = 0; i < tables.chunk_count; i++) {
        put_chunk(&tables.chunks[i * VRAZHUPA_CHUNK_ROW]);
    }
    end(DONE);
}
