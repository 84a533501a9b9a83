/* The sources of a partial file, as the lines of its map tell of them. */
#include "sources.h"

#include "say.h"
#include "text.h"

#include <inttypes.h>
#include <stdio.h>
#include <stdlib.h>
#include <string.h>

/* A line that tells of a range. */
static struct range range_in(const char *line)
{
    char *rest;
    struct range range = {line[0] == 'l' ? LOST : line[1] == 'a' ? RECEIVED : HELD, strtoull(line + 5, &rest, 10), 0};
    range.length = strtoull(rest, NULL, 10);
    return range;
}

/* The line that a source begins with. */
static struct source source_in(const char *line, const struct range *ranges)
{
    char *rest;
    struct source source = {.described = strtoull(line + 7, &rest, 10), .ranges = ranges};
    source.closed = rest[1] == 'c';
    return source;
}

static void count_range(struct source *source, struct range range)
{
    *(range.class == RECEIVED ? &source->received : range.class == HELD ? &source->kept : &source->lost) += range.length;
    source->count++;
}

/* The sources and their ranges, line by line; the last line of each has totals, which the ranges give too. */
static void gather_lines(struct sources *sources, const char *line, const char *end)
{
    struct range *next = sources->ranges;
    for (; line < end; line = (const char *)memchr(line, '\n', (size_t)(end - line)) + 1) {
        if (line[0] == 's') {
            sources->each[sources->count++] = source_in(line, next);
        } else if (line[0] == 'h' || line[0] == 'l') {
            *next = range_in(line);
            count_range(&sources->each[sources->count - 1], *next++);
        }
    }
}

void gather_sources(struct sources *sources, struct bytes file)
{
    struct text text = text_of(file, vrazhupa_map);
    sources->count = 0;
    gather_lines(sources, (const char *)text.at, (const char *)text.at + text.length);
    for (size_t i = 0; i < sources->count; i++) {
        vrazhupa_source_url(file.at, file.length, i, sources->each[i].url);
        vrazhupa_source_mime(file.at, file.length, i, sources->each[i].mime);
    }
}

static void put_source(size_t number, const struct source *source, struct bytes file, bool percent)
{
    printf("%zu\t%" PRIu64 "\t%s\t%" PRIu64 "\t%" PRIu64 "\t", number, source->described, source->closed ? "closed" : "open", source->received,
           source->kept + source->lost);
    (percent ? put_percent : put_printing)(file.at + source->url[0], source->url[1]);
    printf("\t");
    put_printing(file.at + source->mime[0], source->mime[1]);
    printf("\n");
}

void show_sources(const char *name, bool percent)
{
    static struct sources sources;
    struct bytes file = map_locked(name);
    uint64_t number = read_tables(file, 0);
    if (number != 0) {
        refused(name, number);
    }
    gather_sources(&sources, file);
    for (size_t i = 0; i < sources.count; i++) {
        put_source(i, &sources.each[i], file, percent);
    }
    end(DONE);
}
