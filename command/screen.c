/* What there is to know of a partial file, on one screen. */
#include "screen.h"

#include "refusals.h"
#include "text.h"

#include <inttypes.h>
#include <stdio.h>
#include <string.h>

/* A number of bytes and its share of the film, which is never rounded to nothing or to all. */
static void put_share(const char *what, uint64_t n, uint64_t all)
{
    uint64_t tenths = n * 1000 / all;
    printf("%-10s", what);
    put_grouped(n);
    printf(" bytes, %s%" PRIu64 ".%" PRIu64 " %%\n", n > 0 && tenths == 0 ? "under " : "", tenths / 10, tenths == 0 && n > 0 ? 1 : tenths % 10);
}

static void put_used(const char *what, uint64_t used, uint64_t most)
{
    printf("%-10s", what);
    put_grouped(used);
    printf(" of ");
    put_grouped(most);
    printf("\n");
}

/* The texts of a source, or those that a file was begun with. */
static void put_texts(const uint8_t *file, const uint64_t url[2], const uint64_t mime[2])
{
    printf("URL       ");
    put_percent(file + url[0], url[1]);
    printf("\nMIME      ");
    put_printing(file + mime[0], mime[1]);
    printf("\n");
}

/* The texts stand at the top where there is but one source to tell of. */
static void put_heading(const struct facts *facts)
{
    const uint8_t *file = facts->held.bytes.at;
    const struct source *only = &facts->sources.each[0];
    printf("brand     %s\n", facts->heading.mixed ? "pmff (mixed)" : "paff");
    if (facts->sources.count == 0) {
        put_texts(file, facts->heading.url, facts->heading.mime);
    } else if (facts->sources.count == 1) {
        put_texts(file, only->url, only->mime);
    }
}

static void put_index(const struct facts *facts)
{
    printf("index     ");
    put_grouped(facts->indexed);
    printf(" boxes, ");
    put_grouped(facts->whole);
    printf(" whole\n");
}

static void put_film(const struct source *source)
{
    printf("film      ");
    put_grouped(source->described);
    printf(" bytes, %s\n", source->closed ? "closed" : "open: its end is not known yet");
    if (source->count == 0) {
        return;
    }
    put_share("received", source->received, source->described);
    put_share("held", source->kept, source->described);
    put_share("lost", source->lost, source->described);
    put_bar(source->ranges, source->count);
}

/* Each source, and below the last bar what its signs say. */
static void put_sources(const struct facts *facts)
{
    const struct sources *sources = &facts->sources;
    bool bars = false;
    for (size_t i = 0; i < sources->count; i++) {
        const struct source *source = &sources->each[i];
        if (sources->count > 1) {
            printf("source    %zu\n", i);
            put_texts(facts->held.bytes.at, source->url, source->mime);
        }
        put_film(source);
        bars = bars || source->count > 0;
    }
    if (bars) {
        printf("# received   ~ held, damaged   . lost   %% more than one of these\n");
    }
}

/* What is used of an accepted file, or of one that was only begun, and then its sources. */
static void put_contents(const struct facts *facts)
{
    put_used("segments", facts->segments, VRAZHUPA_SEGMENTS);
    put_used("chunks", facts->chunks, VRAZHUPA_CHUNKS);
    put_used("sources", facts->sources.count, VRAZHUPA_SOURCES);
    if (facts->indexed > 0) {
        put_index(facts);
    }
    if (facts->refusal == 0) {
        put_sources(facts);
    } else {
        printf("film      nothing was appended yet\n");
    }
}

void put_screen(const struct facts *facts)
{
    printf("file      ");
    put_printing((const uint8_t *)facts->name, strlen(facts->name));
    printf("\n");
    if (facts->headed) {
        put_heading(facts);
    }
    put_used("bytes", facts->bytes, VRAZHUPA_FILE);
    put_used("boxes", facts->boxes, VRAZHUPA_BOXES);
    if (is_refused(facts)) {
        printf("refused   %" PRIu64 ", %s\n", facts->refusal, sentence_of(facts->refusal));
    } else {
        put_contents(facts);
    }
}
