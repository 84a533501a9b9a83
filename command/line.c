/* What there is to know of a partial file, as one line of JSON. */
#include "line.h"

#include "refusals.h"
#include "text.h"

#include <inttypes.h>
#include <stdio.h>
#include <string.h>

static void put_text(const char *key, const uint8_t *text, size_t length)
{
    printf(",\"%s\":", key);
    put_json(text, length);
}

static void put_number(const char *key, uint64_t number)
{
    printf(",\"%s\":%" PRIu64, key, number);
}

/* The texts of a source, or those that a file was begun with. */
static void put_texts(const uint8_t *file, const uint64_t url[2], const uint64_t mime[2])
{
    put_text("url", file + url[0], url[1]);
    put_text("mime", file + mime[0], mime[1]);
}

static void put_lengths(const struct source *source)
{
    put_number("described", source->described);
    put_number("received", source->received);
    put_number("held", source->kept);
    put_number("lost", source->lost);
}

static const char *state_of(bool closed)
{
    return closed ? "closed" : "open";
}

static void put_source(size_t number, const struct source *source, const uint8_t *file)
{
    printf("%s{\"source\":%zu,\"state\":\"%s\"", number == 0 ? "" : ",", number, state_of(source->closed));
    put_texts(file, source->url, source->mime);
    put_lengths(source);
    printf("}");
}

/* All sources as if they were one behind the other: its end is known where each one's is. */
static struct source sum_of(const struct sources *sources)
{
    struct source sum = {.closed = true};
    for (size_t i = 0; i < sources->count; i++) {
        sum.closed = sum.closed && sources->each[i].closed;
        sum.described += sources->each[i].described;
        sum.received += sources->each[i].received;
        sum.kept += sources->each[i].kept;
        sum.lost += sources->each[i].lost;
    }
    return sum;
}

/* The texts of the one source that there is, or is to be; where there are several, none is the file's. */
static void put_heading(const struct facts *facts)
{
    const uint8_t *file = facts->held.bytes.at;
    const struct source *only = &facts->sources.each[0];
    printf(",\"brand\":\"%s\"", facts->heading.mixed ? "pmff" : "paff");
    if (facts->sources.count == 0) {
        put_texts(file, facts->heading.url, facts->heading.mime);
    } else if (facts->sources.count == 1) {
        put_texts(file, only->url, only->mime);
    }
}

static void put_facts(const struct facts *facts)
{
    struct source sum = sum_of(&facts->sources);
    if (facts->headed) {
        put_heading(facts);
    }
    put_lengths(&sum);
    put_number("segments", facts->segments);
    put_number("chunks", facts->chunks);
    put_number("indexed", facts->indexed);
    put_number("whole", facts->whole);
    printf(",\"sources\":[");
    for (size_t i = 0; i < facts->sources.count; i++) {
        put_source(i, &facts->sources.each[i], facts->held.bytes.at);
    }
    printf("]");
}

/* The file, its state, and what is told of a file in that state. */
void put_line(const struct facts *facts)
{
    const char *state = facts->why != NULL     ? "failed"
                        : is_refused(facts)   ? "refused"
                        : facts->refusal != 0 ? "begun"
                                              : state_of(sum_of(&facts->sources).closed);
    printf("{\"file\":");
    put_json((const uint8_t *)facts->name, strlen(facts->name));
    printf(",\"state\":\"%s\"", state);
    if (facts->why == NULL) {
        put_number("bytes", facts->bytes);
        put_number("boxes", facts->boxes);
    }
    if (is_refused(facts)) {
        put_number("refused", facts->refusal);
    }
    if (facts->why != NULL || is_refused(facts)) {
        const char *why = facts->why != NULL ? facts->why : sentence_of(facts->refusal);
        put_text("why", (const uint8_t *)why, strlen(why));
    } else {
        put_facts(facts);
    }
    printf("}\n");
}
