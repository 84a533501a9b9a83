/* The `surl` boxes that an addition is written with. */
#include "surls.h"

#include "say.h"
#include "tables.h"

#include <string.h>

/* Puts a text behind the others. */
static void put_text(struct surls *surls, const char *text)
{
    size_t length = strlen(text);
    memcpy(surls->texts + surls->texts_length, text, length);
    surls->texts_length += length;
    surls->lengths[surls->lengths_length++] = length;
}

/* Those that the words have. */
static struct surls surls_in(const struct addition *addition)
{
    size_t total = 0;
    for (size_t i = 0; i < addition->surl_count; i++) {
        total += strlen(addition->surls[i].url) + strlen(addition->surls[i].mime);
    }
    struct surls surls = {.texts = lend(total), .lengths = lend(2 * addition->surl_count * sizeof(uint64_t))};
    for (size_t i = 0; i < addition->surl_count; i++) {
        put_text(&surls, addition->surls[i].url);
        put_text(&surls, addition->surls[i].mime);
    }
    return surls;
}

/* The first segment of a source, in the tables that are read. */
static uint64_t first_segment_of(uint64_t source)
{
    uint64_t segment = 0;
    while (tables.segments[segment * VRAZHUPA_SEGMENT_ROW + SEGMENT_SOURCE] != source) {
        segment++;
    }
    return segment;
}

/* Those of a segment, which have no more bytes than the file and stand in one box. */
static struct surls surls_of_segment(const char *name, struct bytes file, uint64_t segment)
{
    size_t most = 2 * (size_t)VRAZHUPA_BOXES;
    struct surls surls = {.texts = lend(file.length), .lengths = lend(most * sizeof(uint64_t))};
    uint64_t told[2];
    uint64_t number = vrazhupa_texts(file.at, file.length, segment, surls.texts, file.length, surls.lengths, most, told);
    if (number != 0) {
        refused(name, number);
    }
    surls.texts_length = told[0];
    surls.lengths_length = told[1];
    return surls;
}

struct surls surls_of(const struct addition *addition, struct bytes file)
{
    if (addition->surl_count > 0) {
        return surls_in(addition);
    }
    uint64_t number = read_tables(file, 0);
    if (number == VRAZHUPA_NO_SEGMENT && !addition->meant.named) {
        return (struct surls){.texts = NULL};
    }
    if (number == VRAZHUPA_NO_SEGMENT) {
        misused("there is no source yet, as nothing was appended", addition->file);
    }
    if (number != 0) {
        refused(addition->file, number);
    }
    return surls_of_segment(addition->file, file, first_segment_of(source_meant(&addition->meant, addition->file)));
}

size_t room_of(const struct surls *surls)
{
    return surls->texts_length + surls->lengths_length / 2 * VRAZHUPA_ADDED_SURL;
}
