/* Answers the calls that hand out the heading of a file and the texts of its `surl` boxes. */
#include "plain.h"

#include <string.h>

/* A text of a file, which a zero byte closes, as a part of it. */
static struct part part_of(const uint8_t *file, const char *text)
{
    return (struct part){(file_place)(text - (const char *)file), (uint32_t)strlen(text)};
}

/* The first URL of a list and its MIME text; both at 0 and empty where there is none. */
struct pair {
    struct part url, mime;
};

static struct pair first_of(const uint8_t *file, const struct surls *surls)
{
    struct container in = plain_walk_over(surls);
    const char *url = plain_next_url(file, &in);

    if (url == NULL)
        return (struct pair){{0, 0}, {0, 0}};
    return (struct pair){part_of(file, url), part_of(file, url + strlen(url) + 1)};
}

uint64_t vrazhupa_heading(const uint8_t *file, size_t file_length, uint64_t told[7])
{
    struct partial partial;
    struct pair first;
    enum refusal refusal = plain_heading(file, file_length, &partial);

    if (refusal != ACCEPTED)
        return refusal;
    first = first_of(file, &partial.surls);
    told[0] = partial.mixed;
    told[1] = partial.boxes;
    told[2] = partial.segment_count;
    told[3] = first.url.place;
    told[4] = first.url.length;
    told[5] = first.mime.place;
    told[6] = first.mime.length;
    return ACCEPTED;
}

static void say_part(struct part part, uint64_t told[2])
{
    told[0] = part.place;
    told[1] = part.length;
}

uint64_t vrazhupa_url(const uint8_t *file, size_t file_length, uint64_t told[2])
{
    struct partial partial;
    enum refusal refusal = plain_read(file, file_length, &partial);

    if (refusal == ACCEPTED)
        say_part(first_of(file, &partial.surls).url, told);
    return refusal;
}

uint64_t vrazhupa_mime(const uint8_t *file, size_t file_length, uint64_t told[2])
{
    struct partial partial;
    enum refusal refusal = plain_read(file, file_length, &partial);

    if (refusal == ACCEPTED)
        say_part(first_of(file, &partial.surls).mime, told);
    return refusal;
}

/* Reads a file, and finds the first texts of a source. */
static enum refusal find_source_texts(const uint8_t *file, size_t file_length, uint64_t source, struct pair *first)
{
    struct partial partial;
    enum refusal refusal = plain_read(file, file_length, &partial);

    *first = (struct pair){{0, 0}, {0, 0}};
    if (refusal == ACCEPTED && source < partial.source_count)
        *first = first_of(file, plain_list_of(&partial, (uint32_t)source));
    return refusal;
}

uint64_t vrazhupa_source_url(const uint8_t *file, size_t file_length, uint64_t source, uint64_t told[2])
{
    struct pair first;
    enum refusal refusal = find_source_texts(file, file_length, source, &first);

    if (refusal == ACCEPTED)
        say_part(first.url, told);
    return refusal;
}

uint64_t vrazhupa_source_mime(const uint8_t *file, size_t file_length, uint64_t source, uint64_t told[2])
{
    struct pair first;
    enum refusal refusal = find_source_texts(file, file_length, source, &first);

    if (refusal == ACCEPTED)
        say_part(first.mime, told);
    return refusal;
}

/* How many bytes the texts of a list have. */
static uint64_t count_bytes(const uint8_t *file, const struct surls *surls)
{
    struct container in = plain_walk_over(surls);
    uint64_t bytes = 0;
    const char *url;

    while ((url = plain_next_url(file, &in)) != NULL) {
        size_t length = strlen(url);
        bytes += length + strlen(url + length + 1);
    }
    return bytes;
}

/* Copies a text and notes its length. */
static uint8_t *take_text(uint8_t *texts, const char *text, uint64_t *length)
{
    *length = strlen(text);
    if (*length > 0)
        memcpy(texts, text, (size_t)*length);
    return texts + *length;
}

static void take_texts(const uint8_t *file, const struct surls *surls, uint8_t *texts, uint64_t *lengths)
{
    struct container in = plain_walk_over(surls);
    const char *url;

    for (; (url = plain_next_url(file, &in)) != NULL; lengths += 2) {
        texts = take_text(texts, url, &lengths[0]);
        texts = take_text(texts, url + lengths[0] + 1, &lengths[1]);
    }
}

uint64_t vrazhupa_texts(const uint8_t *file, size_t file_length, uint64_t segment, uint8_t *texts, size_t texts_length, uint64_t *lengths,
                        size_t lengths_length, uint64_t told[2])
{
    struct partial partial;
    struct surls surls = {.formed = true};
    uint64_t bytes;
    enum refusal refusal = plain_read(file, file_length, &partial);

    if (refusal != ACCEPTED)
        return refusal;
    if (segment < partial.segment_count)
        surls = partial.segment[segment].surls;
    bytes = count_bytes(file, &surls);
    if (texts_length < bytes || lengths_length < 2 * (size_t)surls.count)
        return TABLE_TOO_SHORT;
    take_texts(file, &surls, texts, lengths);
    told[0] = bytes;
    told[1] = 2 * (uint64_t)surls.count;
    return ACCEPTED;
}
