/* Reads the `surl` boxes of a file, and tells its sources apart by their URLs. */
#include "plain.h"

#include <string.h>

/* Finds the length of the URL of a `surl`; false where that is not well-formed: version and flags 0, then two texts, each
   closed by a zero byte, and nothing after. */
static bool measure_url(const uint8_t *file, const struct box *surl, size_t *length)
{
    const uint8_t *body = file + surl->body, *end = file + surl->end;
    const uint8_t *url, *url_end, *mime_end;

    if (end - body < 6 || load32(body) != 0)
        return false;
    url = body + 4;
    url_end = memchr(url, 0, (size_t)(end - url));
    if (url_end == NULL || url_end + 1 == end)
        return false;
    mime_end = memchr(url_end + 1, 0, (size_t)(end - url_end - 1));
    *length = (size_t)(url_end - url);
    return mime_end != NULL && mime_end + 1 == end;
}

/* Takes eight bytes of a URL into a digest. */
static uint64_t digest_word(uint64_t digest, uint64_t word)
{
    digest = (digest ^ word) * UINT64_C(0x9e3779b97f4a7c15);
    return digest ^ digest >> 32;
}

static uint64_t digest_url(uint64_t digest, const uint8_t *url, size_t length)
{
    uint64_t word = 0;

    digest = digest_word(digest, length);
    for (; length >= 8; url += 8, length -= 8)
        digest = digest_word(digest, load64(url));
    while (length-- > 0)
        word = word << 8 | *url++;
    return digest_word(digest, word);
}

void plain_note_surl(const uint8_t *file, struct surls *surls, const struct box *surl)
{
    size_t length;

    if (surls->count == 0)
        surls->first = surl->place;
    surls->count++;
    surls->end = surl->end;
    if (measure_url(file, surl, &length))
        surls->digest = digest_url(surls->digest, file + surl->body + 4, length);
    else
        surls->formed = false;
}

struct container plain_walk_over(const struct surls *surls)
{
    return (struct container){surls->first, surls->end, 0};
}

const char *plain_next_url(const uint8_t *file, struct container *in)
{
    while (in->place < in->end) {
        struct box box;
        if (next_box(file, in, &box) != ACCEPTED)
            return NULL;
        if (box.type == SURL)
            return (const char *)file + box.body + 4;
    }
    return NULL;
}

static bool are_same_urls(const uint8_t *file, const struct surls *one, const struct surls *other)
{
    struct container in_one = plain_walk_over(one), in_other = plain_walk_over(other);
    const char *url;

    if (one->count != other->count || one->digest != other->digest)
        return false;
    if (one->first == other->first)
        return true;
    while ((url = plain_next_url(file, &in_one)) != NULL)
        if (strcmp(url, plain_next_url(file, &in_other)) != 0)
            return false;
    return true;
}

/* Whether the URLs of a list are those of the texts, which have no zero byte. */
static bool are_urls_of(const uint8_t *file, const struct surls *surls, const struct texts *texts)
{
    struct container in = plain_walk_over(surls);
    const uint8_t *bytes = texts->bytes;

    if (surls->count != texts->count)
        return false;
    for (uint64_t i = 0; i < texts->count; i++) {
        const char *url = plain_next_url(file, &in);
        uint64_t length = texts->lengths[2 * i];
        if (strlen(url) != length || (length > 0 && memcmp(url, bytes, (size_t)length) != 0))
            return false;
        bytes += length + texts->lengths[2 * i + 1];
    }
    return true;
}

const struct surls *plain_surls_of(const struct partial *partial, const struct segment *segment)
{
    return segment->surls.count > 0 ? &segment->surls : &partial->surls;
}

const struct surls *plain_list_of(const struct partial *partial, uint32_t number)
{
    return plain_surls_of(partial, &partial->segment[partial->source[number].segment]);
}

uint32_t plain_number_of(const struct partial *partial, const struct surls *surls)
{
    uint32_t number = 0;

    while (number < partial->source_count && !are_same_urls(partial->file, plain_list_of(partial, number), surls))
        number++;
    return number;
}

uint32_t plain_number_of_pfil(const struct partial *partial)
{
    return plain_number_of(partial, &partial->surls);
}

uint32_t plain_number_by_texts(const struct partial *partial, const struct texts *texts)
{
    uint32_t number = 0;

    if (texts->count == 0)
        return plain_number_of_pfil(partial);
    while (number < partial->source_count && !are_urls_of(partial->file, plain_list_of(partial, number), texts))
        number++;
    return number;
}

bool plain_are_of_pfil(const struct partial *partial, const struct texts *texts)
{
    return texts->count == 0 || are_urls_of(partial->file, &partial->surls, texts);
}

struct source plain_source(const struct partial *partial, uint64_t number)
{
    return number < partial->source_count ? partial->source[number] : (struct source){0, SIZE_UNKNOWN, 0};
}
