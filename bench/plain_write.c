/* Begins a partial file in a lent buffer and appends segments to one. */
#include "plain.h"

#include <string.h>

/* Writes the low `width` bytes of a value, the most significant first. */
static inline uint8_t *put(uint8_t *at, uint64_t value, unsigned width)
{
    for (unsigned i = width; i-- > 0; value >>= 8)
        at[i] = (uint8_t)value;
    return at + width;
}

static inline uint8_t *put_header(uint8_t *at, uint64_t size, uint32_t type)
{
    at = put(at, size, 4);
    return put(at, type, 4);
}

static uint8_t *put_bytes(uint8_t *at, const uint8_t *bytes, size_t length)
{
    if (length > 0)
        memcpy(at, bytes, length);
    return at + length;
}

static bool has_zero(const uint8_t *text, size_t length)
{
    return length > 0 && memchr(text, 0, length) != NULL;
}

/* Sizes of the boxes of a beginning, and what a `surl` has beside its texts; those of `pfil` and `surl` follow. */
enum { FTYP_SIZE = 20, PFHD_SIZE = 12, SURL_SIZE = 14 };

static uint8_t *put_ftyp(uint8_t *at, uint32_t brand)
{
    at = put_header(at, FTYP_SIZE, FTYP);
    at = put(at, brand, 4);   /* major brand */
    at = put(at, 0, 4);       /* minor version */
    return put(at, brand, 4); /* the one compatible brand */
}

static uint8_t *put_surl(uint8_t *at, const uint8_t *url, size_t url_length, const uint8_t *mime, size_t mime_length)
{
    at = put_header(at, SURL_SIZE + url_length + mime_length, SURL);
    at = put(at, 0, 4); /* version and flags */
    at = put_bytes(at, url, url_length);
    *at++ = 0;
    at = put_bytes(at, mime, mime_length);
    *at++ = 0;
    return at;
}

uint64_t vrazhupa_begin(uint8_t *buffer, size_t buffer_length, bool mixed, const uint8_t *url, size_t url_length, const uint8_t *mime, size_t mime_length,
                        uint64_t told[1])
{
    uint64_t pfil;
    uint8_t *at;

    if (has_zero(url, url_length) || has_zero(mime, mime_length))
        return ZERO_BYTE_IN_TEXT;
    if (url_length > VRAZHUPA_FILE || mime_length > VRAZHUPA_FILE)
        return FILE_OVER_LIMIT;
    pfil = 8 + PFHD_SIZE + SURL_SIZE + (uint64_t)url_length + mime_length;
    if (FTYP_SIZE + pfil > VRAZHUPA_FILE)
        return FILE_OVER_LIMIT;
    if (FTYP_SIZE + pfil > buffer_length)
        return BUFFER_TOO_SHORT;

    at = put_ftyp(buffer, mixed ? PMFF : PAFF);
    at = put_header(at, pfil, PFIL);
    at = put_header(at, PFHD_SIZE, PFHD);
    at = put(at, 0, 4); /* version and flags */
    at = put_surl(at, url, url_length, mime, mime_length);
    told[0] = (uint64_t)(at - buffer);
    return ACCEPTED;
}

/* A segment to be appended: what is asked, and what follows from it. */
struct addition {
    uint64_t offset, repair_time;
    bool last, outside;
    const uint64_t *list;
    const uint8_t *data;
    uint64_t data_length;
    struct texts texts;
    uint64_t count, present;           /* chunks, and those whose bytes are kept */
    uint64_t size;                     /* of all chunks together, UINT64_MAX if more */
    uint64_t out, out_boxes;           /* bytes and boxes that go outside the `pdat` */
    unsigned length_size, offset_size; /* widths in the `ploc` */
    uint64_t pdat, pseg, pshd, ploc;   /* sizes of the boxes, `pdat` 0 for none */
};

static unsigned width_of(uint64_t value)
{
    unsigned width = 0;

    for (; value != 0; value >>= 8)
        width++;
    return width;
}

/* Whether the bytes of a chunk of this state are kept. */
static bool is_present(uint64_t state)
{
    return state == DAMAGED || state == GOOD;
}

/* Whether there are as many text bytes as the lengths of the texts say. */
static bool are_all_texts(const struct texts *texts)
{
    uint64_t left = texts->length;

    for (uint64_t i = 0; i < 2 * texts->count; i++) {
        if (texts->lengths[i] > left)
            return false;
        left -= texts->lengths[i];
    }
    return left == 0;
}

/* Checks both lists and the numbers of data and of text bytes, and sums the chunks up. */
static enum refusal check_lists(struct addition *add, size_t list_length, size_t lengths_length)
{
    uint64_t left = add->data_length, bits = 0;
    bool over = false;

    if (list_length % 2 != 0 || lengths_length % 2 != 0)
        return BAD_CHUNK_LIST;
    add->texts.count = lengths_length / 2;
    add->count = list_length / 2;
    add->present = 0;
    add->size = 0;
    for (uint64_t i = 0; i < add->count; i++) {
        uint64_t size = add->list[2 * i], state = add->list[2 * i + 1];
        if (size == 0 || state > ELSEWHERE)
            return BAD_CHUNK_LIST;
        bits |= size;
        add->size = size > UINT64_MAX - add->size ? UINT64_MAX : add->size + size;
        if (is_present(state)) {
            add->present++;
            if (size > left)
                over = true;
            else
                left -= size;
        }
    }
    add->length_size = width_of(bits);
    return over || left != 0 || !are_all_texts(&add->texts) ? DATA_NOT_EQUAL : ACCEPTED;
}

static bool goes_outside(const struct addition *add, uint64_t state)
{
    return add->outside && state == GOOD;
}

/* Counts the boxes that a chunk's bytes are, which no file has to hold yet; false if they are not whole boxes that may
   go outside. */
static bool count_boxes(struct addition *add, const uint8_t *bytes, uint64_t left)
{
    while (left > 0) {
        struct header header;
        if (read_header(bytes, left, &header) != ACCEPTED || !may_be_outside(header.type))
            return false;
        bytes += header.size;
        left -= header.size;
        add->out_boxes++;
    }
    return true;
}

/* Checks the good chunks that are to go outside, and sums them up. */
static enum refusal check_outside(const struct partial *partial, struct addition *add)
{
    const uint8_t *bytes = add->data;

    add->out = add->out_boxes = 0;
    for (uint64_t i = 0; i < add->count; i++) {
        uint64_t size = add->list[2 * i], state = add->list[2 * i + 1];
        if (goes_outside(add, state)) {
            if (!partial->mixed || !count_boxes(add, bytes, size))
                return NOT_TO_GO_OUTSIDE;
            add->out += size;
        }
        if (is_present(state))
            bytes += size;
    }
    return ACCEPTED;
}

/* Finds the sizes of the boxes; whether they are within a file's limit. Of all data the first in the `pdat`, or else
   the first outside, stands furthest before the `pseg`, at -data_length. */
static bool measure(struct addition *add, uint64_t file_length)
{
    if (add->data_length > VRAZHUPA_FILE || add->count > VRAZHUPA_FILE || add->texts.length > VRAZHUPA_FILE || add->texts.count > VRAZHUPA_FILE)
        return false;
    add->offset_size = add->data_length == 0 ? 0 : width_of(2 * (add->data_length - 1) + 1);
    add->pdat = add->data_length == add->out ? 0 : 8 + add->data_length - add->out;
    add->pshd = add->offset <= UINT32_MAX ? 24 : 28;
    add->ploc = 17 + add->count * (1 + add->length_size) + add->present * add->offset_size;
    add->pseg = 8 + add->pshd + add->ploc + SURL_SIZE * add->texts.count + add->texts.length;
    return file_length + add->pdat + add->out + add->pseg <= VRAZHUPA_FILE;
}

/* Judges the index that the file would have with the segment, whose source would have this size. One that was accepted
   stays as it was, and else the segment is the only one. */
static enum refusal check_index(const struct partial *partial, const struct addition *add, uint64_t size)
{
    uint64_t rows;

    if (partial->segment_count > 0 || partial->indexes == 0)
        return ACCEPTED;
    return plain_judge_indexes(partial, plain_are_of_pfil(partial, &add->texts) ? size : SIZE_UNKNOWN, &rows);
}

/* Checks what the source of the segment would be with it, and how many sources there would be: 25, 40, 36, 37 and 39. */
static enum refusal check_source(const struct partial *partial, const struct addition *add)
{
    uint32_t number = plain_number_by_texts(partial, &add->texts);
    struct source source = plain_source(partial, number);
    uint64_t end = add->offset + add->size;

    if (end > source.described)
        source.described = end;
    if (add->last && add->count > 0 && end < source.size)
        source.size = end;
    if (source.described > source.size)
        return SIZES_DISAGREE;
    if (number == VRAZHUPA_SOURCES)
        return TOO_MANY_SOURCES;
    return check_index(partial, add, source.size);
}

/* Checks what the file would be with the segment: 1, 6, 13, 41, 22, 23 and those of its source. */
static enum refusal check_result(const struct partial *partial, struct addition *add)
{
    if (!measure(add, partial->length))
        return FILE_OVER_LIMIT;
    /* The `pseg` has a `pshd` and a `ploc` beside its `surl` boxes. */
    if (partial->boxes + (add->pdat != 0) + add->out_boxes + 1 > MOST_BOXES || 2 + add->texts.count > MOST_BOXES)
        return TOO_MANY_BOXES;
    if (partial->segment_count + 1 > VRAZHUPA_SEGMENTS)
        return TOO_MANY_SEGMENTS;
    if (add->texts.count == 0 && partial->surls.count == 0)
        return NO_URL;
    if (add->count > VRAZHUPA_CHUNKS - partial->chunk_count)
        return TOO_MANY_CHUNKS;
    if (add->offset > MOST_POSITION || add->size > MOST_POSITION - add->offset)
        return POSITION_OVER_LIMIT;
    return check_source(partial, add);
}

static uint8_t *put_ploc(uint8_t *at, const struct addition *add)
{
    static const uint8_t flags[] = {[LOST] = CORRUPTED, [DAMAGED] = CORRUPTED | PRESENT, [GOOD] = PRESENT, [ELSEWHERE] = 0};
    uint64_t inside = 0 - add->data_length, outside = 0 - add->out; /* from the `pseg` to the next chunk's bytes, in two's complement */

    at = put_header(at, add->ploc, PLOC);
    at = put(at, 0, 4);
    *at++ = (uint8_t)(add->length_size << 4 | add->offset_size);
    at = put(at, 0, 2);
    at = put(at, add->count, 2);
    for (uint64_t i = 0; i < add->count; i++) {
        uint64_t size = add->list[2 * i], state = add->list[2 * i + 1];
        *at++ = flags[state];
        at = put(at, size, add->length_size);
        if (is_present(state)) {
            uint64_t *offset = goes_outside(add, state) ? &outside : &inside;
            at = put(at, *offset, add->offset_size);
            *offset += size;
        }
    }
    return at;
}

/* Writes the data of the chunks that go outside, or that of the others. */
static uint8_t *put_data(uint8_t *at, const struct addition *add, bool outside)
{
    const uint8_t *bytes = add->data;

    for (uint64_t i = 0; i < add->count; i++) {
        uint64_t size = add->list[2 * i], state = add->list[2 * i + 1];
        if (!is_present(state))
            continue;
        if (goes_outside(add, state) == outside)
            at = put_bytes(at, bytes, (size_t)size);
        bytes += size;
    }
    return at;
}

/* Writes the `surl` boxes. */
static uint8_t *put_surls(uint8_t *at, const struct texts *texts)
{
    const uint8_t *bytes = texts->bytes;

    for (uint64_t i = 0; i < texts->count; i++) {
        size_t url = (size_t)texts->lengths[2 * i], mime = (size_t)texts->lengths[2 * i + 1];
        at = put_surl(at, bytes, url, bytes + url, mime);
        bytes += url + mime;
    }
    return at;
}

static uint8_t *put_segment(uint8_t *at, const struct addition *add)
{
    if (add->pdat != 0) {
        at = put_header(at, add->pdat, PDAT);
        at = put_data(at, add, false);
    }
    at = put_data(at, add, true);
    at = put_header(at, add->pseg, PSEG);
    at = put_header(at, add->pshd, PSHD);
    *at++ = add->pshd == 24 ? 0 : 1; /* version: the 32-bit form of the offset where it holds it */
    at = put(at, add->last ? LAST_SEGMENT : 0, 3);
    at = put(at, add->offset, add->pshd == 24 ? 4 : 8);
    at = put(at, add->repair_time, 8);
    return put_surls(put_ploc(at, add), &add->texts);
}

uint64_t vrazhupa_append(uint8_t *buffer, size_t buffer_length, uint64_t length, uint64_t offset, uint64_t repair_time, bool last, bool outside,
                         const uint64_t *list, size_t list_length, const uint8_t *data, size_t data_length, const uint8_t *texts, size_t texts_length,
                         const uint64_t *lengths, size_t lengths_length, uint64_t told[1])
{
    struct partial partial;
    struct addition add = {.offset = offset, .repair_time = repair_time, .last = last, .outside = outside, .list = list, .data = data,
                           .data_length = data_length, .texts = {.bytes = texts, .lengths = lengths, .length = texts_length}};
    enum refusal refusal;

    if (length > buffer_length)
        return LENGTH_OVER_BUFFER;
    refusal = plain_read(buffer, (size_t)length, &partial);
    if (refusal != ACCEPTED && refusal != NO_PSEG)
        return refusal;
    refusal = check_lists(&add, list_length, lengths_length);
    if (refusal == ACCEPTED)
        refusal = check_outside(&partial, &add);
    if (refusal == ACCEPTED && has_zero(texts, texts_length))
        refusal = ZERO_BYTE_IN_TEXT;
    if (refusal == ACCEPTED)
        refusal = check_result(&partial, &add);
    if (refusal != ACCEPTED)
        return refusal;
    if (length + add.pdat + add.out + add.pseg > buffer_length)
        return BUFFER_TOO_SHORT;
    told[0] = (uint64_t)(put_segment(buffer + length, &add) - buffer);
    return ACCEPTED;
}
