/* Copies what stays of a spoiled file, without its indexes and with the offsets of the new places. */
#include "plain_salvage.h"

#include <string.h>

/* A copy in the making: where each box that is kept begins in it, and the next byte to write. */
struct copy {
    const struct spoiled *spoiled;
    file_place place[MOST_BOXES];
    uint8_t *at;
};

static bool may_hold_an_index(const struct box *box)
{
    return box->type == PFIL || box->type == PSEG;
}

/* How many bytes of a `pfil` or a kept `pseg` are `fidx` boxes. */
static uint32_t index_bytes(const uint8_t *file, const struct box *container)
{
    struct container in = {container->body, container->end, 0};
    uint32_t bytes = 0;
    struct box box;

    while (in.place < in.end && next_box(file, &in, &box) == ACCEPTED)
        if (box.type == FIDX)
            bytes += box.end - box.place;
    return bytes;
}

static uint32_t new_size(const uint8_t *file, const struct box *box)
{
    return box->end - box->place - (may_hold_an_index(box) ? index_bytes(file, box) : 0);
}

/* Finds the place of each box that is kept; the length of the copy. */
static uint32_t lay_out(struct copy *copy)
{
    const struct spoiled *spoiled = copy->spoiled;
    uint32_t length = 0;

    for (uint32_t i = 0; i < spoiled->boxes; i++) {
        copy->place[i] = length;
        if (spoiled->fate[i] == KEPT)
            length += new_size(spoiled->partial.file, &spoiled->box[i]);
    }
    return length;
}

static void put_bytes(struct copy *copy, file_place first, file_place end)
{
    memcpy(copy->at, copy->spoiled->partial.file + first, end - first);
    copy->at += end - first;
}

/* Writes the low bytes of a number, most significant first. */
static void put_low_bytes(uint8_t *at, uint64_t number, unsigned width)
{
    while (width-- > 0) {
        at[width] = (uint8_t)number;
        number >>= 8;
    }
}

/* Writes a header with a new size into the field that has the old one. */
static void put_header(struct copy *copy, const struct box *box, uint32_t size)
{
    uint8_t *header = copy->at;

    put_bytes(copy, box->place, box->body);
    if (load32(header) == 1)
        put_low_bytes(header + 8, size, 8);
    else
        put_low_bytes(header, size, 4);
}

/* The offset of a chunk from its segment, which begins there in the copy; 0 where it has no bytes. */
static uint64_t new_offset(const struct copy *copy, const struct chunk *chunk, file_place begins)
{
    uint32_t number;

    if (chunk->size == 0)
        return 0;
    number = plain_box_at(copy->spoiled, chunk->place);
    return (uint64_t)copy->place[number] + (chunk->place - copy->spoiled->box[number].place) - begins;
}

/* Writes a `ploc`, and then new offsets over those of the present chunks. */
static void put_ploc(struct copy *copy, const struct box *ploc, const struct segment *segment, file_place begins)
{
    const struct chunk *chunk = &copy->spoiled->partial.chunk[segment->first];
    uint8_t *body = copy->at + (ploc->body - ploc->place), *entry = body + 9;
    unsigned length_size, offset_size;

    put_bytes(copy, ploc->place, ploc->end);
    length_size = body[4] >> 4;
    offset_size = body[4] & 15;
    for (uint32_t i = 0; i < segment->chunk_count; i++, chunk++) {
        bool present = (*entry & PRESENT) != 0;
        entry += 1 + length_size;
        if (present) {
            put_low_bytes(entry, new_offset(copy, chunk, begins), offset_size);
            entry += offset_size;
        }
    }
}

/* Writes a `pfil`, or a `pseg` with its segment. */
static void put_container(struct copy *copy, uint32_t number, const struct segment *segment)
{
    const uint8_t *file = copy->spoiled->partial.file;
    const struct box *container = &copy->spoiled->box[number];
    struct container in = {container->body, container->end, 0};
    struct box box;

    put_header(copy, container, new_size(file, container));
    while (in.place < in.end && next_box(file, &in, &box) == ACCEPTED) {
        if (box.type == FIDX)
            continue;
        if (box.type == PLOC && segment != NULL)
            put_ploc(copy, &box, segment, copy->place[number]);
        else
            put_bytes(copy, box.place, box.end);
    }
}

static void put_all(struct copy *copy)
{
    const struct spoiled *spoiled = copy->spoiled;
    const struct segment *segment = spoiled->partial.segment;

    for (uint32_t i = 0; i < spoiled->boxes; i++) {
        const struct box *box = &spoiled->box[i];
        if (spoiled->fate[i] != KEPT)
            continue;
        if (!may_hold_an_index(box))
            put_bytes(copy, box->place, box->end);
        else
            put_container(copy, i, box->type == PSEG ? segment++ : NULL);
    }
}

uint64_t vrazhupa_salvage(const uint8_t *file, size_t file_length, uint8_t *buffer, size_t buffer_length, uint64_t told[1])
{
    struct spoiled spoiled;
    struct copy copy = {.spoiled = &spoiled, .at = buffer};
    enum refusal refusal = plain_judge_boxes(file, file_length, &spoiled);
    uint32_t length;

    if (refusal != ACCEPTED)
        return refusal;
    length = lay_out(&copy);
    if (length > buffer_length)
        return BUFFER_TOO_SHORT;
    put_all(&copy);
    told[0] = length;
    return ACCEPTED;
}
