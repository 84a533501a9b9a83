/* Judges the boxes of a spoiled file: which stay in a copy, and why the others do not. */
#include "plain_salvage.h"

#include <string.h>

/* Frames the boxes of the file up to the first framing error. What lies behind that is no part of the file any more. */
static void frame_whole_boxes(struct spoiled *spoiled)
{
    struct partial *partial = &spoiled->partial;
    struct container in = {0, partial->length, 0};

    spoiled->error = ACCEPTED;
    while (in.place < in.end) {
        struct box box;
        spoiled->error = next_box(partial->file, &in, &box);
        if (spoiled->error != ACCEPTED)
            break;
        spoiled->box[in.boxes - 1] = box;
        plain_note_place(partial, &box, in.boxes - 1);
    }
    spoiled->error_place = partial->length = in.place;
    spoiled->boxes = partial->boxes = in.boxes;
}

/* Judges the framing of the first two boxes, and then what they are. */
static enum refusal judge_first_two(struct spoiled *spoiled)
{
    struct box first_two[2] = {{0, 0, 0, 0}, {0, 0, 0, 0}};
    uint32_t count = spoiled->boxes < 2 ? spoiled->boxes : 2;

    if (count < 2 && spoiled->error != ACCEPTED)
        return spoiled->error;
    memcpy(first_two, spoiled->box, count * sizeof first_two[0]);
    return plain_read_first_two(&spoiled->partial, first_two);
}

/* Judges a segment that was read, but is not yet counted to its source, beside those of the same source, and its source
   beside the others. */
static enum refusal judge_beside(const struct partial *partial, const struct segment *segment, uint64_t end)
{
    uint32_t number = plain_number_of(partial, plain_surls_of(partial, segment));
    struct source source = plain_source(partial, number);
    bool closing = segment->flags & LAST_SEGMENT && segment->chunk_count > 0;

    if (source.size != SIZE_UNKNOWN && (closing ? end != source.size : end > source.size))
        return SIZES_DISAGREE;
    if (closing && source.described > end)
        return SIZES_DISAGREE;
    return number == VRAZHUPA_SOURCES ? TOO_MANY_SOURCES : ACCEPTED;
}

/* Takes a segment among those that are kept, or leaves no trace of it. */
static enum refusal take_segment(struct partial *partial, const struct box *pseg)
{
    uint32_t number = partial->segment_count, chunks = partial->chunk_count;
    struct segment *segment = &partial->segment[number];
    uint64_t end = 0;
    enum refusal refusal;

    if (number == VRAZHUPA_SEGMENTS)
        return TOO_MANY_SEGMENTS;
    segment->place = pseg->place;
    segment->body = pseg->body;
    segment->end = pseg->end;
    refusal = plain_read_segment(partial, number, &end);
    if (refusal == ACCEPTED)
        refusal = judge_beside(partial, segment, end);
    if (refusal != ACCEPTED) {
        partial->chunk_count = chunks;
        return refusal;
    }
    plain_join_source(partial, number, end);
    partial->segment_count++;
    return ACCEPTED;
}

static uint8_t fate_of(struct partial *partial, const struct box *box)
{
    enum refusal refusal;

    switch (box->type) {
    case FTYP:
        return BAD_FTYP;
    case PFIL:
        return BAD_PFIL;
    case PDAT:
        return KEPT;
    case PSEG:
        refusal = take_segment(partial, box);
        return refusal == ACCEPTED ? KEPT : (uint8_t)refusal;
    default:
        return 0;
    }
}

uint32_t plain_box_at(const struct spoiled *spoiled, file_place place)
{
    uint32_t low = 0, high = spoiled->boxes;

    while (high - low > 1) {
        uint32_t middle = low + (high - low) / 2;
        if (spoiled->box[middle].place <= place)
            low = middle;
        else
            high = middle;
    }
    return low;
}

/* Keeps the boxes that good chunks are; one that lies in a `pdat` has that box, which is kept already. */
static void keep_boxes_of_chunks(struct spoiled *spoiled)
{
    const struct partial *partial = &spoiled->partial;

    for (uint32_t i = 0; i < partial->chunk_count; i++) {
        const struct chunk *chunk = &partial->chunk[i];
        if (chunk->state != GOOD || chunk->size == 0)
            continue;
        uint32_t last = plain_box_at(spoiled, chunk->place + (uint32_t)chunk->size - 1);
        for (uint32_t at = plain_box_at(spoiled, chunk->place); at <= last; at++)
            spoiled->fate[at] = KEPT;
    }
}

enum refusal plain_judge_boxes(const uint8_t *file, size_t file_length, struct spoiled *spoiled)
{
    enum refusal refusal = plain_open(file, file_length, &spoiled->partial);

    if (refusal != ACCEPTED)
        return refusal;
    frame_whole_boxes(spoiled);
    refusal = judge_first_two(spoiled);
    if (refusal != ACCEPTED)
        return refusal;
    spoiled->fate[0] = spoiled->fate[1] = KEPT;
    for (uint32_t i = 2; i < spoiled->boxes; i++)
        spoiled->fate[i] = fate_of(&spoiled->partial, &spoiled->box[i]);
    keep_boxes_of_chunks(spoiled);
    return ACCEPTED;
}
