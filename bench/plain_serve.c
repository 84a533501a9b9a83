/* Answers the calls that read a file, serve a position of a source and ask about one. */
#include "plain.h"

bool plain_tables_hold(const struct partial *partial, size_t segments_length, size_t chunks_length)
{
    return segments_length >= (size_t)partial->segment_count * VRAZHUPA_SEGMENT_ROW && chunks_length >= (size_t)partial->chunk_count * VRAZHUPA_CHUNK_ROW;
}

void plain_fill_tables(const struct partial *partial, uint64_t *restrict segments, uint64_t *restrict chunks)
{
    for (uint32_t i = 0; i < partial->segment_count; i++, segments += VRAZHUPA_SEGMENT_ROW) {
        const struct segment *segment = &partial->segment[i];
        segments[0] = segment->place;
        segments[1] = segment->offset;
        segments[2] = segment->flags;
        segments[3] = segment->repair_time;
        segments[4] = segment->chunk_count;
        segments[5] = segment->header.place;
        segments[6] = segment->header.length;
        segments[7] = segment->source;
    }
    for (uint32_t i = 0; i < partial->chunk_count; i++, chunks += VRAZHUPA_CHUNK_ROW) {
        const struct chunk *chunk = &partial->chunk[i];
        chunks[0] = chunk->segment;
        chunks[1] = chunk->index;
        chunks[2] = chunk->start;
        chunks[3] = chunk->size;
        chunks[4] = chunk->state;
        chunks[5] = chunk->place;
    }
}

/* Reads a file into the lent tables. */
static enum refusal read_into(const uint8_t *file, size_t file_length, uint64_t *segments, size_t segments_length, uint64_t *chunks, size_t chunks_length,
                              struct partial *partial)
{
    enum refusal refusal = plain_read(file, file_length, partial);

    if (refusal != ACCEPTED)
        return refusal;
    if (!plain_tables_hold(partial, segments_length, chunks_length))
        return TABLE_TOO_SHORT;
    plain_fill_tables(partial, segments, chunks);
    return ACCEPTED;
}

/* What is known of a position: its kind, how many positions from it on are alike, and the place of its byte where it is
   served. */
struct answer {
    uint64_t kind, length, place;
};

/* Looks for the first good chunk of a segment that covers p. Good chunks that start above p end the run before `*next`,
   as they supply what they cover. */
static const struct chunk *look_in(const struct partial *partial, const struct segment *segment, uint64_t p, uint64_t *next)
{
    for (uint32_t i = segment->first; i < segment->first + segment->chunk_count; i++) {
        const struct chunk *chunk = &partial->chunk[i];
        if (chunk->state != GOOD || chunk->start + chunk->size <= p || chunk->size == 0)
            continue;
        if (chunk->start <= p)
            return chunk;
        if (chunk->start < *next)
            *next = chunk->start;
    }
    return NULL;
}

/* Looks for the first good chunk that covers position p of a source. */
static struct answer look_up(const struct partial *partial, uint64_t source, uint64_t p)
{
    uint64_t next = plain_source(partial, source).described;

    if (p >= next)
        return (struct answer){VRAZHUPA_NOT_BELOW, 0, 0};
    for (uint32_t i = 0; i < partial->segment_count; i++) {
        const struct segment *segment = &partial->segment[i];
        const struct chunk *chunk = segment->source == source ? look_in(partial, segment, p, &next) : NULL;
        if (chunk != NULL) {
            uint64_t end = chunk->start + chunk->size;
            return (struct answer){VRAZHUPA_SERVED, (end < next ? end : next) - p, chunk->place + (p - chunk->start)};
        }
    }
    return (struct answer){VRAZHUPA_MISSING, next - p, 0};
}

uint64_t vrazhupa_read(const uint8_t *file, size_t file_length, uint64_t *segments, size_t segments_length, uint64_t *chunks, size_t chunks_length,
                       uint64_t source, uint64_t told[5])
{
    struct partial partial;
    struct source described;
    enum refusal refusal = read_into(file, file_length, segments, segments_length, chunks, chunks_length, &partial);

    if (refusal != ACCEPTED)
        return refusal;
    told[0] = partial.segment_count;
    told[1] = partial.chunk_count;
    told[2] = partial.source_count;
    described = plain_source(&partial, source);
    told[3] = described.described;
    told[4] = described.size != SIZE_UNKNOWN;
    return ACCEPTED;
}

uint64_t vrazhupa_serve(const uint8_t *file, size_t file_length, uint64_t *segments, size_t segments_length, uint64_t *chunks, size_t chunks_length,
                        uint64_t source, uint64_t p, uint64_t told[2])
{
    struct partial partial;
    struct answer answer;
    enum refusal refusal = read_into(file, file_length, segments, segments_length, chunks, chunks_length, &partial);

    if (refusal != ACCEPTED)
        return refusal;
    answer = look_up(&partial, source, p);
    told[0] = answer.place;
    told[1] = answer.kind == VRAZHUPA_SERVED ? answer.length : 0;
    return ACCEPTED;
}

uint64_t vrazhupa_ask(const uint8_t *file, size_t file_length, uint64_t *segments, size_t segments_length, uint64_t *chunks, size_t chunks_length,
                      uint64_t source, uint64_t p, uint64_t told[2])
{
    struct partial partial;
    struct answer answer;
    enum refusal refusal = read_into(file, file_length, segments, segments_length, chunks, chunks_length, &partial);

    if (refusal != ACCEPTED)
        return refusal;
    answer = look_up(&partial, source, p);
    told[0] = answer.kind;
    told[1] = answer.length;
    return ACCEPTED;
}
