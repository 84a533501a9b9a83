/* The chunks of an addition with their bytes, and with what lies between them. */
#include "addition.h"

#include "say.h"
#include "vrazhupa.h"

#include <errno.h>
#include <inttypes.h>
#include <stdio.h>
#include <string.h>

/* The bytes of a chunk, none where it keeps none; they are as many as was said before. */
static struct bytes bytes_of(const struct chunk *chunk)
{
    static bool standard_input;
    if (chunk->data == NULL) {
        return (struct bytes){NULL, 0};
    }
    if (is(chunk->data, "-")) {
        once(&standard_input, "-");
    }
    struct bytes bytes = map_data(chunk->data);
    if (chunk->sized && bytes.length != chunk->wanted) {
        char why[96];
        snprintf(why, sizeof why, "there are %zu bytes, and --size says %" PRIu64, bytes.length, chunk->wanted);
        misused(why, chunk->data);
    }
    return bytes;
}

static void add(struct pieces *pieces, uint64_t size, int state, struct bytes bytes)
{
    pieces->list[2 * pieces->count] = size;
    pieces->list[2 * pieces->count + 1] = (uint64_t)state;
    pieces->parts[pieces->count++] = bytes;
    pieces->total += bytes.length;
}

/* What lies between the end of a chunk and the place of the next one is lost. Answers that place. */
static uint64_t add_gap(struct pieces *pieces, uint64_t end, uint64_t at)
{
    if (at < end) {
        char why[96];
        snprintf(why, sizeof why, "position %" PRIu64 " is before %" PRIu64 ", where the chunks before it end", at, end);
        misused(why, "--at");
    }
    if (at > end) {
        add(pieces, at - end, VRAZHUPA_LOST, (struct bytes){NULL, 0});
    }
    return at;
}

/* The data in one piece: a single part as it is mapped, several copied behind each other. Data that no file has room
   for are not copied. */
static const uint8_t *joined(const struct pieces *pieces)
{
    uint8_t *data = lend(pieces->total);
    size_t at = 0;
    for (size_t i = 0; i < pieces->count; i++) {
        const struct bytes *part = &pieces->parts[i];
        if (part->length == pieces->total) {
            return part->at;
        }
        if (pieces->total <= VRAZHUPA_FILE && part->length > 0) {
            memcpy(data + at, part->at, part->length);
        }
        at += part->length;
    }
    return data;
}

struct pieces pieces_of(const struct addition *addition)
{
    size_t most = 2 * addition->count;
    struct pieces pieces = {.list = lend(2 * most * sizeof(uint64_t)), .parts = lend(most * sizeof(struct bytes))};
    uint64_t end = addition->offset;
    for (size_t i = 0; i < addition->count; i++) {
        const struct chunk *chunk = &addition->chunks[i];
        if (chunk->placed) {
            end = add_gap(&pieces, end, chunk->at);
        }
        struct bytes bytes = bytes_of(chunk);
        uint64_t size = chunk->data == NULL ? chunk->size : bytes.length;
        if (bytes.length > SIZE_MAX / 4 - pieces.total) {
            errno = EFBIG;
            failed(chunk->data);
        }
        add(&pieces, size, chunk->state, bytes);
        end = size > UINT64_MAX - end ? UINT64_MAX : end + size;
    }
    pieces.data = joined(&pieces);
    return pieces;
}
