/* The memory that the command lends to the library, and what the library leaves there of a file: its tables, its index,
   and the texts of its maps and boxes. */
#ifndef TABLES_H
#define TABLES_H

#include "files.h"
#include "vrazhupa.h"

#include <stdbool.h>

/* The place of a segment's box, its repair time and the number of its source in its row. */
enum { SEGMENT_PLACE = 0, SEGMENT_TIME = 3, SEGMENT_SOURCE = 7 };

/* Both tables of the file that was read last, and what was told of it and of the source that was asked for. */
struct tables {
    uint64_t segments[VRAZHUPA_SEGMENTS * VRAZHUPA_SEGMENT_ROW];
    uint64_t chunks[VRAZHUPA_CHUNKS * VRAZHUPA_CHUNK_ROW];
    uint64_t segment_count, chunk_count, source_count, described;
    bool closed;
};
extern struct tables tables;

/* Reads a file into the tables, and of a source how long it is; 0, or the number of its refusal. */
uint64_t read_tables(struct bytes file, uint64_t source);

/* The numbers of a row of an index. */
enum { INDEX_LEVEL, INDEX_PLACE, INDEX_SIZE, INDEX_TYPE, INDEX_SERVED };

/* The index of the file whose index was read last, VRAZHUPA_INDEX_ROW numbers a row. */
struct indexed {
    const uint64_t *rows;
    uint64_t count;
};
extern struct indexed indexed;

/* Reads the index of a file; 0, or the number of its refusal. */
uint64_t read_index(struct bytes file);

/* A text that a call wrote of a file, good until the next one is written; the fault is the number that its last line
   has where the file was refused, or its framing broke off, and else 0. */
struct text {
    const uint8_t *at;
    size_t length;
    uint64_t fault;
};
typedef uint64_t (*text_call)(const uint8_t *file, size_t file_length, uint64_t most, uint8_t *buffer, size_t buffer_length, uint64_t told[1]);
struct text text_of(struct bytes file, text_call call);

/* How many boxes a file has at its top level, up to a fault. */
uint64_t boxes_of(struct bytes file);

#endif
