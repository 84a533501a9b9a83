/* Gives an implementation from before request 8 the calls of today that name a source, which is its only one: segment
   rows have its number, 0, as one number more, and so many rows fit a table as fit today. Its own header is included
   before this one. */
#ifndef BEFORE_H
#define BEFORE_H

#include <stddef.h>
#include <stdint.h>

enum { ROW_TODAY = 8, ROW_BEFORE = 7, MOST_ROWS = 65, MOST_CHUNK_NUMBERS = 6144 };

/* The table that takes the rows as they were. */
static uint64_t rows_before[ROW_BEFORE * MOST_ROWS];

static size_t length_before(size_t length)
{
    size_t rows = length / ROW_TODAY;
    return ROW_BEFORE * (rows < MOST_ROWS ? rows : MOST_ROWS);
}

static void widen(uint64_t *segments, uint64_t count)
{
    for (uint64_t row = 0; row < count; row++) {
        for (uint64_t column = 0; column < ROW_BEFORE; column++) {
            segments[row * ROW_TODAY + column] = rows_before[row * ROW_BEFORE + column];
        }
        segments[row * ROW_TODAY + ROW_BEFORE] = 0;
    }
}

/* How many segments a file has, which not every call tells. */
static uint64_t segments_in(const uint8_t *file, size_t length)
{
    static uint64_t segments[ROW_BEFORE * MOST_ROWS];
    static uint64_t chunks[MOST_CHUNK_NUMBERS];
    uint64_t told[4] = {0};
    vrazhupa_read(file, length, segments, ROW_BEFORE * MOST_ROWS, chunks, MOST_CHUNK_NUMBERS, told);
    return told[0];
}

static uint64_t read_today(const uint8_t *file, size_t length, uint64_t *segments, size_t segments_length, uint64_t *chunks, size_t chunks_length,
                           uint64_t source, uint64_t told[5])
{
    uint64_t before[4];
    uint64_t answer = vrazhupa_read(file, length, rows_before, length_before(segments_length), chunks, chunks_length, before);
    (void)source;
    if (answer == 0) {
        widen(segments, before[0]);
        told[0] = before[0];
        told[1] = before[1];
        told[2] = 1;
        told[3] = before[2];
        told[4] = before[3];
    }
    return answer;
}

static uint64_t serve_today(const uint8_t *file, size_t length, uint64_t *segments, size_t segments_length, uint64_t *chunks, size_t chunks_length,
                            uint64_t source, uint64_t p, uint64_t told[2])
{
    uint64_t answer = vrazhupa_serve(file, length, rows_before, length_before(segments_length), chunks, chunks_length, p, told);
    (void)source;
    if (answer == 0) {
        widen(segments, segments_in(file, length));
    }
    return answer;
}

static uint64_t ask_today(const uint8_t *file, size_t length, uint64_t *segments, size_t segments_length, uint64_t *chunks, size_t chunks_length,
                          uint64_t source, uint64_t p, uint64_t told[2])
{
    uint64_t answer = vrazhupa_ask(file, length, rows_before, length_before(segments_length), chunks, chunks_length, p, told);
    (void)source;
    if (answer == 0) {
        widen(segments, segments_in(file, length));
    }
    return answer;
}

static uint64_t list_today(const uint8_t *file, size_t length, uint64_t *segments, size_t segments_length, uint64_t *chunks, size_t chunks_length,
                           uint64_t source, uint64_t *had, size_t had_length, uint64_t *missing, size_t missing_length, uint64_t told[4])
{
    uint64_t answer =
        vrazhupa_list(file, length, rows_before, length_before(segments_length), chunks, chunks_length, had, had_length, missing, missing_length, told);
    (void)source;
    if (answer == 0) {
        widen(segments, segments_in(file, length));
    }
    return answer;
}

#define vrazhupa_read read_today
#define vrazhupa_serve serve_today
#define vrazhupa_ask ask_today
#define vrazhupa_list list_today

#endif
