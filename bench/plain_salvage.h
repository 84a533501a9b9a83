/* What the plain C implementation keeps of a spoiled file: its whole boxes, and what becomes of each. */
#ifndef PLAIN_SALVAGE_H
#define PLAIN_SALVAGE_H

#include "plain.h"

/* Both calls of salvage, which the library does not have yet: the copy of what can be saved of a spoiled file, and a line
   with place and number for each box of it that is dropped and for its first framing error. The longest such text has
   510 lines of boxes, each with a place of ten digits and a number of two, and one of the error, whose number has one. */
enum { SALVAGE_TEXT = 7153 };
uint64_t vrazhupa_salvage(const uint8_t *file, size_t file_length, uint8_t *buffer, size_t buffer_length, uint64_t told[1]);
uint64_t vrazhupa_salvage_lines(const uint8_t *file, size_t file_length, uint64_t most, uint8_t *buffer, size_t buffer_length, uint64_t told[1]);

/* What becomes of a box: it is kept, or dropped with a number, 0 where nothing was wrong with it. */
enum { KEPT = 255 };

/* A spoiled file. Of its boxes those up to the first framing error are whole, and the error is ACCEPTED where there is
   none; the segments, chunks and sources of the partial file are those that are kept. */
struct spoiled {
    struct partial partial;
    uint32_t boxes;
    struct box box[MOST_BOXES];
    uint8_t fate[MOST_BOXES];
    enum refusal error;
    file_place error_place;
};

/* Finds out what becomes of each box; ACCEPTED, or the refusal of the file, 1 to 11. */
enum refusal plain_judge_boxes(const uint8_t *file, size_t file_length, struct spoiled *spoiled);

/* The number of the box that has the byte at a place, which one of the whole boxes has. */
uint32_t plain_box_at(const struct spoiled *spoiled, file_place place);

#endif
