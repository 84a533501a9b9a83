/* The memory that the command lends to the library, and what the library leaves there. */
#include "tables.h"

#include "say.h"

#include <stdlib.h>

struct tables tables;
struct indexed indexed;

/* How many rows a table for an index has at first, and how many times as many where they are too few. */
enum { FIRST_ROWS = 1024, MORE_ROWS = 4 };

uint64_t read_tables(struct bytes file, uint64_t source)
{
    uint64_t told[5];
    uint64_t number = vrazhupa_read(file.at, file.length, tables.segments, sizeof tables.segments / sizeof tables.segments[0], tables.chunks,
                                    sizeof tables.chunks / sizeof tables.chunks[0], source, told);
    if (number == 0) {
        tables.segment_count = told[0];
        tables.chunk_count = told[1];
        tables.source_count = told[2];
        tables.described = told[3];
        tables.closed = told[4] == 1;
    }
    return number;
}

/* The table grows until it is long enough, from nothing, which is enough for a file without an index: a table for the
   longest index that a file might have would take more room than the file. */
uint64_t read_index(struct bytes file)
{
    static uint64_t *table;
    static size_t room;
    uint64_t told[1], number;
    while ((number = vrazhupa_index(file.at, file.length, table, room * VRAZHUPA_INDEX_ROW, told)) == VRAZHUPA_TABLE_TOO_SHORT) {
        room = room == 0 ? FIRST_ROWS : room * MORE_ROWS;
        free(table);
        table = malloc(room * VRAZHUPA_INDEX_ROW * sizeof *table);
        if (table == NULL) {
            failed("memory");
        }
    }
    if (number == 0) {
        indexed = (struct indexed){table, told[0]};
    }
    return number;
}

/* The number in the last line of a text, where that line has two fields; a line of a map or of a box has more. */
static uint64_t fault_in(const uint8_t *text, size_t length)
{
    uint64_t number = 0, unit = 1;
    size_t tabs = 0;
    for (size_t at = length; at > 1 && text[at - 2] != '\n'; at--) {
        uint8_t byte = text[at - 2];
        if (byte == '\t') {
            tabs++;
        } else if (tabs == 0 && byte >= '0' && byte <= '9') {
            number += (uint64_t)(byte - '0') * unit;
            unit *= 10;
        }
    }
    return tabs == 1 ? number : 0;
}

struct text text_of(struct bytes file, text_call call)
{
    static uint8_t text[VRAZHUPA_MAP_TEXT];
    uint64_t told[1];
    uint64_t number = call(file.at, file.length, UINT64_MAX, text, sizeof text, told);
    return number != 0 ? (struct text){text, 0, number} : (struct text){text, told[0], fault_in(text, told[0])};
}

uint64_t boxes_of(struct bytes file)
{
    struct text text = text_of(file, vrazhupa_boxes);
    uint64_t lines = 0;
    for (size_t i = 0; i < text.length; i++) {
        lines += text.at[i] == '\n';
    }
    return text.fault == 0 ? lines : lines - (lines > 0);
}
