/* Partial files (ISO/IEC 23001-14): reading, serving, listing, beginning and appending, by proved code.

   `make target/staticlib/libvrazhupa.a` builds the archive, for x86-64. `make install` puts it where `pkg-config
   --cflags --libs vrazhupa` finds it.

   Each call answers 0, or the number of its refusal (README.md, "Refusals"), and leaves its values in `told`. After a
   refusal all lent memory, `told` too, holds what it held. Nothing is required of the values of the bytes and numbers
   that a call is given; of the memory that holds them this is: memory of the stated length is there, and a pointer may
   be anything where its length is 0; numbers of 64 bits are aligned as such; `told` is no null pointer and has room for
   as many numbers as its array has; a length in bytes is below 2^63. Memory that a call writes to may not overlap other
   memory that it is given. Nothing is kept between calls, and two threads may call at once, each with memory of its own
   to write to. No call allocates, blocks or fails in another way. `vrazhupa_index` needs about 53 KiB of stack,
   `vrazhupa_list`, `vrazhupa_map` and `vrazhupa_missmap` about 36 KiB, the others under 9 KiB. */
#ifndef VRAZHUPA_H
#define VRAZHUPA_H

#include <stdbool.h>
#include <stddef.h>
#include <stdint.h>

/* The version: its second number says how many change requests are in it. */
#define VRAZHUPA_VERSION "1.8"

#ifdef __cplusplus
extern "C" {
#endif

/* The numbers of a row: of a segment (place of the box, source offset, flags, repair time, chunk count, place and
   length of the `pshd` body, number of its source from 0), of a chunk (segment number from 0, index, source start,
   size, state, file place), of a range (first position, length) and of an indexed box (level from 1, source place,
   size, type as the number of its four bytes, whether none, some or all of its bytes are served); the most rows that a
   file fills, the most sources that it has, the most lengths that the texts of a segment have, the most boxes of a
   container, and the most bytes of a file. */
enum {
    VRAZHUPA_SEGMENT_ROW = 8,
    VRAZHUPA_CHUNK_ROW = 6,
    VRAZHUPA_RANGE_ROW = 2,
    VRAZHUPA_INDEX_ROW = 5,
    VRAZHUPA_SEGMENTS = 64,
    VRAZHUPA_CHUNKS = 1024,
    VRAZHUPA_RANGES = 1025,
    VRAZHUPA_SOURCES = 8,
    VRAZHUPA_LENGTHS = 1020,
    VRAZHUPA_BOXES = 512,
    VRAZHUPA_FILE = 1073741824
};

/* The states of a chunk: lost, damaged but kept, good, held elsewhere. */
enum { VRAZHUPA_LOST = 0, VRAZHUPA_DAMAGED = 1, VRAZHUPA_GOOD = 2, VRAZHUPA_ELSEWHERE = 3 };

/* The flag of a segment row that makes the end of the segment the end of the source, where the segment is not open. */
enum { VRAZHUPA_LAST_SEGMENT = 1 };

/* How many of the bytes of an indexed box are served. */
enum { VRAZHUPA_NONE = 0, VRAZHUPA_SOME = 1, VRAZHUPA_ALL = 2 };

/* The longest text of either map and of the list of boxes; what a new file has beside both texts; what an addition that
   is taken adds at most beside its data and its `surl` boxes; and what each of those has beside its two texts. A buffer
   of so many bytes is never too short. */
enum { VRAZHUPA_MAP_TEXT = 36776, VRAZHUPA_BOXES_TEXT = 30733, VRAZHUPA_BEGUN = 54, VRAZHUPA_ADDED = 10297, VRAZHUPA_ADDED_SURL = 14 };

/* The refusals, by their numbers. */
enum {
    VRAZHUPA_FILE_OVER_LIMIT = 1,
    VRAZHUPA_HEADER_CUT_SHORT = 2,
    VRAZHUPA_SIZE_ZERO = 3,
    VRAZHUPA_SIZE_UNDER_HEADER = 4,
    VRAZHUPA_BOX_PAST_CONTAINER = 5,
    VRAZHUPA_TOO_MANY_BOXES = 6,
    VRAZHUPA_FTYP_WRONG = 7,
    VRAZHUPA_NO_BRAND = 8,
    VRAZHUPA_PFIL_WRONG = 9,
    VRAZHUPA_PFHD_WRONG = 10,
    VRAZHUPA_SURL_WRONG = 11,
    VRAZHUPA_NO_SEGMENT = 12,
    VRAZHUPA_TOO_MANY_SEGMENTS = 13,
    VRAZHUPA_PSHD_WRONG = 14,
    VRAZHUPA_NOT_ONE_PLOC = 15,
    VRAZHUPA_SEGMENT_SURL_WRONG = 16,
    VRAZHUPA_PLOC_WRONG = 17,
    VRAZHUPA_WIDTH_OVER_EIGHT = 18,
    VRAZHUPA_DATA_REFERENCE = 19,
    VRAZHUPA_RESERVED_BIT = 20,
    VRAZHUPA_TOO_MANY_CHUNKS = 22,
    VRAZHUPA_POSITION_OVER_LIMIT = 23,
    VRAZHUPA_CHUNK_MISPLACED = 24,
    VRAZHUPA_SIZES_DISAGREE = 25,
    VRAZHUPA_TABLE_TOO_SHORT = 26,
    VRAZHUPA_INPUT_OVER_LIMIT = 27,
    VRAZHUPA_LENGTH_OVER_BUFFER = 30,
    VRAZHUPA_CHUNK_LIST_WRONG = 31,
    VRAZHUPA_DATA_NOT_AS_SIZES = 32,
    VRAZHUPA_BUFFER_TOO_SHORT = 33,
    VRAZHUPA_ZERO_IN_TEXT = 34,
    VRAZHUPA_NOT_TO_GO_OUTSIDE = 35,
    VRAZHUPA_INDEX_WRONG = 36,
    VRAZHUPA_NINTH_LEVEL = 37,
    VRAZHUPA_INDEXES_IN_BOTH = 38,
    VRAZHUPA_END_UNKNOWN = 39,
    VRAZHUPA_TOO_MANY_SOURCES = 40,
    VRAZHUPA_NO_URL = 41
};

/* The kinds of answers about a position. */
enum { VRAZHUPA_SERVED = 0, VRAZHUPA_MISSING = 1, VRAZHUPA_NOT_BELOW = 2 };

/* The heading of a file, also of one that was only begun. told: 1 where the file is mixed and else 0, how many boxes it
   has, how many of them are segments, the place and the length of the URL of the first `surl` in `pfil`, the place and
   the length of its MIME text; 0 for these four where `pfil` has no `surl`. Refuses with 1 to 11. */
uint64_t vrazhupa_heading(const uint8_t *file, size_t file_length, uint64_t told[7]);

/* A file has one or several sources, numbered from 0 in the order in which their segments first appear: segments whose
   lists of URLs are equal in the same order are of one source, whatever their MIME texts are, and a segment with no
   `surl` of its own has the list in `pfil`. The calls below take the number of a source. Of one that is not in the file
   every position is above its length: that is 0, and nothing of it is served, missing or listed.

   Reads a file into both tables, from the front; the rest of a table keeps its contents. Lengths of tables and lists
   are in numbers, not rows. told: rows of segments, rows of chunks, how many sources there are, the described length of
   the source, 1 where its size is known and else 0. Refuses with 1 to 20, 22 to 25, 36 to 41 or 26. */
uint64_t vrazhupa_read(const uint8_t *file, size_t file_length, uint64_t *segments, size_t segments_length, uint64_t *chunks, size_t chunks_length,
                       uint64_t source, uint64_t told[5]);

/* The URL and the MIME text of the first `surl` in `pfil`. told: the place of the text in the file, and its length; 0
   and 0 where `pfil` has no `surl`. Refuse with 1 to 20, 22 to 25 or 36 to 41. */
uint64_t vrazhupa_url(const uint8_t *file, size_t file_length, uint64_t told[2]);
uint64_t vrazhupa_mime(const uint8_t *file, size_t file_length, uint64_t told[2]);

/* The first URL and the first MIME text of a source: those of the first `surl` of its first segment, or, where that
   segment has none, of the first one in `pfil`. told: the place of the text in the file, and its length; 0 and 0 where
   the file has no such source. Refuse with 1 to 20, 22 to 25 or 36 to 41. */
uint64_t vrazhupa_source_url(const uint8_t *file, size_t file_length, uint64_t source, uint64_t told[2]);
uint64_t vrazhupa_source_mime(const uint8_t *file, size_t file_length, uint64_t source, uint64_t told[2]);

/* The texts of all `surl` boxes of a segment, told by its number from 0, as `vrazhupa_append` takes them: the bytes of
   each URL and its MIME text one behind the other into `texts`, and their lengths, URL and MIME by turns, into
   `lengths`. Those of any segment of a source are what an addition to it takes. No more than VRAZHUPA_LENGTHS lengths
   are told, and fewer bytes than the file has. told: how many bytes, and how many lengths; 0 and 0 where the segment
   has no `surl` of its own, or the file no such segment. Refuses with 1 to 20, 22 to 25, 36 to 41 or 26. */
uint64_t vrazhupa_texts(const uint8_t *file, size_t file_length, uint64_t segment, uint8_t *texts, size_t texts_length, uint64_t *lengths,
                        size_t lengths_length, uint64_t told[2]);

/* Reads the file into both tables, and tells where in it the bytes stand that serve position p of a source and those
   after it, as long as the same chunk supplies them. told: the place of that part, and its length; 0 and 0 where p is
   not supplied. Refuses with 1 to 20, 22 to 25, 36 to 41 or 26. */
uint64_t vrazhupa_serve(const uint8_t *file, size_t file_length, uint64_t *segments, size_t segments_length, uint64_t *chunks, size_t chunks_length,
                        uint64_t source, uint64_t p, uint64_t told[2]);

/* Reads the file into both tables, and tells whether position p of a source is served or missing. told: the kind, and
   how many positions from p on are served by the same chunk or missing; 0 where p is not below the described length.
   Refuses with 1 to 20, 22 to 25, 36 to 41 or 26. */
uint64_t vrazhupa_ask(const uint8_t *file, size_t file_length, uint64_t *segments, size_t segments_length, uint64_t *chunks, size_t chunks_length,
                      uint64_t source, uint64_t p, uint64_t told[2]);

/* Reads the file into both tables, and fills two lists with the ranges of positions of a source that it has and of
   those that are missing. told: ranges had, ranges missing, positions received, positions missing. Refuses with 1 to
   20, 22 to 25, 36 to 41 or 26. */
uint64_t vrazhupa_list(const uint8_t *file, size_t file_length, uint64_t *segments, size_t segments_length, uint64_t *chunks, size_t chunks_length,
                       uint64_t source, uint64_t *had, size_t had_length, uint64_t *missing, size_t missing_length, uint64_t told[4]);

/* Reads the file, and fills the table with a row for each box of its index, each before those inside it. A row takes at
   least 16 bytes of the file, so a table for a file of n bytes needs no more than n / 16 rows. told: how many rows.
   Refuses with 1 to 20, 22 to 25, 36 to 41 or 26. */
uint64_t vrazhupa_index(const uint8_t *file, size_t file_length, uint64_t *table, size_t table_length, uint64_t told[1]);

/* Write the map of a file into the buffer as the programs `map` and `missmap` print it, source after source in the
   order of their numbers, the line of a refusal too: that of 27 where the file has more than `most` bytes, which are
   65,536 for the programs. The first names what is missing: held where some damaged chunk covers it, lost where none
   does; the second calls both missing. told: how many bytes. Refuse with 33 where the buffer is too short. */
uint64_t vrazhupa_map(const uint8_t *file, size_t file_length, uint64_t most, uint8_t *buffer, size_t buffer_length, uint64_t told[1]);
uint64_t vrazhupa_missmap(const uint8_t *file, size_t file_length, uint64_t most, uint8_t *buffer, size_t buffer_length, uint64_t told[1]);

/* Writes the list of the top-level boxes of a file into the buffer as the program `boxlist` prints it: of each its
   place, its size and its type, and of a `uuid` box its user type. Where their framing has a fault, the last line has
   its place and its number, 2 to 6, and no third field. Where the file has more than `most` bytes, which are 65,536 for
   the program, or is over its limit, the line of refusal 27 or 1 is the whole text. told: how many bytes, 0 for an
   empty file. Refuses with 33 where the buffer is too short. */
uint64_t vrazhupa_boxes(const uint8_t *file, size_t file_length, uint64_t most, uint8_t *buffer, size_t buffer_length, uint64_t told[1]);

/* Begins a file in the buffer, a mixed one (brand `pmff`) or one with all its data in `pdat` (brand `paff`). told: its
   length. Refuses with 34, 1 or 33. */
uint64_t vrazhupa_begin(uint8_t *buffer, size_t buffer_length, bool mixed, const uint8_t *url, size_t url_length, const uint8_t *mime, size_t mime_length,
                        uint64_t told[1]);

/* Appends a segment to the file in the first `length` bytes of the buffer. The list has a size and a state for each
   chunk, its length in numbers; an empty list with no data is an open segment. The data are the bytes of the damaged
   and of the good chunks, in order. With `outside` the good chunks are stored as boxes of the file, behind the `pdat`
   of the damaged ones: the file has to be mixed and each good chunk whole boxes, none of type `ftyp`, `pfil`, `pseg` or
   `pdat`; without it all data goes into one `pdat`. The texts are those of the `surl` boxes that the segment is to
   have, the bytes of each URL and its MIME text one behind the other, and `lengths` has the lengths of these, URL and
   MIME by turns: the segment is of the source with these URLs, and without any of that with the list in `pfil`. Bytes
   before `length` and behind the new end keep their values. told: the new length. Refuses with 30, the file's own
   refusal, 31 (of either list), 32 (of the data or the texts), 35, 34, 1, 6, 13, 41, 22, 23, 25, 40, 36, 37, 39 or 33,
   in this order. */
uint64_t vrazhupa_append(uint8_t *buffer, size_t buffer_length, uint64_t length, uint64_t offset, uint64_t repair_time, bool last, bool outside,
                         const uint64_t *list, size_t list_length, const uint8_t *data, size_t data_length, const uint8_t *texts, size_t texts_length,
                         const uint64_t *lengths, size_t lengths_length, uint64_t told[1]);

#ifdef __cplusplus
}
#endif

#endif
