/* What the plain C implementation keeps of a partial file that it has read, and the helpers that its files share. */
#ifndef PLAIN_H
#define PLAIN_H

#include "../include/vrazhupa.h"

/* The refusals by the numbers of the paper. */
enum refusal {
    ACCEPTED = 0,
    FILE_OVER_LIMIT = 1,
    HEADER_CUT_SHORT = 2,
    SIZE_FIELD_ZERO = 3,
    SIZE_UNDER_HEADER = 4,
    BOX_PAST_CONTAINER = 5,
    TOO_MANY_BOXES = 6,
    BAD_FTYP = 7,
    NEITHER_BRAND = 8,
    BAD_PFIL = 9,
    BAD_PFHD = 10,
    BAD_SURL = 11,
    NO_PSEG = 12,
    TOO_MANY_SEGMENTS = 13,
    BAD_PSHD = 14,
    NOT_ONE_PLOC = 15,
    BAD_SEGMENT_SURL = 16,
    BAD_PLOC = 17,
    WIDTH_OVER_EIGHT = 18,
    DATA_REFERENCE = 19,
    RESERVED_BIT = 20,
    TOO_MANY_CHUNKS = 22,
    POSITION_OVER_LIMIT = 23,
    MAY_NOT_LIE_THERE = 24,
    SIZES_DISAGREE = 25,
    TABLE_TOO_SHORT = 26,
    INPUT_OVER_LIMIT = 27,
    LENGTH_OVER_BUFFER = 30,
    BAD_CHUNK_LIST = 31,
    DATA_NOT_EQUAL = 32,
    BUFFER_TOO_SHORT = 33,
    ZERO_BYTE_IN_TEXT = 34,
    NOT_TO_GO_OUTSIDE = 35,
    BAD_INDEX = 36,
    NINTH_LEVEL = 37,
    INDEXES_IN_BOTH = 38,
    END_UNKNOWN = 39,
    TOO_MANY_SOURCES = 40,
    NO_URL = 41
};

enum { MOST_BOXES = 512 };

#define MOST_POSITION UINT64_C(1099511627775)
#define SIZE_UNKNOWN UINT64_MAX

/* The box types that the base knows. */
#define FOUR(a, b, c, d) ((uint32_t)(a) << 24 | (uint32_t)(b) << 16 | (uint32_t)(c) << 8 | (uint32_t)(d))
#define FTYP FOUR('f', 't', 'y', 'p')
#define PFIL FOUR('p', 'f', 'i', 'l')
#define PFHD FOUR('p', 'f', 'h', 'd')
#define SURL FOUR('s', 'u', 'r', 'l')
#define PSEG FOUR('p', 's', 'e', 'g')
#define PSHD FOUR('p', 's', 'h', 'd')
#define PLOC FOUR('p', 'l', 'o', 'c')
#define PDAT FOUR('p', 'd', 'a', 't')

/* The box types of an index. */
#define FIDX FOUR('f', 'i', 'd', 'x')
#define BIDX FOUR('b', 'i', 'd', 'x')
#define FRPA FOUR('f', 'r', 'p', 'a')

/* The brands of a partial file and of a mixed one. */
#define PAFF FOUR('p', 'a', 'f', 'f')
#define PMFF FOUR('p', 'm', 'f', 'f')

/* The type of a vendor's box, whose header ends with the vendor's own type. */
#define UUID FOUR('u', 'u', 'i', 'd')
enum { USER_TYPE = 16 };

/* The flag of `pshd` for the last segment, and the flag bytes of a chunk's entry. */
enum { LAST_SEGMENT = 1 };
enum { CORRUPTED = 0x80, PRESENT = 0x40, RESERVED = 0x3f };
enum { LOST = 0, DAMAGED = 1, GOOD = 2, ELSEWHERE = 3 };

/* A place counts bytes of the partial file, a position bytes of the source; neither stands for the other. The limits
   let a place fit 32 bits, and a position 40. */
typedef uint32_t file_place;
typedef uint64_t source_position;

/* A part of the partial file. */
struct part {
    file_place place;
    uint32_t length;
};

struct container {
    file_place place, end; /* of the next box, and of the byte after the last one */
    uint32_t boxes;        /* framed so far */
};

struct box {
    uint32_t type;
    file_place place, body, end;
};

/* What the header of a box says: its type, its own size and that of the box. */
struct header {
    uint32_t type, header_size;
    uint64_t size;
};

/* The `fidx` boxes of a `pfil` or a `pseg`: how many, and the body of the last one. */
struct index {
    uint32_t count;
    struct part body;
};

/* The `surl` boxes of a `pfil` or a `pseg`: how many, whether each is well-formed, the part of the file from the first
   one on to behind the last one, and a digest of their URLs, so that lists that differ seldom have to be compared. */
struct surls {
    uint32_t count;
    bool formed;
    file_place first, end;
    uint64_t digest;
};

struct segment {
    file_place place, body, end; /* of the `pseg` box: its first byte, its body, the byte after it */
    struct index index;
    struct surls surls;          /* its own */
    struct part header;          /* the body of its `pshd` */
    uint32_t flags;
    uint32_t source;             /* the number of its source */
    uint32_t first, chunk_count; /* its first chunk among those of the file, and how many it has */
    uint64_t offset;             /* source_byte_offset, not over the limit once the file is accepted */
    uint64_t repair_time;
};

struct chunk {
    source_position start;
    uint64_t size;
    file_place place; /* 0 if not present or empty */
    uint16_t index;
    uint8_t segment;
    uint8_t state;
};

/* A source: its first segment, the least size known of it, or SIZE_UNKNOWN, and the largest segment end or open offset,
   which is its described length once the file is accepted. */
struct source {
    uint32_t segment;
    uint64_t size, described;
};

/* A file as read. After NO_PSEG everything but the segments and chunks stands, and there are none. */
struct partial {
    const uint8_t *file;
    uint32_t length;
    uint32_t boxes; /* in the file itself */
    bool mixed;
    uint32_t pdat_count, segment_count, chunk_count, source_count;
    uint32_t nearest;    /* the `pdat` that held the last chunk */
    struct surls surls;  /* of `pfil` */
    struct index index;  /* of `pfil` */
    uint32_t indexes;    /* in `pfil` and in the segments */
    uint64_t index_rows; /* of an accepted file */
    struct part pdat[MOST_BOXES]; /* bodies, ascending */
    file_place end[MOST_BOXES];   /* of each box of the file, the byte after it */
    uint16_t barred[MOST_BOXES];  /* how many boxes up to it, itself counted, no chunk may be made of */
    struct segment segment[VRAZHUPA_SEGMENTS];
    struct chunk chunk[VRAZHUPA_CHUNKS];
    struct source source[VRAZHUPA_SEGMENTS]; /* as many as are met before they are judged to be too many */
};

/* The texts of the `surl` boxes of a segment to be: the bytes of each URL and its MIME text, one behind the other, the
   lengths of these by turns, and how many pairs of them there are. */
struct texts {
    const uint8_t *bytes;
    const uint64_t *lengths;
    uint64_t length, count;
};

/* Positions from `first` up to, not including, `end`. */
struct range {
    source_position first, end;
};

/* Ranges, maximal and ascending, and behind the last one a range beyond every position. */
struct ranges {
    uint32_t count;
    const struct range *range;
};

/* The ranges of each source of an accepted file, and behind the last source none. */
struct covered {
    struct ranges of[VRAZHUPA_SOURCES + 1];
    struct range room[VRAZHUPA_CHUNKS + VRAZHUPA_SOURCES + 1];
};

/* Reads a file up to its segments, which are counted; ACCEPTED or its refusal, 1 to 11. */
enum refusal plain_heading(const uint8_t *file, size_t file_length, struct partial *partial);

/* Reads a file; ACCEPTED or its refusal, 1 to 25 and 36 to 41. */
enum refusal plain_read(const uint8_t *file, size_t file_length, struct partial *partial);

/* Makes ready to read a file; ACCEPTED, or 1. */
enum refusal plain_open(const uint8_t *file, size_t file_length, struct partial *partial);

/* Notes of a box of the file, by its number from 0, what tells where chunks may lie: where it ends, which the next does
   as a chunk of boxes may, and the body of a `pdat`. */
void plain_note_place(struct partial *partial, const struct box *box, uint32_t number);

/* Judges the first two boxes of the file as if there were no others, a box of no type in the place of one that is not
   there, and reads the `pfil` among them; ACCEPTED, or 2 to 11. */
enum refusal plain_read_first_two(struct partial *partial, const struct box boxes[2]);

/* Reads a segment, whose place is noted, by its number: it and its chunks, which are counted to those of the file, and
   its end; ACCEPTED, or its refusal, 2 to 24 or 41. */
enum refusal plain_read_segment(struct partial *partial, uint32_t number, uint64_t *end);

/* Counts a segment to its source, which is a new one where none has its URLs. */
void plain_join_source(struct partial *partial, uint32_t number, uint64_t end);

/* Notes a `surl` among the boxes of its container. */
void plain_note_surl(const uint8_t *file, struct surls *surls, const struct box *surl);

/* The `surl` boxes as a container, in which others may stand between them; and a step over the next one, where all are
   well-formed: its URL, which a zero byte closes as it does the MIME text behind it, or NULL where there is none. */
struct container plain_walk_over(const struct surls *surls);
const char *plain_next_url(const uint8_t *file, struct container *in);

/* The `surl` boxes that hold for a segment: its own, or where it has none those of `pfil`; and those of a source, which
   are those of its first segment. */
const struct surls *plain_surls_of(const struct partial *partial, const struct segment *segment);
const struct surls *plain_list_of(const struct partial *partial, uint32_t number);

/* The number of the source with these `surl` boxes, of the one with these texts and of that of `pfil`; where there is
   none as yet, the number that it would get. */
uint32_t plain_number_of(const struct partial *partial, const struct surls *surls);
uint32_t plain_number_by_texts(const struct partial *partial, const struct texts *texts);
uint32_t plain_number_of_pfil(const struct partial *partial);

/* Whether a segment with these texts would be of the source of `pfil`. */
bool plain_are_of_pfil(const struct partial *partial, const struct texts *texts);

/* A source by its number; where there is none, one that nothing is known of. */
struct source plain_source(const struct partial *partial, uint64_t number);

/* Judges the indexes of a file, where the source of `pfil` has this size, and counts their rows; ACCEPTED or 36 to
   39. */
enum refusal plain_judge_indexes(const struct partial *partial, uint64_t pfil_size, uint64_t *rows);

/* Whether the lent tables hold the rows of an accepted file, and the filling of them. */
bool plain_tables_hold(const struct partial *partial, size_t segments_length, size_t chunks_length);
void plain_fill_tables(const struct partial *partial, uint64_t *segments, uint64_t *chunks);

/* Finds what the chunks of a state cover of a source, in room for a range more than it has chunks; and of every
   source. */
struct ranges plain_find_covered(const struct partial *partial, uint64_t source, uint8_t state, struct range *room);
void plain_find_all_covered(const struct partial *partial, uint8_t state, struct covered *covered);

static inline uint32_t load32(const uint8_t *at)
{
    return (uint32_t)at[0] << 24 | (uint32_t)at[1] << 16 | (uint32_t)at[2] << 8 | (uint32_t)at[3];
}

static inline uint64_t load64(const uint8_t *at)
{
    return (uint64_t)load32(at) << 32 | load32(at + 4);
}

/* Reads the header of a box in a container that has so many bytes left. */
static inline enum refusal read_header(const uint8_t *at, uint64_t left, struct header *header)
{
    header->header_size = 8;
    if (left < header->header_size)
        return HEADER_CUT_SHORT;
    header->size = load32(at);
    if (header->size == 0)
        return SIZE_FIELD_ZERO;
    if (header->size == 1) {
        header->header_size = 16;
        if (left < header->header_size)
            return HEADER_CUT_SHORT;
        header->size = load64(at + 8);
    }
    header->type = load32(at + 4);
    if (header->type == UUID)
        header->header_size += USER_TYPE;
    if (header->size < header->header_size)
        return SIZE_UNDER_HEADER;
    return header->size > left ? BOX_PAST_CONTAINER : ACCEPTED;
}

/* Frames the next box of a container that has bytes left. */
static inline enum refusal next_box(const uint8_t *file, struct container *in, struct box *box)
{
    struct header header;
    enum refusal refusal;

    if (in->boxes == MOST_BOXES)
        return TOO_MANY_BOXES;
    refusal = read_header(file + in->place, in->end - in->place, &header);
    if (refusal != ACCEPTED)
        return refusal;
    box->type = header.type;
    box->place = in->place;
    box->body = in->place + header.header_size;
    box->end = in->place + (uint32_t)header.size;
    in->place = box->end;
    in->boxes++;
    return ACCEPTED;
}

/* Whether a chunk outside `pdat` may be made of boxes of this type. */
static inline bool may_be_outside(uint32_t type)
{
    return type != FTYP && type != PFIL && type != PSEG && type != PDAT;
}

#endif
