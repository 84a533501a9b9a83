/* Reads a partial file in one pass over its boxes: framing, refusals 1 to 25, 40 and 41, segments, chunks and the
   lengths of the sources, and where its indexes stand. */
#include "plain.h"

#include <string.h>

/* What the rules for the first boxes of the file ask about. */
struct opening {
    struct box first, second;
    uint32_t ftyps, pfils;
};

static void note_box(struct partial *partial, const struct box *box, struct opening *opening)
{
    switch (box->type) {
    case FTYP:
        opening->ftyps++;
        break;
    case PFIL:
        opening->pfils++;
        break;
    case PSEG:
        if (partial->segment_count < VRAZHUPA_SEGMENTS) {
            struct segment *segment = &partial->segment[partial->segment_count];
            segment->place = box->place;
            segment->body = box->body;
            segment->end = box->end;
        }
        partial->segment_count++;
        break;
    default:
        break;
    }
}

void plain_note_place(struct partial *partial, const struct box *box, uint32_t number)
{
    uint16_t earlier = number == 0 ? 0 : partial->barred[number - 1];

    if (box->type == PDAT)
        partial->pdat[partial->pdat_count++] = (struct part){box->body, box->end - box->body};
    partial->end[number] = box->end;
    partial->barred[number] = (uint16_t)(earlier + (may_be_outside(box->type) ? 0 : 1));
}

/* Frames the boxes of the file and notes those that the base knows. */
static enum refusal read_file_boxes(struct partial *partial, struct opening *opening)
{
    struct container in = {0, partial->length, 0};

    while (in.place < in.end) {
        struct box box;
        enum refusal refusal = next_box(partial->file, &in, &box);
        if (refusal != ACCEPTED)
            return refusal;
        if (in.boxes == 1)
            opening->first = box;
        else if (in.boxes == 2)
            opening->second = box;
        note_box(partial, &box, opening);
        plain_note_place(partial, &box, in.boxes - 1);
    }
    partial->boxes = in.boxes;
    return ACCEPTED;
}

/* Whether a brand is among the compatible ones, which follow the major brand and the minor version. */
static bool has_brand(const uint8_t *file, const struct box *ftyp, uint32_t brand)
{
    for (file_place place = ftyp->body + 8; place < ftyp->end; place += 4)
        if (load32(file + place) == brand)
            return true;
    return false;
}

static enum refusal check_opening(struct partial *partial, const struct opening *opening)
{
    const uint8_t *file = partial->file;
    const struct box *ftyp = &opening->first;
    uint32_t ftyp_length = ftyp->end - ftyp->body;

    if (ftyp->type != FTYP || ftyp_length < 8 || ftyp_length % 4 != 0 || opening->ftyps != 1)
        return BAD_FTYP;
    partial->mixed = has_brand(file, ftyp, PMFF);
    if (!partial->mixed && !has_brand(file, ftyp, PAFF))
        return NEITHER_BRAND;
    if (opening->second.type != PFIL || opening->pfils != 1)
        return BAD_PFIL;
    return ACCEPTED;
}

/* Notes a `fidx` among the boxes of its container. */
static void note_index(struct partial *partial, struct index *index, const struct box *fidx)
{
    index->count++;
    index->body = (struct part){fidx->body, fidx->end - fidx->body};
    partial->indexes++;
}

static enum refusal read_pfil(struct partial *partial, const struct box *pfil)
{
    const uint8_t *file = partial->file;
    struct container in = {pfil->body, pfil->end, 0};
    uint32_t pfhds = 0;
    bool pfhd_formed = true;

    while (in.place < in.end) {
        struct box box;
        enum refusal refusal = next_box(file, &in, &box);
        if (refusal != ACCEPTED)
            return refusal;
        if (box.type == PFHD) {
            pfhds++;
            pfhd_formed = box.end - box.body == 4 && file[box.body] == 0;
        } else if (box.type == SURL) {
            plain_note_surl(file, &partial->surls, &box);
        } else if (box.type == FIDX) {
            note_index(partial, &partial->index, &box);
        }
    }
    if (pfhds != 1 || !pfhd_formed)
        return BAD_PFHD;
    return partial->surls.formed ? ACCEPTED : BAD_SURL;
}

/* Reads a `pshd`: version and flags, an offset of 32 bits in version 0 and else of 64, the repair time, and nothing
   after. */
static bool read_pshd(const uint8_t *file, const struct box *pshd, struct segment *segment)
{
    const uint8_t *body = file + pshd->body;
    uint32_t length = pshd->end - pshd->body;

    if (length == 16 && body[0] == 0)
        segment->offset = load32(body + 4);
    else if (length == 20 && body[0] != 0)
        segment->offset = load64(body + 4);
    else
        return false;
    segment->flags = load32(body) & 0xffffff;
    segment->repair_time = load64(body + length - 8);
    segment->header = (struct part){pshd->body, length};
    return true;
}

/* Frames the boxes of a `pseg`, reads its `pshd` and finds its `ploc`, its `surl` boxes and its index. */
static enum refusal read_pseg_boxes(struct partial *partial, struct segment *segment, struct box *ploc)
{
    const uint8_t *file = partial->file;
    struct container in = {segment->body, segment->end, 0};
    struct box first = {0, 0, 0, 0};
    uint32_t pshds = 0, plocs = 0;

    segment->index.count = 0;
    segment->surls = (struct surls){.formed = true};
    while (in.place < in.end) {
        struct box box;
        enum refusal refusal = next_box(file, &in, &box);
        if (refusal != ACCEPTED)
            return refusal;
        if (in.boxes == 1)
            first = box;
        if (box.type == PSHD) {
            pshds++;
        } else if (box.type == PLOC) {
            plocs++;
            *ploc = box;
        } else if (box.type == SURL) {
            plain_note_surl(file, &segment->surls, &box);
        } else if (box.type == FIDX) {
            note_index(partial, &segment->index, &box);
        }
    }
    if (first.type != PSHD || pshds != 1 || !read_pshd(file, &first, segment))
        return BAD_PSHD;
    if (plocs != 1)
        return NOT_ONE_PLOC;
    if (!segment->surls.formed)
        return BAD_SEGMENT_SURL;
    return plain_surls_of(partial, segment)->count == 0 ? NO_URL : ACCEPTED;
}

/* Reads an unsigned field of 0 to 8 bytes, by one load where the file goes on for eight bytes. */
static inline uint64_t field(const uint8_t *at, const uint8_t *file_end, unsigned width)
{
    uint64_t value = 0;

    if (width == 0)
        return 0;
    if (file_end - at >= 8)
        return load64(at) >> (64 - 8 * width);
    for (unsigned i = 0; i < width; i++)
        value = value << 8 | at[i];
    return value;
}

/* Reads a field in two's complement, its sign carried on to 64 bits. */
static inline uint64_t signed_field(const uint8_t *at, const uint8_t *file_end, unsigned width)
{
    uint64_t sign = width == 0 ? 0 : (uint64_t)1 << (8 * width - 1);

    return (field(at, file_end, width) ^ sign) - sign;
}

/* Finds the last `pdat` whose body starts at or before a place; the first one if none does. */
static uint32_t nearest_pdat(const struct partial *partial, uint64_t place)
{
    uint32_t low = 0, high = partial->pdat_count;

    while (high - low > 1) {
        uint32_t middle = low + (high - low) / 2;
        if (partial->pdat[middle].place <= place)
            low = middle;
        else
            high = middle;
    }
    return low;
}

/* Whether `size` bytes, at least one, from a place on lie in the body of one `pdat`. A place below 0 has wrapped to one
   above every file. */
static inline bool in_one_pdat(struct partial *partial, uint64_t place, uint64_t size)
{
    const struct part *body;

    if (partial->pdat_count == 0)
        return false;
    body = &partial->pdat[partial->nearest];
    if (place - body->place >= body->length) {
        partial->nearest = nearest_pdat(partial, place);
        body = &partial->pdat[partial->nearest];
        if (place - body->place >= body->length)
            return false;
    }
    return size <= body->length - (place - body->place);
}

/* Finds the box of the file that ends at a place; MOST_BOXES if none does. */
static uint32_t box_that_ends(const struct partial *partial, uint64_t place)
{
    uint32_t low = 0, high = partial->boxes;

    while (low < high) {
        uint32_t middle = low + (high - low) / 2;
        if (partial->end[middle] < place)
            low = middle + 1;
        else
            high = middle;
    }
    return low < partial->boxes && partial->end[low] == place ? low : MOST_BOXES;
}

/* Whether `size` bytes, at least one, from a place on are neighbouring boxes of the file, none of them barred: they
   start where a box ends, as the first box is barred. */
static bool are_whole_boxes(const struct partial *partial, uint64_t place, uint64_t size)
{
    uint32_t before, last;

    if (place >= partial->length || size > partial->length - place)
        return false;
    before = box_that_ends(partial, place);
    last = box_that_ends(partial, place + size);
    return before != MOST_BOXES && last != MOST_BOXES && partial->barred[before] == partial->barred[last];
}

/* Whether a present chunk of at least one byte may lie there. */
static inline bool may_lie(struct partial *partial, uint8_t state, uint64_t place, uint64_t size)
{
    return in_one_pdat(partial, place, size) || (partial->mixed && state == GOOD && are_whole_boxes(partial, place, size));
}

/* The entries of a `ploc`: their bytes and the widths of their fields. */
struct entries {
    const uint8_t *at, *end;
    unsigned length_size, offset_size;
};

/* The state that a flag byte without a reserved bit tells by its two others. */
static inline uint8_t state_of(uint8_t flags)
{
    static const uint8_t states[] = {[0] = ELSEWHERE, [PRESENT >> 6] = GOOD, [CORRUPTED >> 6] = LOST, [(CORRUPTED | PRESENT) >> 6] = DAMAGED};

    return states[flags >> 6];
}

/* Reads the chunks of a segment; `*position` goes from the segment's offset to its end. */
static enum refusal read_entries(struct partial *partial, uint32_t number, struct entries entries, uint64_t *position)
{
    const uint8_t *at = entries.at, *file_end = partial->file + partial->length;
    const struct segment *segment = &partial->segment[number];
    struct chunk *chunk = &partial->chunk[segment->first];
    uint64_t start = *position;

    for (uint32_t index = 0; index < segment->chunk_count; index++) {
        if (at == entries.end)
            return BAD_PLOC;
        uint8_t flags = *at++;
        if (flags & RESERVED)
            return RESERVED_BIT;
        unsigned rest = entries.length_size + (flags & PRESENT ? entries.offset_size : 0);
        if (entries.end - at < (ptrdiff_t)rest)
            return BAD_PLOC;
        uint64_t size = field(at, file_end, entries.length_size);
        if (size > MOST_POSITION - start)
            return POSITION_OVER_LIMIT;
        uint64_t place = 0;
        if (flags & PRESENT && size > 0) {
            place = segment->place + signed_field(at + entries.length_size, file_end, entries.offset_size);
            if (!may_lie(partial, state_of(flags), place, size))
                return MAY_NOT_LIE_THERE;
        }
        *chunk++ = (struct chunk){start, size, (file_place)place, (uint16_t)index, (uint8_t)number, state_of(flags)};
        at += rest;
        start += size;
    }
    *position = start;
    return at == entries.end ? ACCEPTED : BAD_PLOC;
}

/* Reads the `ploc` of a segment, and finds the segment's end. */
static enum refusal read_ploc(struct partial *partial, uint32_t number, const struct box *ploc, uint64_t *end)
{
    const uint8_t *body = partial->file + ploc->body;
    struct segment *segment = &partial->segment[number];
    struct entries entries;

    if (ploc->end - ploc->body < 9 || load32(body) != 0)
        return BAD_PLOC;
    entries = (struct entries){body + 9, partial->file + ploc->end, body[4] >> 4, body[4] & 15};
    if (entries.length_size > 8 || entries.offset_size > 8)
        return WIDTH_OVER_EIGHT;
    if (body[5] != 0 || body[6] != 0)
        return DATA_REFERENCE;
    segment->chunk_count = (uint32_t)body[7] << 8 | body[8];
    if (segment->chunk_count > VRAZHUPA_CHUNKS - partial->chunk_count)
        return TOO_MANY_CHUNKS;
    if (segment->offset > MOST_POSITION)
        return POSITION_OVER_LIMIT;
    segment->first = partial->chunk_count;
    partial->chunk_count += segment->chunk_count;
    *end = segment->offset;
    return read_entries(partial, number, entries, end);
}

enum refusal plain_read_segment(struct partial *partial, uint32_t number, uint64_t *end)
{
    struct box ploc = {0, 0, 0, 0};
    enum refusal refusal = read_pseg_boxes(partial, &partial->segment[number], &ploc);

    return refusal == ACCEPTED ? read_ploc(partial, number, &ploc, end) : refusal;
}

void plain_join_source(struct partial *partial, uint32_t number, uint64_t end)
{
    struct segment *segment = &partial->segment[number];
    struct source *source;

    segment->source = plain_number_of(partial, plain_surls_of(partial, segment));
    source = &partial->source[segment->source];
    if (segment->source == partial->source_count) {
        *source = (struct source){number, SIZE_UNKNOWN, 0};
        partial->source_count++;
    }
    if (end > source->described)
        source->described = end;
    if (segment->flags & LAST_SEGMENT && segment->chunk_count > 0 && end < source->size)
        source->size = end;
}

static enum refusal read_segments(struct partial *partial)
{
    for (uint32_t number = 0; number < partial->segment_count; number++) {
        uint64_t end = 0;
        enum refusal refusal = plain_read_segment(partial, number, &end);
        if (refusal != ACCEPTED)
            return refusal;
        plain_join_source(partial, number, end);
    }
    return ACCEPTED;
}

/* Judges the sizes of each source, and how many sources there are. Of two sizes that differ, the larger is a segment end
   above the least. */
static enum refusal check_sources(const struct partial *partial)
{
    for (uint32_t i = 0; i < partial->source_count; i++)
        if (partial->source[i].described > partial->source[i].size)
            return SIZES_DISAGREE;
    return partial->source_count > VRAZHUPA_SOURCES ? TOO_MANY_SOURCES : ACCEPTED;
}

enum refusal plain_open(const uint8_t *file, size_t file_length, struct partial *partial)
{
    if (file_length > VRAZHUPA_FILE)
        return FILE_OVER_LIMIT;
    partial->file = file;
    partial->length = (uint32_t)file_length;
    partial->pdat_count = partial->segment_count = partial->chunk_count = partial->source_count = 0;
    partial->surls = (struct surls){.formed = true};
    partial->index.count = partial->indexes = 0;
    partial->index_rows = 0;
    partial->nearest = 0;
    return ACCEPTED;
}

enum refusal plain_read_first_two(struct partial *partial, const struct box boxes[2])
{
    struct opening opening = {boxes[0], boxes[1], 0, 0};
    enum refusal refusal;

    for (int i = 0; i < 2; i++) {
        opening.ftyps += boxes[i].type == FTYP;
        opening.pfils += boxes[i].type == PFIL;
    }
    refusal = check_opening(partial, &opening);
    return refusal == ACCEPTED ? read_pfil(partial, &opening.second) : refusal;
}

enum refusal plain_heading(const uint8_t *file, size_t file_length, struct partial *partial)
{
    struct opening opening = {{0, 0, 0, 0}, {0, 0, 0, 0}, 0, 0};
    enum refusal refusal = plain_open(file, file_length, partial);

    if (refusal == ACCEPTED)
        refusal = read_file_boxes(partial, &opening);
    if (refusal == ACCEPTED)
        refusal = check_opening(partial, &opening);
    if (refusal == ACCEPTED)
        refusal = read_pfil(partial, &opening.second);
    return refusal;
}

enum refusal plain_read(const uint8_t *file, size_t file_length, struct partial *partial)
{
    enum refusal refusal = plain_heading(file, file_length, partial);

    if (refusal != ACCEPTED)
        return refusal;
    if (partial->segment_count == 0)
        return NO_PSEG;
    if (partial->segment_count > VRAZHUPA_SEGMENTS)
        return TOO_MANY_SEGMENTS;
    refusal = read_segments(partial);
    if (refusal == ACCEPTED)
        refusal = check_sources(partial);
    if (refusal != ACCEPTED || partial->indexes == 0)
        return refusal;
    return plain_judge_indexes(partial, plain_source(partial, plain_number_of_pfil(partial)).size, &partial->index_rows);
}
