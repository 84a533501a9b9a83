/* Judges the box indexes of a file, and tells of each box that they index where it lies in the source and how many of
   its bytes are served. */
#include "plain.h"

enum { LEVELS = 8 };

/* A walk over the indexes of a file: what it has met, and where rows are wanted, where the next one goes and which
   ranges the file has of each source. */
struct walk {
    const uint8_t *file;
    uint64_t rows;
    bool ninth, unknown; /* a box of a ninth level, and one whose end is not known */
    uint64_t *row;
    const struct covered *had;
    uint32_t source; /* of the index that it is in */
};

/* A list of boxes, the level of those that it indexes, and their source positions: from the first one on and up to
   `end`, which is SIZE_UNKNOWN where that is not known. */
struct list {
    struct container in;
    unsigned level;
    source_position position, end;
};

/* A box as its `bidx` states it; a size of 0 where it runs to the end of the box around it. */
struct indexed {
    uint32_t type, header_size;
    uint64_t size;
};

/* What else is in the list of a `bidx`. */
struct inside {
    uint32_t boxes;       /* that it indexes */
    uint32_t front_parts; /* and the length of the last one */
    uint32_t front;
};

/* Reads the fields of a `bidx`; false where they are cut or the size is under its header. */
static bool read_indexed(const uint8_t *file, const struct box *bidx, struct indexed *indexed)
{
    const uint8_t *body = file + bidx->body;
    uint32_t length = bidx->end - bidx->body;
    bool large;

    if (length < 8)
        return false;
    indexed->size = load32(body);
    indexed->type = load32(body + 4);
    large = indexed->size == 1;
    indexed->header_size = (large ? 16u : 8u) + (indexed->type == UUID ? (uint32_t)USER_TYPE : 0);
    if (length < indexed->header_size)
        return false;
    if (large)
        indexed->size = load64(body + 8);
    return indexed->size >= indexed->header_size || (indexed->size == 0 && !large);
}

/* Frames the list of a `bidx`; false where that has a fault. */
static bool look_inside(const uint8_t *file, struct container in, struct inside *inside)
{
    *inside = (struct inside){0, 0, 0};
    while (in.place < in.end) {
        struct box box;
        if (next_box(file, &in, &box) != ACCEPTED)
            return false;
        if (box.type == BIDX) {
            inside->boxes++;
        } else if (box.type == FRPA) {
            inside->front_parts++;
            inside->front = box.end - box.body;
        }
    }
    return inside->front_parts <= 1;
}

/* Finds the end of a box at the position of its list; false where it is too near or over the limit. */
static bool find_end(const struct indexed *indexed, const struct list *list, source_position *end)
{
    if (indexed->size == 0) {
        *end = list->end;
        return list->end == SIZE_UNKNOWN || (list->end >= list->position && list->end - list->position >= indexed->header_size);
    }
    if (list->position > MOST_POSITION || indexed->size > MOST_POSITION - list->position)
        return false;
    *end = list->position + indexed->size;
    return true;
}

/* How many of some positions are served: all that are lie in one range, as ranges never touch. */
static uint64_t how_many_served(const struct ranges *had, source_position first, source_position end)
{
    uint32_t low = 0, high = had->count;

    while (low < high) {
        uint32_t middle = low + (high - low) / 2;
        if (had->range[middle].end <= first)
            low = middle + 1;
        else
            high = middle;
    }
    if (low == had->count || had->range[low].first >= end)
        return VRAZHUPA_NONE;
    return had->range[low].first <= first && end <= had->range[low].end ? VRAZHUPA_ALL : VRAZHUPA_SOME;
}

/* Counts a box that is met, and fills its row where rows are wanted. */
static void meet(struct walk *walk, const struct indexed *indexed, const struct list *list, source_position end)
{
    walk->rows++;
    if (end == SIZE_UNKNOWN)
        walk->unknown = true;
    if (walk->row == NULL)
        return;
    walk->row[0] = list->level;
    walk->row[1] = list->position;
    walk->row[2] = end - list->position;
    walk->row[3] = indexed->type;
    walk->row[4] = how_many_served(&walk->had->of[walk->source], list->position, end);
    walk->row += VRAZHUPA_INDEX_ROW;
}

static bool walk_list(struct walk *walk, struct list list);

/* Walks over a box and the list inside it; false where either has a fault. */
static bool walk_box(struct walk *walk, const struct box *bidx, const struct list *list, source_position *end)
{
    struct indexed indexed;
    struct inside inside;
    struct list inner = {{0, bidx->end, 0}, list->level + 1, list->position, SIZE_UNKNOWN};

    if (!read_indexed(walk->file, bidx, &indexed) || !find_end(&indexed, list, end))
        return false;
    inner.in.place = bidx->body + indexed.header_size;
    if (!look_inside(walk->file, inner.in, &inside))
        return false;
    meet(walk, &indexed, list, *end);
    if (inside.boxes == 0)
        return true;
    if (list->level == LEVELS) {
        walk->ninth = true;
        return true;
    }
    inner.position += indexed.header_size + inside.front;
    inner.end = *end;
    return walk_list(walk, inner);
}

/* Walks over the boxes of a list that has some; false where one has a fault, follows one that runs to the end, or the
   last does not end where the box around them does. */
static bool walk_list(struct walk *walk, struct list list)
{
    bool at_end = false;

    while (list.in.place < list.in.end) {
        struct box box;
        source_position end;
        if (next_box(walk->file, &list.in, &box) != ACCEPTED)
            return false;
        if (box.type != BIDX)
            continue;
        if (at_end || !walk_box(walk, &box, &list, &end))
            return false;
        at_end = load32(walk->file + box.body) == 0;
        list.position = end;
    }
    return list.level == 1 || list.end == SIZE_UNKNOWN || list.position == list.end;
}

/* Walks over the index of a `pfil` or a `pseg`, if it has one. */
static bool walk_index(struct walk *walk, const struct index *index, source_position start, uint64_t size)
{
    struct container in = {index->body.place, index->body.place + index->body.length, 0};

    if (index->count == 0)
        return true;
    return index->count == 1 && walk_list(walk, (struct list){in, 1, start, size});
}

/* Walks over the indexes, that of `pfil` first, each with the size of its own source. */
static bool walk_indexes(struct walk *walk, const struct partial *partial, uint64_t pfil_size)
{
    walk->source = plain_number_of_pfil(partial);
    if (!walk_index(walk, &partial->index, 0, pfil_size))
        return false;
    for (uint32_t i = 0; i < partial->segment_count; i++) {
        const struct segment *segment = &partial->segment[i];
        walk->source = segment->source;
        if (!walk_index(walk, &segment->index, segment->offset, partial->source[segment->source].size))
            return false;
    }
    return true;
}

enum refusal plain_judge_indexes(const struct partial *partial, uint64_t pfil_size, uint64_t *rows)
{
    struct walk walk = {.file = partial->file};

    if (!walk_indexes(&walk, partial, pfil_size))
        return BAD_INDEX;
    if (walk.ninth)
        return NINTH_LEVEL;
    if (partial->index.count > 0 && partial->indexes > partial->index.count)
        return INDEXES_IN_BOTH;
    if (walk.unknown)
        return END_UNKNOWN;
    *rows = walk.rows;
    return ACCEPTED;
}

uint64_t vrazhupa_index(const uint8_t *file, size_t file_length, uint64_t *table, size_t table_length, uint64_t told[1])
{
    struct partial partial;
    enum refusal refusal = plain_read(file, file_length, &partial);

    if (refusal != ACCEPTED)
        return refusal;
    if (table_length / VRAZHUPA_INDEX_ROW < partial.index_rows)
        return TABLE_TOO_SHORT;
    if (partial.index_rows > 0) {
        struct covered had;
        struct walk walk = {.file = file, .row = table, .had = &had};
        plain_find_all_covered(&partial, GOOD, &had);
        walk_indexes(&walk, &partial, plain_source(&partial, plain_number_of_pfil(&partial)).size);
    }
    told[0] = partial.index_rows;
    return ACCEPTED;
}
