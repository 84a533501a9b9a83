/* Writes both maps of a file, the one that names damage and the one that does not, source after source, or the line of
   its refusal, as text into a lent buffer. */
#include "plain.h"
#include "plain_text.h"

/* What a position is: had, missing where a damaged chunk covers it, or missing otherwise. Where damage is not named no
   position is held. */
enum name { HAD, HELD, OTHERWISE, NAMES };

/* What a map says of a source; the damaged ranges are none where damage is not named. */
struct map {
    bool named, closed;
    uint64_t described;
    struct ranges good, damaged;
};

/* The maps of the sources of a file, in their order, and the ranges in them. */
struct maps {
    uint32_t count;
    struct map of[VRAZHUPA_SOURCES];
    struct covered good, damaged;
};

/* A walk over the ranges of a map: the position where the next one begins, and the first good and the first damaged
   range that end behind it. */
struct walk {
    source_position position, end;
    const struct range *good, *damaged;
};

static struct walk walk_over(const struct map *map)
{
    return (struct walk){0, map->described, map->good.range, map->damaged.range};
}

static source_position smaller(source_position a, source_position b)
{
    return a < b ? a : b;
}

/* Finds the range that begins at the position of a walk, which is not at its end, and steps over it. */
static enum name next_range(struct walk *walk, struct range *range)
{
    source_position position = walk->position, up_to = smaller(walk->good->first, walk->end);
    enum name name = OTHERWISE;

    while (walk->damaged->end <= position)
        walk->damaged++;
    if (walk->good->first == position) {
        name = HAD;
        up_to = walk->good++->end;
    } else if (walk->damaged->first <= position) {
        name = HELD;
        up_to = smaller(up_to, walk->damaged->end);
    } else {
        up_to = smaller(up_to, walk->damaged->first);
    }
    *range = (struct range){position, up_to};
    walk->position = up_to;
    return name;
}

/* A bound on the length of the text of a source: its lines are no longer than these, and a number has thirteen digits at most.
   Every range of good or damaged chunks makes two more at most. */
static size_t map_bound(const struct map *map)
{
    size_t number = 13, ranges = 2 * ((size_t)map->good.count + map->damaged.count) + 1;

    return sizeof "source\t\tclosed\n" + number + ranges * (sizeof "have\t\t\n" + 2 * number) + sizeof "total\t\t\t\n" + 3 * number;
}

/* The length of the last line. */
static size_t total_length(const struct map *map, const uint64_t totals[NAMES])
{
    size_t held = map->named ? sizeof "\t" - 1 + digits(totals[HELD]) : 0;

    return sizeof "total\t\t\n" - 1 + digits(totals[HAD]) + held + digits(totals[OTHERWISE]);
}

static size_t map_length(const struct map *map)
{
    size_t length = sizeof "source\t\t\n" - 1 + digits(map->described) + (map->closed ? 6 : 4);
    uint64_t totals[NAMES] = {0};
    struct range range;

    for (struct walk walk = walk_over(map); walk.position < walk.end;) {
        totals[next_range(&walk, &range)] += range.end - range.first;
        length += sizeof "have\t\t\n" - 1 + digits(range.first) + digits(range.end - range.first);
    }
    return length + total_length(map, totals);
}

static uint8_t *put_total(uint8_t *at, const struct map *map, const uint64_t totals[NAMES])
{
    at = put_text(at, "total\t", 6);
    at = put_number(at, totals[HAD], '\t');
    if (map->named)
        at = put_number(at, totals[HELD], '\t');
    return put_number(at, totals[OTHERWISE], '\n');
}

static uint8_t *put_map(uint8_t *at, const struct map *map)
{
    const char *words[NAMES] = {"have\t", "held\t", map->named ? "lost\t" : "miss\t"};
    uint64_t totals[NAMES] = {0};
    struct range range;

    at = put_text(at, "source\t", 7);
    at = put_number(at, map->described, '\t');
    at = map->closed ? put_text(at, "closed\n", 7) : put_text(at, "open\n", 5);
    for (struct walk walk = walk_over(map); walk.position < walk.end;) {
        enum name name = next_range(&walk, &range);
        at = put_text(at, words[name], 5);
        at = put_number(at, range.first, '\t');
        at = put_number(at, range.end - range.first, '\n');
        totals[name] += range.end - range.first;
    }
    return put_total(at, map, totals);
}

/* Whether a buffer holds the maps; the bound spares counting most of them out. */
static bool holds_maps(size_t buffer_length, const struct maps *maps)
{
    size_t bound = 0, length = 0;

    for (uint32_t i = 0; i < maps->count; i++)
        bound += map_bound(&maps->of[i]);
    if (buffer_length >= bound)
        return true;
    for (uint32_t i = 0; i < maps->count; i++)
        length += map_length(&maps->of[i]);
    return buffer_length >= length;
}

static enum refusal write_refusal(enum refusal refusal, uint8_t *buffer, size_t buffer_length, uint64_t told[1])
{
    if (buffer_length < refusal_length(refusal))
        return BUFFER_TOO_SHORT;
    told[0] = (uint64_t)(put_refusal(buffer, refusal) - buffer);
    return ACCEPTED;
}

/* The maps of an accepted file. */
static void find_maps(const struct partial *partial, bool named, struct maps *maps)
{
    static const struct range beyond = {(source_position)-1, (source_position)-1};

    maps->count = partial->source_count;
    plain_find_all_covered(partial, GOOD, &maps->good);
    if (named)
        plain_find_all_covered(partial, DAMAGED, &maps->damaged);
    for (uint32_t i = 0; i < maps->count; i++) {
        const struct source *source = &partial->source[i];
        struct ranges damaged = named ? maps->damaged.of[i] : (struct ranges){0, &beyond};
        maps->of[i] = (struct map){named, source->size != SIZE_UNKNOWN, source->described, maps->good.of[i], damaged};
    }
}

static uint64_t write_map(const uint8_t *file, size_t file_length, uint64_t most, bool named, uint8_t *buffer, size_t buffer_length, uint64_t told[1])
{
    struct partial partial;
    struct maps maps;
    uint8_t *at = buffer;
    enum refusal refusal = file_length > most ? INPUT_OVER_LIMIT : plain_read(file, file_length, &partial);

    if (refusal != ACCEPTED)
        return write_refusal(refusal, buffer, buffer_length, told);
    find_maps(&partial, named, &maps);
    if (!holds_maps(buffer_length, &maps))
        return BUFFER_TOO_SHORT;
    for (uint32_t i = 0; i < maps.count; i++)
        at = put_map(at, &maps.of[i]);
    told[0] = (uint64_t)(at - buffer);
    return ACCEPTED;
}

uint64_t vrazhupa_map(const uint8_t *file, size_t file_length, uint64_t most, uint8_t *buffer, size_t buffer_length, uint64_t told[1])
{
    return write_map(file, file_length, most, true, buffer, buffer_length, told);
}

uint64_t vrazhupa_missmap(const uint8_t *file, size_t file_length, uint64_t most, uint8_t *buffer, size_t buffer_length, uint64_t told[1])
{
    return write_map(file, file_length, most, false, buffer, buffer_length, told);
}
