/* What there is to know of a partial file, gathered by the calls of the library. */
#include "facts.h"

/* How many boxes the index tells of, and how many of these are whole. */
static void gather_index(struct facts *facts)
{
    facts->indexed = read_index(facts->held.bytes) == 0 ? indexed.count : 0;
    for (uint64_t i = 0; i < facts->indexed; i++) {
        facts->whole += indexed.rows[i * VRAZHUPA_INDEX_ROW + INDEX_SERVED] == VRAZHUPA_ALL;
    }
}

void gather(struct facts *facts, const char *name)
{
    *facts = (struct facts){.name = name, .held = hold(name)};
    facts->why = facts->held.why;
    if (facts->why != NULL) {
        return;
    }
    facts->bytes = facts->held.bytes.length;
    facts->boxes = boxes_of(facts->held.bytes);
    facts->refusal = read_tables(facts->held.bytes, 0);
    if (facts->refusal == 0 || facts->refusal == VRAZHUPA_NO_SEGMENT) {
        facts->headed = heading_of(facts->held.bytes, &facts->heading);
    }
    if (facts->refusal == 0) {
        facts->segments = tables.segment_count;
        facts->chunks = tables.chunk_count;
        gather_sources(&facts->sources, facts->held.bytes);
        gather_index(facts);
    }
}

bool is_refused(const struct facts *facts)
{
    return facts->refusal != 0 && facts->refusal != VRAZHUPA_NO_SEGMENT;
}
