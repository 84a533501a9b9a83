/* What there is to know of a partial file. */
#ifndef FACTS_H
#define FACTS_H

#include "heading.h"
#include "sources.h"

struct facts {
    const char *name;
    const char *why; /* why it could not be opened; nothing else is told then */
    uint64_t bytes;
    uint64_t boxes;
    uint64_t refusal; /* 12 where it was only begun: it has no segment and no film yet */
    bool headed;      /* the heading is told, of a file that is accepted or only begun */
    struct heading heading;
    struct held held;
    uint64_t segments, chunks;
    uint64_t indexed, whole; /* boxes of the film in its index, and those of them that are served whole */
    struct sources sources;
};

/* The facts of a file, which is held until they are let go. */
void gather(struct facts *facts, const char *name);

/* Whether it is refused; one that was only begun is not. */
bool is_refused(const struct facts *facts);

#endif
