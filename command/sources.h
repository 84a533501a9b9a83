/* The sources of a partial file, each a film of its own, and what there is to know of them. */
#ifndef SOURCES_H
#define SOURCES_H

#include "bar.h"
#include "tables.h"

/* A range of a map begins at 0 of its source, where a segment begins, or where a chunk ends. */
enum { RANGES = VRAZHUPA_SOURCES + VRAZHUPA_SEGMENTS + VRAZHUPA_CHUNKS };

/* The texts are parts of the file, by place and length. */
struct source {
    uint64_t url[2];
    uint64_t mime[2];
    uint64_t described;
    bool closed;
    uint64_t received, kept, lost;
    const struct range *ranges;
    size_t count;
};

struct sources {
    struct source each[VRAZHUPA_SOURCES];
    size_t count;
    struct range ranges[RANGES];
};

/* Gathers the sources of a file that is accepted. */
void gather_sources(struct sources *sources, struct bytes file);

/* Prints a line for each source; URLs in their percent form, or each byte of them that does not print as \xNN. */
_Noreturn void show_sources(const char *name, bool percent);

#endif
