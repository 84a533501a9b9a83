/* The heading of a partial file: whether it is mixed, and its texts, of one that was only begun too. */
#ifndef HEADING_H
#define HEADING_H

#include "files.h"

#include <stdbool.h>

/* The texts are parts of the file, by place and length. */
struct heading {
    bool mixed;
    uint64_t url[2];
    uint64_t mime[2];
};

/* The heading of a file; false where it is refused. */
bool heading_of(struct bytes file, struct heading *heading);

#endif
