/* Bytes of the film that a partial file serves. */
#ifndef GET_H
#define GET_H

#include "meant.h"

/* Which bytes of which source of which file, and where they go: to standard output where `output` is NULL, and else to a new file. */
struct wanted {
    const char *file;
    struct meant meant;
    bool whole; /* the film from its begin to its end */
    uint64_t first;
    uint64_t length;
    const char *output;
};
_Noreturn void get_bytes(const struct wanted *wanted);

#endif
