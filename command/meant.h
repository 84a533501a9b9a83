/* Which source of a file is meant: the one that --source names, or, where it names none, the only one. */
#ifndef MEANT_H
#define MEANT_H

#include "words.h"

struct meant {
    bool named;
    uint64_t number;
};

/* Takes the option --source; false where another one was met. */
bool take_source(struct meant *meant, const char *option, struct words *words);

/* The number of the source that is meant in the file whose tables are read. A wrong use ends the command: none is named
   and there are several, or the one that is named is not there. */
uint64_t source_meant(const struct meant *meant, const char *file);

#endif
