/* The index of a partial file: a row for each box of the film that it tells of. */
#ifndef INDEX_H
#define INDEX_H

#include <stdbool.h>

/* A line a row, or, as a tree, lines for a person. */
_Noreturn void show_index(const char *name, bool tree);

#endif
