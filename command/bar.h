/* The film as a bar of one line. */
#ifndef BAR_H
#define BAR_H

#include <stddef.h>
#include <stdint.h>

/* The class of each range of a map, as one bit. */
enum { RECEIVED = 1, HELD = 2, LOST = 4 };

struct range {
    unsigned class;
    uint64_t first;
    uint64_t length;
};

/* Prints the ranges of a film, which follow each other from 0 on, as one line as wide as the terminal. */
void put_bar(const struct range *ranges, size_t count);

#endif
