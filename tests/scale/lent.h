/* Memory that is lent to a call: marked all over and around beforehand, and compared or summed up to the last byte
   afterwards. */
#ifndef LENT_H
#define LENT_H

#include "stream.h"

#include <stdbool.h>
#include <stddef.h>
#include <stdint.h>

/* How memory is lent. The low bits shift bytes to an odd address; NOWHERE gives no address where the length is 0;
   AT_END lends the last bytes before a page that nobody may read or write, so that a call which reads past its memory
   is seen too. */
enum { SHIFT = 7, NOWHERE = 8, AT_END = 16 };

/* `at` is what the call is given, `start` the same unless nothing is lent; `length` is in elements of `width` bytes.
   Zeros are lent without marks, where nobody may write. */
struct lent {
    uint8_t *area;
    size_t capacity;
    void *zeros;
    uint8_t *start;
    uint8_t *at;
    size_t length;
    size_t width;
    size_t behind;
};

void lend(struct lent *lent, size_t width, const struct memory *memory, unsigned how);
uint64_t *numbers_of(const struct lent *lent);

/* Whether all of a memory is as it must be; prints what is not, each line opened with `who` and the memory's name. */
bool as_wanted(const struct lent *lent, const struct block *after, const char *who, const char *name);

/* A sum over each byte of a memory and the marks around it; 0 for zeros, which nobody could change. */
uint64_t sum_of(const struct lent *lent);

#endif
