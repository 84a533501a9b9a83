/* Lends memory with marks and canaries, and compares it or sums it up. */
#include "lent.h"

#include <inttypes.h>
#include <stdio.h>
#include <stdlib.h>
#include <string.h>
#include <sys/mman.h>

enum { CANARY = 64, PAGE = 4096, MARKS = 251 };

/* The sum is that of Fowler, Noll and Vo. */
#define FIRST_SUM UINT64_C(14695981039346656037)
#define SUM_FACTOR UINT64_C(1099511628211)

/* The marks from the first byte before a memory on: never a small byte, and no period that rows or fields have. */
static uint8_t *marks;
static size_t marks_length;

static void hold_marks(size_t length)
{
    if (length <= marks_length) {
        return;
    }
    free(marks);
    marks = malloc(length);
    if (marks == NULL) {
        give_up("no memory for the marks");
    }
    marks_length = length;
    for (size_t at = 0; at < length; at++) {
        marks[at] = (uint8_t)(255 - at % MARKS);
    }
}

/* Whole pages, and one behind them that nobody may touch. */
static void hold_area(struct lent *lent, size_t needed)
{
    if (needed <= lent->capacity) {
        return;
    }
    if (lent->area != NULL) {
        munmap(lent->area, lent->capacity + PAGE);
    }
    size_t capacity = (2 * needed + PAGE - 1) / PAGE * PAGE;
    void *area = mmap(NULL, capacity + PAGE, PROT_READ | PROT_WRITE, MAP_PRIVATE | MAP_ANONYMOUS, -1, 0);
    if (area == MAP_FAILED || mprotect((uint8_t *)area + capacity, PAGE, PROT_NONE) != 0) {
        give_up("no memory to lend");
    }
    lent->area = area;
    lent->capacity = capacity;
}

static void lend_zeros(struct lent *lent, size_t bytes)
{
    void *zeros = mmap(NULL, bytes, PROT_READ, MAP_PRIVATE | MAP_ANONYMOUS | MAP_NORESERVE, -1, 0);
    if (zeros == MAP_FAILED) {
        give_up("no zeros to lend");
    }
    lent->zeros = zeros;
    lent->at = lent->start = zeros;
}

static void take_zeros_back(struct lent *lent)
{
    if (lent->zeros != NULL) {
        munmap(lent->zeros, lent->length * lent->width);
        lent->zeros = NULL;
    }
}

static void lend_marked(struct lent *lent, size_t bytes, const struct block *before, unsigned how)
{
    size_t shift = lent->width == 1 ? how & SHIFT : 0;
    size_t needed = CANARY + shift + bytes + CANARY;
    hold_area(lent, needed);
    hold_marks(needed);
    bool at_end = (how & AT_END) != 0;
    lent->start = at_end ? lent->area + lent->capacity - bytes : lent->area + CANARY + shift;
    lent->at = bytes == 0 && (how & NOWHERE) != 0 ? NULL : lent->start;
    lent->behind = at_end ? 0 : CANARY;
    memcpy(lent->start - CANARY, marks, CANARY + bytes + lent->behind);
    if (before->length > 0) {
        memcpy(lent->start, before->bytes, before->length);
    }
}

void lend(struct lent *lent, size_t width, const struct memory *memory, unsigned how)
{
    const struct block *before = memory->before;
    size_t bytes = width * memory->length;
    if (before->length > bytes || memory->after->length > bytes) {
        give_up("more bytes than are lent");
    }
    if (before->zeros != memory->after->zeros || (before->zeros && before->length != bytes)) {
        give_up("zeros that are to change");
    }
    take_zeros_back(lent);
    lent->length = memory->length;
    lent->width = width;
    if (before->zeros) {
        lend_zeros(lent, bytes);
    } else {
        lend_marked(lent, bytes, before, how);
    }
}

uint64_t *numbers_of(const struct lent *lent)
{
    return (uint64_t *)(void *)lent->at;
}

static void say_number(const struct lent *lent, size_t index, const uint8_t *wanted_bytes, const char *who, const char *name)
{
    uint64_t found = 0;
    uint64_t wanted = 0;
    memcpy(&found, lent->start + index * sizeof found, sizeof found);
    memcpy(&wanted, wanted_bytes + index * sizeof wanted, sizeof wanted);
    printf("%s: %s: number %zu of %zu is %" PRIu64 ", wanted %" PRIu64 "\n", who, name, index, lent->length, found, wanted);
}

/* Compares the bytes from one place of a memory to another; `wanted` is what should stand at its start. Says the first
   that differs. */
static bool same(const struct lent *lent, ptrdiff_t from, ptrdiff_t to, const uint8_t *wanted, const char *who, const char *name)
{
    const uint8_t *found = lent->start;
    if (to <= from || memcmp(found + from, wanted + from, (size_t)(to - from)) == 0) {
        return true;
    }
    ptrdiff_t at = from;
    while (found[at] == wanted[at]) {
        at++;
    }
    size_t bytes = lent->length * lent->width;
    if (at < 0) {
        printf("%s: %s: %td bytes before it %02x, wanted the mark %02x\n", who, name, -at, found[at], wanted[at]);
    } else if ((size_t)at >= bytes) {
        printf("%s: %s: %td bytes behind its end %02x, wanted the mark %02x\n", who, name, at - (ptrdiff_t)bytes, found[at], wanted[at]);
    } else if (lent->width == sizeof(uint64_t)) {
        say_number(lent, (size_t)at / sizeof(uint64_t), wanted, who, name);
    } else {
        printf("%s: %s: byte %td of %zu is %02x, wanted %02x\n", who, name, at, bytes, found[at], wanted[at]);
    }
    return false;
}

bool as_wanted(const struct lent *lent, const struct block *after, const char *who, const char *name)
{
    if (lent->zeros != NULL) {
        return true;
    }
    const uint8_t *marked = marks + CANARY;
    ptrdiff_t front = (ptrdiff_t)after->length;
    ptrdiff_t bytes = (ptrdiff_t)(lent->length * lent->width);
    bool before = same(lent, -CANARY, 0, marked, who, name);
    bool first = same(lent, 0, front, after->bytes, who, name);
    bool rest = same(lent, front, bytes, marked, who, name);
    bool behind = same(lent, bytes, bytes + (ptrdiff_t)lent->behind, marked, who, name);
    return before && first && rest && behind;
}

uint64_t sum_of(const struct lent *lent)
{
    if (lent->zeros != NULL) {
        return 0;
    }
    uint64_t sum = FIRST_SUM;
    const uint8_t *end = lent->start + lent->length * lent->width + lent->behind;
    for (const uint8_t *at = lent->start - CANARY; at < end; at++) {
        sum = (sum ^ *at) * SUM_FACTOR;
    }
    return sum;
}
