/* The stream that the comparison reads: blocks of bytes, which are held, and calls with what must come of them.
   tests/scale_stream.py writes it. */
#ifndef STREAM_H
#define STREAM_H

#include <stdbool.h>
#include <stddef.h>
#include <stdint.h>

/* The most that one call is given: numbers, memories, and numbers that it tells. */
enum { NUMBERS = 5, MEMORIES = 5, TOLD = 7 };

/* `zeros` is a block of zeros that has no bytes here, as it may be larger than memory is. */
struct block {
    uint8_t *bytes;
    size_t length;
    size_t capacity;
    bool zeros;
};

/* A memory to lend: its length in elements, the bytes it starts with and those it must start with afterwards. */
struct memory {
    size_t length;
    const struct block *before;
    const struct block *after;
};

/* `told` is empty where the call must be refused. */
struct call {
    uint64_t answer;
    uint64_t numbers[NUMBERS];
    struct memory memories[MEMORIES];
    struct block told;
    unsigned how;
};

/* How many numbers and memories a kind of call takes, which the stream does not repeat. */
struct takes {
    size_t numbers;
    size_t memories;
};

/* All of these end the program with status 2 where the stream ends first or makes no sense. */
uint8_t take_byte(void);
uint64_t take_number(void);
void take_block(void);
void take_zeros(void);
void take_call(struct takes takes, struct call *call);
_Noreturn void give_up(const char *why);

#endif
