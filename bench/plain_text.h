/* The pieces that the texts of a file are written from: words, numbers and the line of a refusal. */
#ifndef PLAIN_TEXT_H
#define PLAIN_TEXT_H

#include "plain.h"

#include <string.h>

/* How many digits a place or a position has, thirteen at most. */
static inline size_t digits(uint64_t number)
{
    static const uint64_t powers[12] = {10, 100, 1000, 10000, 100000, 1000000, 10000000, 100000000, 1000000000, 10000000000, 100000000000, 1000000000000};
    size_t count = 1;

    for (int i = 0; i < 12; i++)
        count += number >= powers[i];
    return count;
}

static inline uint8_t *put_text(uint8_t *at, const char *text, size_t length)
{
    memcpy(at, text, length);
    return at + length;
}

/* Writes a number, two digits at a time from its end, and the byte that closes its field. */
static inline uint8_t *put_number(uint8_t *at, uint64_t number, char closing)
{
    static const char pairs[] = "00010203040506070809101112131415161718192021222324252627282930313233343536373839404142434445464748"
                                "4950515253545556575859606162636465666768697071727374757677787980818283848586878889909192939495969798"
                                "99";
    uint8_t *end = at + digits(number), *digit = end;

    while (number >= 10) {
        digit -= 2;
        memcpy(digit, pairs + 2 * (number % 100), 2);
        number /= 100;
    }
    if (digit > at)
        *--digit = (uint8_t)('0' + number);
    *end = (uint8_t)closing;
    return end + 1;
}

static inline size_t refusal_length(enum refusal refusal)
{
    return sizeof "refused\t\n" - 1 + digits(refusal);
}

static inline uint8_t *put_refusal(uint8_t *at, enum refusal refusal)
{
    return put_number(put_text(at, "refused\t", 8), refusal, '\n');
}

#endif
