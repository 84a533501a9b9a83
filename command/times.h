/* Times of repair: 64-bit NTP timestamps (RFC 5905), the seconds since 1900 in the upper half, of which 0 says that
   the time is not known. */
#ifndef TIMES_H
#define TIMES_H

#include <stdbool.h>
#include <stdint.h>

enum { TIME_TEXT = 32 };

/* The timestamp of `now`, of a time as 2026-11-16T03:00:00Z, or of the number itself; another word is a wrong use. */
uint64_t time_in(const char *word);

/* A timestamp as such a time, cut to the second, or as `unknown`. */
void put_time(char text[TIME_TEXT], uint64_t timestamp);

#endif
