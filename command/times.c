/* Times of repair. */
#include "times.h"

#include "say.h"
#include "words.h"

#include <stdio.h>
#include <string.h>
#include <time.h>

/* Seconds from 1900 to 1970. Half an era on, the seconds of the next era are meant: the times lie from 1968 to 2104. */
static const int64_t TO_1970 = 2208988800, HALF_AN_ERA = INT64_C(1) << 31, ERA = INT64_C(1) << 32;

static uint64_t timestamp_of(int64_t seconds_of_1970, uint64_t nanoseconds)
{
    return (uint64_t)(seconds_of_1970 + TO_1970) << 32 | (nanoseconds << 32) / 1000000000;
}

void put_time(char text[TIME_TEXT], uint64_t timestamp)
{
    int64_t seconds = (int64_t)(timestamp >> 32);
    time_t when = (time_t)(seconds < HALF_AN_ERA ? seconds + ERA - TO_1970 : seconds - TO_1970);
    struct tm parts;
    if (timestamp == 0 || gmtime_r(&when, &parts) == NULL) {
        snprintf(text, TIME_TEXT, "unknown");
    } else {
        strftime(text, TIME_TEXT, "%Y-%m-%dT%H:%M:%SZ", &parts);
    }
}

/* The timestamp of a time in its parts; it is one where it is written in the same way again. */
static bool parsed(const char *word, uint64_t *timestamp)
{
    struct tm parts = {0};
    char again[TIME_TEXT];
    const char *rest = strptime(word, "%Y-%m-%dT%H:%M:%SZ", &parts);
    if (rest == NULL || *rest != '\0') {
        return false;
    }
    *timestamp = timestamp_of(timegm(&parts), 0);
    put_time(again, *timestamp);
    return strcmp(again, word) == 0;
}

uint64_t time_in(const char *word)
{
    uint64_t timestamp;
    if (strcmp(word, "now") == 0) {
        struct timespec now;
        clock_gettime(CLOCK_REALTIME, &now);
        return timestamp_of(now.tv_sec, (uint64_t)now.tv_nsec);
    }
    if (parsed(word, &timestamp)) {
        return timestamp;
    }
    if (word[strspn(word, "0123456789")] != '\0') {
        misused("not a time", word);
    }
    return number_in(word);
}
