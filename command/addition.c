/* What append is asked to add, by the words of the command. */
#include "addition.h"

#include "say.h"
#include "times.h"
#include "vrazhupa.h"

/* What is given before a chunk and is of it. */
struct ahead {
    bool placed, sized;
    uint64_t at, size;
};

/* The state of the chunk that an option names, -1 where it names none. */
static int state_by(const char *option)
{
    return is(option, "--lost")        ? VRAZHUPA_LOST
           : is(option, "--damaged")   ? VRAZHUPA_DAMAGED
           : is(option, "--good")      ? VRAZHUPA_GOOD
           : is(option, "--elsewhere") ? VRAZHUPA_ELSEWHERE
                                       : -1;
}

/* Adds a chunk, by its option; false where the option names none. */
static bool take_chunk(struct addition *addition, struct ahead *ahead, const char *option, struct words *words)
{
    struct chunk chunk = {.state = state_by(option), .placed = ahead->placed, .at = ahead->at, .sized = ahead->sized, .wanted = ahead->size};
    if (chunk.state < 0) {
        return false;
    }
    if (chunk.state == VRAZHUPA_GOOD || chunk.state == VRAZHUPA_DAMAGED) {
        chunk.data = value_of(words);
    } else {
        chunk.size = number_in(value_of(words));
        if (chunk.sized) {
            misused("--size is for data", option);
        }
    }
    addition->chunks[addition->count++] = chunk;
    *ahead = (struct ahead){.placed = false};
    return true;
}

/* An option that is given before a chunk; false where it is none. */
static bool take_ahead(struct ahead *ahead, const char *option, struct words *words)
{
    if (is(option, "--at")) {
        once(&ahead->placed, option);
        ahead->at = number_in(value_of(words));
    } else if (is(option, "--size")) {
        once(&ahead->sized, option);
        ahead->size = number_in(value_of(words));
    } else {
        return false;
    }
    return true;
}

/* An option that says what source the segment is of; false where it is none. */
static bool take_surl(struct addition *addition, const char *option, struct words *words)
{
    if (is(option, "--url")) {
        addition->surls[addition->surl_count++] = (struct surl){value_of(words), "", false};
    } else if (is(option, "--mime") && addition->surl_count == 0) {
        misused("no --url is before it", option);
    } else if (is(option, "--mime")) {
        struct surl *surl = &addition->surls[addition->surl_count - 1];
        once(&surl->typed, option);
        surl->mime = value_of(words);
    } else {
        return take_source(&addition->meant, option, words);
    }
    return true;
}

/* An option of the segment; one that there is not is a wrong use. */
static void take_option(struct addition *addition, bool *offset, bool *time, const char *option, struct words *words)
{
    if (is(option, "--offset")) {
        once(offset, option);
        addition->offset = number_in(value_of(words));
    } else if (is(option, "--time")) {
        once(time, option);
        addition->time = time_in(value_of(words));
    } else if (is(option, "--last")) {
        once(&addition->last, option);
    } else if (is(option, "--outside")) {
        once(&addition->outside, option);
    } else if (is(option, "--open")) {
        once(&addition->open, option);
    } else if (is(option, "--no-wait")) {
        do_not_wait();
    } else {
        misused("not an option", option);
    }
}

/* Holds the words against each other. Where no offset is given, the place of the first chunk is it. */
static void settle(struct addition *addition, const struct ahead *ahead, bool offset)
{
    if (ahead->placed || ahead->sized) {
        misused("no chunk follows", ahead->placed ? "--at" : "--size");
    }
    if (addition->meant.named && addition->surl_count > 0) {
        misused("--source and --url are at odds", NULL);
    }
    if (addition->open == (addition->count > 0)) {
        misused(addition->open ? "--open is for a segment without chunks" : "no chunk is given", NULL);
    }
    if (!offset && (addition->open || !addition->chunks[0].placed)) {
        misused("no --offset is given", NULL);
    }
    if (!offset) {
        addition->offset = addition->chunks[0].at;
    }
}

struct addition addition_in(struct words *words)
{
    size_t most = (size_t)(words->end - words->next);
    struct addition addition = {.chunks = lend(most * sizeof(struct chunk)), .surls = lend(most * sizeof(struct surl))};
    struct ahead ahead = {.placed = false};
    bool offset = false, time = false;
    for (const char *option; (option = next_option(words)) != NULL;) {
        if (!take_chunk(&addition, &ahead, option, words) && !take_ahead(&ahead, option, words) && !take_surl(&addition, option, words)) {
            take_option(&addition, &offset, &time, option, words);
        }
    }
    operands_are(words, 1, 1);
    settle(&addition, &ahead, offset);
    addition.file = words->operands[0];
    return addition;
}
