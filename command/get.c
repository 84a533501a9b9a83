/* Bytes of the film that a partial file serves. What is said of it goes to standard error, as standard output may be
   the film. */
#include "get.h"

#include "say.h"
#include "tables.h"
#include "writes.h"

#include <errno.h>
#include <inttypes.h>
#include <stdio.h>
#include <stdlib.h>

enum { SEGMENTS_LENGTH = sizeof tables.segments / sizeof tables.segments[0], CHUNKS_LENGTH = sizeof tables.chunks / sizeof tables.chunks[0] };

/* How many positions from p on are served; a position that is not ends the command. */
static uint64_t served_from(const struct wanted *wanted, struct bytes file, uint64_t p)
{
    uint64_t told[2];
    uint64_t number = vrazhupa_ask(file.at, file.length, tables.segments, SEGMENTS_LENGTH, tables.chunks, CHUNKS_LENGTH, wanted->meant.number, p, told);
    if (number != 0) {
        refused_aside(wanted->file, number);
    }
    if (told[0] != VRAZHUPA_SERVED) {
        note(wanted->file, "position %" PRIu64 " %s", p, told[0] == VRAZHUPA_MISSING ? "is missing" : "is not below the described length");
        exit(REFUSED);
    }
    return told[1];
}

/* The part of the file that serves p and the positions after it, as long as one chunk supplies them, `most` of them
   at most. */
static struct bytes part_from(const struct wanted *wanted, struct bytes file, uint64_t p, uint64_t most)
{
    uint64_t told[2];
    uint64_t number = vrazhupa_serve(file.at, file.length, tables.segments, SEGMENTS_LENGTH, tables.chunks, CHUNKS_LENGTH, wanted->meant.number, p, told);
    if (number != 0) {
        refused_aside(wanted->file, number);
    }
    return (struct bytes){file.at + told[0], told[1] < most ? told[1] : most};
}

/* Why bytes of a file could not be written, and where: a page that is not there is the fault of the file that they
   are of. */
static const char *of_file(const char *file, const char *output, const char **why)
{
    *why = errno == EFAULT ? "It was cut short or could not be read" : NULL;
    return errno == EFAULT ? file : output;
}

static void put_to_output(const struct wanted *wanted, struct bytes file)
{
    for (uint64_t done = 0; done < wanted->length;) {
        struct bytes part = part_from(wanted, file, wanted->first + done, wanted->length - done);
        if (fwrite(part.at, 1, part.length, stdout) != part.length) {
            const char *why, *what = of_file(wanted->file, "standard output", &why);
            if (why != NULL) {
                failed_for(what, why);
            }
            failed(what);
        }
        done += part.length;
    }
}

static void put_to_new_file(const struct wanted *wanted, struct bytes file)
{
    struct new_file output = new_file(wanted->output);
    for (uint64_t done = 0; done < wanted->length;) {
        struct bytes part = part_from(wanted, file, wanted->first + done, wanted->length - done);
        if (write_at(output.fd, part.at, part.length, done) != 0) {
            const char *why, *what = of_file(wanted->file, wanted->output, &why);
            drop(&output, what, why);
        }
        done += part.length;
    }
    keep(&output);
}

/* The whole film, of which the end has to be known: what came of one that is still open is not all of it. */
static struct wanted whole_of(const struct wanted *wanted)
{
    if (!tables.closed) {
        note(wanted->file, "the end of the film is not known yet: name the first position and the length");
        exit(REFUSED);
    }
    return (struct wanted){wanted->file, wanted->meant, true, 0, tables.described, wanted->output};
}

void get_bytes(const struct wanted *asked)
{
    struct bytes file = map_locked(asked->file);
    uint64_t number = read_tables(file, asked->meant.number);
    if (number != 0) {
        refused_aside(asked->file, number);
    }
    source_meant(&asked->meant, asked->file);
    struct wanted wanted = asked->whole ? whole_of(asked) : *asked;
    /* All are asked for before the first is written, so that where one is missing nothing is. */
    for (uint64_t done = 0, run; done < wanted.length; done += run < wanted.length - done ? run : wanted.length - done) {
        run = served_from(&wanted, file, wanted.first + done);
    }
    (wanted.output == NULL ? put_to_output : put_to_new_file)(&wanted, file);
    end(DONE);
}
