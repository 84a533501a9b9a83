/* What append is asked to add: a segment with its chunks, by the words of the command, and then with their bytes. */
#ifndef ADDITION_H
#define ADDITION_H

#include "files.h"
#include "meant.h"
#include "words.h"

/* A chunk by its words: its state, and the name of what has its bytes or, where that is NULL, a size of which no
   byte is kept. */
struct chunk {
    int state;
    uint64_t size;
    const char *data;
    bool placed; /* by --at */
    uint64_t at;
    bool sized; /* by --size */
    uint64_t wanted;
};

/* The texts of a `surl` box to be written. */
struct surl {
    const char *url;
    const char *mime;
    bool typed; /* by --mime */
};

struct addition {
    const char *file;
    struct meant meant; /* the source that it goes to, where no `surl` says so */
    struct surl *surls;
    size_t surl_count;
    uint64_t offset;
    uint64_t time;
    bool last;
    bool outside; /* the good chunks as boxes of the file, not in its `pdat` */
    bool open;    /* no chunk */
    struct chunk *chunks;
    size_t count;
};

struct addition addition_in(struct words *words);

/* The chunks with what lies between them, as the library takes them: two numbers for each, and all bytes behind each
   other. */
struct pieces {
    size_t count;
    uint64_t *list;
    struct bytes *parts;
    const uint8_t *data;
    size_t total;
};
struct pieces pieces_of(const struct addition *addition);

#endif
