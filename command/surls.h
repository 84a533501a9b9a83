/* The `surl` boxes that an addition is written with, which say of what source it is. */
#ifndef SURLS_H
#define SURLS_H

#include "addition.h"

/* Their texts as the library takes them: the bytes of all, and how many each has, URL and MIME by turns. */
struct surls {
    uint8_t *texts;
    size_t texts_length;
    uint64_t *lengths;
    size_t lengths_length;
};

/* Those that the words have, or those of the source that is meant in the file; none where an addition goes to the URLs
   that the file was begun with. A refusal of the file, and a wrong use, ends the command. */
struct surls surls_of(const struct addition *addition, struct bytes file);

/* How many bytes the boxes take. */
size_t room_of(const struct surls *surls);

#endif
