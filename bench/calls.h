/* The calls of one implementation of the header, so that two can stand in one program. */
#ifndef CALLS_H
#define CALLS_H

#include "vrazhupa.h"

struct calls {
    __typeof__(&vrazhupa_read) read;
    __typeof__(&vrazhupa_serve) serve;
    __typeof__(&vrazhupa_ask) ask;
    __typeof__(&vrazhupa_list) list;
    __typeof__(&vrazhupa_index) index;
    __typeof__(&vrazhupa_map) map;
    __typeof__(&vrazhupa_missmap) missmap;
    __typeof__(&vrazhupa_begin) begin;
    __typeof__(&vrazhupa_append) append;
};

extern const struct calls proved, plain;

#endif
