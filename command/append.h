/* A segment is appended to a partial file. */
#ifndef APPEND_H
#define APPEND_H

#include "addition.h"

_Noreturn void append_segment(const struct addition *addition);

#endif
