/* What there is to know of a partial file, as one line of JSON. */
#ifndef LINE_H
#define LINE_H

#include "facts.h"

void put_line(const struct facts *facts);

#endif
