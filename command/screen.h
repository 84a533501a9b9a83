/* What there is to know of a partial file, on one screen. */
#ifndef SCREEN_H
#define SCREEN_H

#include "facts.h"

void put_screen(const struct facts *facts);

#endif
