/* A partial file is begun. */
#ifndef BEGIN_H
#define BEGIN_H

#include <stdbool.h>

_Noreturn void begin_file(const char *name, bool mixed, const char *url, const char *mime);

#endif
