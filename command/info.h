/* What there is to know of partial files, on one screen each, or as one line of JSON. */
#ifndef INFO_H
#define INFO_H

#include <stdbool.h>
#include <stddef.h>

_Noreturn void show_info(char *const *names, size_t count, bool json);

#endif
