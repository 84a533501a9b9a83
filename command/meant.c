/* Which source of a file is meant. */
#include "meant.h"

#include "say.h"
#include "tables.h"

#include <inttypes.h>
#include <stdio.h>

bool take_source(struct meant *meant, const char *option, struct words *words)
{
    if (!is(option, "--source")) {
        return false;
    }
    once(&meant->named, option);
    meant->number = number_in(value_of(words));
    return true;
}

/* Says what is wrong, and which sources there are. */
static _Noreturn void not_meant(const char *what, const char *file)
{
    char why[128];
    if (tables.source_count == 1) {
        snprintf(why, sizeof why, "%s; the only source is 0", what);
    } else {
        snprintf(why, sizeof why, "%s; the sources are 0 to %" PRIu64, what, tables.source_count - 1);
    }
    misused(why, file);
}

uint64_t source_meant(const struct meant *meant, const char *file)
{
    char what[64];
    if (!meant->named && tables.source_count > 1) {
        not_meant("no --source is given", file);
    }
    if (meant->named && meant->number >= tables.source_count) {
        snprintf(what, sizeof what, "there is no source %" PRIu64, meant->number);
        not_meant(what, file);
    }
    return meant->number;
}
