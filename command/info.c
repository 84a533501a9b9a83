/* What there is to know of partial files, one after the other. */
#include "info.h"

#include "line.h"
#include "say.h"
#include "screen.h"

#include <stdio.h>

/* Prints what there is to know of one file; its status. */
static int show_one(const char *name, bool json)
{
    static struct facts facts;
    gather(&facts, name);
    if (json) {
        put_line(&facts);
    } else if (facts.why == NULL) {
        put_screen(&facts);
    }
    if (facts.why != NULL) {
        note(name, "%s", facts.why);
        return FAILED;
    }
    let_go(&facts.held);
    if (is_refused(&facts)) {
        say_why(name, facts.refusal);
        return REFUSED;
    }
    return DONE;
}

void show_info(char *const *names, size_t count, bool json)
{
    int status = DONE;
    for (size_t i = 0; i < count; i++) {
        if (i > 0 && !json) {
            printf("\n");
        }
        int one = show_one(names[i], json);
        status = one > status ? one : status;
    }
    end(status);
}
