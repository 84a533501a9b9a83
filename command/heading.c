/* The heading of a partial file, told by the library's call for it. */
#include "heading.h"

#include "vrazhupa.h"

bool heading_of(struct bytes file, struct heading *heading)
{
    uint64_t told[7];
    if (vrazhupa_heading(file.at, file.length, told) != 0) {
        return false;
    }
    *heading = (struct heading){told[0] == 1, {told[3], told[4]}, {told[5], told[6]}};
    return true;
}
