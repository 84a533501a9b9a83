/* The calls of the implementation that this file is linked with, under the name that the build gives (WHOSE). */
#include "calls.h"

const struct calls WHOSE = {vrazhupa_read, vrazhupa_serve, vrazhupa_ask, vrazhupa_list, vrazhupa_index, vrazhupa_map, vrazhupa_missmap, vrazhupa_begin,
                            vrazhupa_append};
