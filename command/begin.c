/* A partial file is begun. */
#include "begin.h"

#include "files.h"
#include "say.h"
#include "vrazhupa.h"
#include "writes.h"

#include <string.h>

void begin_file(const char *name, bool mixed, const char *url, const char *mime)
{
    size_t url_length = strlen(url), mime_length = strlen(mime);
    size_t room = url_length + mime_length + VRAZHUPA_BEGUN;
    uint8_t *buffer = lend(room);
    uint64_t told[1];
    uint64_t number = vrazhupa_begin(buffer, room, mixed, (const uint8_t *)url, url_length, (const uint8_t *)mime, mime_length, told);
    if (number != 0) {
        refused(name, number);
    }
    struct new_file file = new_file(name);
    if (write_at(file.fd, buffer, told[0], 0) != 0) {
        drop(&file, name, NULL);
    }
    keep(&file);
    end(DONE);
}
