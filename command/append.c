/* A segment is appended to a partial file. */
#include "append.h"

#include "say.h"
#include "surls.h"
#include "tables.h"
#include "writes.h"

#include <errno.h>
#include <fcntl.h>
#include <inttypes.h>
#include <stdio.h>
#include <string.h>
#include <sys/file.h>
#include <unistd.h>

/* The size and the type of a box. */
enum { BOX_HEADER = 8 };

/* Of what a file has so much it is said when an eighth of it or less is left. */
enum { FEW = 8 };

/* What append answers about data that no file has room for, of which the library was shown no byte: 35 if it is that
   for one of the good chunks alone, as each is mapped, and else that the file would be over its limit. */
static uint64_t answer_by_chunk(struct bytes file, const struct pieces *pieces)
{
    for (size_t i = 0; i < pieces->count; i++) {
        const uint64_t *item = pieces->list + 2 * i;
        const struct bytes *part = &pieces->parts[i];
        uint64_t told[1];
        if (item[1] == VRAZHUPA_GOOD && vrazhupa_append(file.at, file.length, file.length, 0, 0, false, true, item, 2, part->at, part->length, NULL, 0, NULL,
                                                        0, told) == VRAZHUPA_NOT_TO_GO_OUTSIDE) {
            return VRAZHUPA_NOT_TO_GO_OUTSIDE;
        }
    }
    return VRAZHUPA_FILE_OVER_LIMIT;
}

/* The file in memory with the segment behind it; where that is refused the command ends. Answers the new length. */
static size_t add_segment(struct bytes file, size_t room, const struct addition *addition, const struct pieces *pieces, const struct surls *surls)
{
    uint64_t told[1];
    uint64_t number = vrazhupa_append(file.at, file.length + room, file.length, addition->offset, addition->time, addition->last, addition->outside,
                                      pieces->list, 2 * pieces->count, pieces->data, pieces->total, surls->texts, surls->texts_length, surls->lengths,
                                      surls->lengths_length, told);
    if (number == VRAZHUPA_NOT_TO_GO_OUTSIDE && pieces->total > VRAZHUPA_FILE) {
        number = answer_by_chunk(file, pieces);
    }
    if (number != 0) {
        refused(addition->file, number);
    }
    return told[0];
}

/* The place of the last segment's box in a file that is accepted, whose tables are read. */
static size_t last_segment_place(const char *name, struct bytes file)
{
    uint64_t number = read_tables(file, 0);
    if (number != 0) {
        refused(name, number);
    }
    return tables.segments[(tables.segment_count - 1) * VRAZHUPA_SEGMENT_ROW + SEGMENT_PLACE];
}

/* Brings what stands behind the old end to the disk, the header of the segment's box last: until it is there nobody
   reads the segment, and when it is there so are the entries and the data that it tells of, in whatever order the
   system writes. */
static int write_behind(int fd, const uint8_t *file, size_t old_end, size_t box, size_t new_end)
{
    size_t body = box + BOX_HEADER;
    if (write_at(fd, file + old_end, box - old_end, old_end) != 0 || write_at(fd, file + body, new_end - body, body) != 0 || fdatasync(fd) != 0) {
        return -1;
    }
    return write_at(fd, file + box, BOX_HEADER, box) != 0 ? -1 : fsync(fd);
}

/* Cuts the file to its old end after a write that failed. */
static _Noreturn void take_back(int fd, const char *name, size_t old_end)
{
    char why[128];
    snprintf(why, sizeof why, "%s", strerror(errno));
    if (ftruncate(fd, (off_t)old_end) != 0) {
        size_t said = strlen(why);
        snprintf(why + said, sizeof why - said, "; cut it to %zu bytes", old_end);
        failed_for(name, why);
    }
    end_if_signalled(name, "it is as it was");
    failed_for(name, why);
}

/* How many sources a file has, none where it was only begun. */
static uint64_t sources_of(struct bytes file)
{
    return read_tables(file, 0) == 0 ? tables.source_count : 0;
}

static void say_left(const char *name, uint64_t used, uint64_t most, const char *what)
{
    if (most - used <= most / FEW) {
        note(name, "%" PRIu64 " of %" PRIu64 " %s are left", most - used, most, what);
    }
}

/* Says of what few are left in the file whose tables are read; of sources only where there is a new one. */
static void say_all_left(const char *name, struct bytes file, uint64_t sources_before)
{
    say_left(name, tables.segment_count, VRAZHUPA_SEGMENTS, "segments");
    say_left(name, tables.chunk_count, VRAZHUPA_CHUNKS, "chunks");
    say_left(name, boxes_of(file), VRAZHUPA_BOXES, "boxes");
    if (tables.source_count > sources_before) {
        say_left(name, tables.source_count, VRAZHUPA_SOURCES, "sources");
    }
}

void append_segment(const struct addition *addition)
{
    const char *name = addition->file, *why;
    struct pieces pieces = pieces_of(addition);
    int fd = open_locked(name, O_RDWR, LOCK_EX, &why);
    if (fd < 0) {
        failed_for(name, why);
    }
    /* How much room the file needs behind it depends on what it says of its sources. */
    struct surls surls = surls_of(addition, map_with_room(fd, name, 0));
    size_t room = pieces.total + VRAZHUPA_ADDED + room_of(&surls);
    struct bytes old = map_with_room(fd, name, room);
    uint64_t sources = sources_of(old);
    struct bytes new = {old.at, add_segment(old, room, addition, &pieces, &surls)};
    size_t box = last_segment_place(name, new);
    end_writes_by_signal();
    if (write_behind(fd, new.at, old.length, box, new.length) != 0) {
        take_back(fd, name, old.length);
    }
    say_all_left(name, new, sources);
    end_if_signalled(name, "after the segment was appended");
    end(DONE);
}
