/* Files that are there: opened, locked and mapped into memory, or read from a pipe. */
#ifndef FILES_H
#define FILES_H

#include <stddef.h>
#include <stdint.h>

/* Bytes in memory. */
struct bytes {
    uint8_t *at;
    size_t length;
};

/* From then on a lock that another command holds is not waited for. */
void do_not_wait(void);

/* Opens a regular file, and waits for its lock: LOCK_SH to read it, LOCK_EX to change it. The lock is free when the
   file is closed or the command ends, in whatever way. Answers its descriptor, or -1 with the reason. */
int open_locked(const char *name, int flags, int operation, const char **why);

/* Memory of our own. Only pages that are written take room. */
void *lend(size_t length);

/* The file in memory, with room behind it; what is written there stays in memory. */
struct bytes map_with_room(int fd, const char *name, size_t room);

/* A file in memory, to be read, locked against changes until it is let go; the reason is NULL where it was opened. */
struct held {
    int fd;
    struct bytes bytes;
    const char *why;
};
struct held hold(const char *name);
void let_go(const struct held *held);

/* The same to the end of the command, which ends where it cannot be opened. */
struct bytes map_locked(const char *name);

/* Data to be appended: a regular file in memory, or what a pipe or, for `-`, standard input has; of what no file has
   room for a part. */
struct bytes map_data(const char *name);

#endif
