/* What is written to files: at a place of one that is there, and new ones, which have their name once they are
   complete. */
#ifndef WRITES_H
#define WRITES_H

#include <stddef.h>
#include <stdint.h>

/* From then on a signal that would end the command ends the next write instead, so that what was written can be
   taken back. */
void end_writes_by_signal(void);

/* Ends the command by the signal that came, if one did, so that a shell sees it too. */
void end_if_signalled(const char *name, const char *how);

/* Writes all bytes at a place; 0, or -1 with errno. */
int write_at(int fd, const uint8_t *bytes, size_t length, size_t place);

/* A file that is being made, under another name in the same folder. */
struct new_file {
    const char *name;
    char *temporary;
    int fd;
};
struct new_file new_file(const char *name);

/* Gives it its name, never over a file that is there, and has all of it on the disk. */
void keep(const struct new_file *file);

/* Removes it, and fails by a reason, or by errno where that is NULL. */
_Noreturn void drop(const struct new_file *file, const char *what, const char *why);

#endif
