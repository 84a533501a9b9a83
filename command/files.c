/* Files that are there: opened, locked, mapped and read. */
#include "files.h"

#include "say.h"
#include "vrazhupa.h"

#include <errno.h>
#include <fcntl.h>
#include <stdbool.h>
#include <string.h>
#include <sys/file.h>
#include <sys/mman.h>
#include <sys/stat.h>
#include <unistd.h>

static bool waiting = true;

void do_not_wait(void)
{
    waiting = false;
}

static int open_regular(const char *name, int flags, const char **why)
{
    /* A pipe would wait for its other end before it could be told from a file. */
    int fd = open(name, flags | O_NONBLOCK | O_CLOEXEC);
    struct stat about;
    if (fd >= 0 && fstat(fd, &about) == 0 && S_ISREG(about.st_mode)) {
        return fd;
    }
    *why = fd < 0 ? strerror(errno) : "Not a regular file";
    if (fd >= 0) {
        close(fd);
    }
    return -1;
}

/* Has the lock of a file, or answers why not. */
static const char *lock_file(int fd, const char *name, int operation)
{
    int answer = flock(fd, operation | LOCK_NB);
    if (answer != 0 && errno == EWOULDBLOCK) {
        if (!waiting) {
            return "Another command holds its lock";
        }
        note(name, operation == LOCK_SH ? "waits until another command has changed it" : "waits until no other command reads or changes it");
        answer = flock(fd, operation);
    }
    return answer == 0 ? NULL : strerror(errno);
}

/* Whether a name is still that of an open file. */
static bool names(const char *name, int fd)
{
    struct stat held, named;
    return fstat(fd, &held) == 0 && stat(name, &named) == 0 && held.st_dev == named.st_dev && held.st_ino == named.st_ino;
}

int open_locked(const char *name, int flags, int operation, const char **why)
{
    for (;;) {
        int fd = open_regular(name, flags, why);
        if (fd < 0) {
            return -1;
        }
        *why = lock_file(fd, name, operation);
        if (*why == NULL && names(name, fd)) {
            return fd;
        }
        close(fd);
        if (*why != NULL) {
            return -1;
        }
        /* While the lock was waited for another file took the name: it is the one that is meant. */
    }
}

static size_t length_of(int fd, const char *name)
{
    struct stat about;
    if (fstat(fd, &about) != 0) {
        failed(name);
    }
    return (size_t)about.st_size;
}

void *lend(size_t length)
{
    if (length == 0) {
        length = 1;
    }
    void *at = mmap(NULL, length, PROT_READ | PROT_WRITE, MAP_PRIVATE | MAP_ANONYMOUS | MAP_NORESERVE, -1, 0);
    if (at == MAP_FAILED) {
        failed("memory");
    }
    return at;
}

struct bytes map_with_room(int fd, const char *name, size_t room)
{
    size_t length = length_of(fd, name);
    uint8_t *at = lend(length + room);
    /* The file lies over the front of our memory; pages of it that are written become ours. */
    if (length > 0 && mmap(at, length, PROT_READ | PROT_WRITE, MAP_PRIVATE | MAP_FIXED | MAP_NORESERVE, fd, 0) == MAP_FAILED) {
        failed(name);
    }
    return (struct bytes){at, length};
}

/* The file in memory, to be read only. */
static struct bytes map_to_read(int fd, const char *name)
{
    static uint8_t nothing[1];
    size_t length = length_of(fd, name);
    void *at = length == 0 ? nothing : mmap(NULL, length, PROT_READ, MAP_PRIVATE, fd, 0);
    if (at == MAP_FAILED) {
        failed(name);
    }
    return (struct bytes){at, length};
}

struct held hold(const char *name)
{
    struct held held = {.why = NULL};
    held.fd = open_locked(name, O_RDONLY, LOCK_SH, &held.why);
    if (held.fd >= 0) {
        held.bytes = map_to_read(held.fd, name);
    }
    return held;
}

void let_go(const struct held *held)
{
    if (held->bytes.length > 0) {
        munmap(held->bytes.at, held->bytes.length);
    }
    close(held->fd);
}

struct bytes map_locked(const char *name)
{
    struct held held = hold(name);
    if (held.why != NULL) {
        failed_for(name, held.why);
    }
    return held.bytes;
}

/* All that a pipe has, or one byte more than any file has room for. */
static struct bytes read_all(int fd, const char *name)
{
    size_t most = (size_t)VRAZHUPA_FILE + 1;
    struct bytes bytes = {lend(most), 0};
    while (bytes.length < most) {
        ssize_t n = read(fd, bytes.at + bytes.length, most - bytes.length);
        if (n < 0 && errno != EINTR) {
            failed(name);
        }
        if (n == 0) {
            break;
        }
        bytes.length += n > 0 ? (size_t)n : 0;
    }
    return bytes;
}

struct bytes map_data(const char *name)
{
    bool standard = strcmp(name, "-") == 0;
    struct stat about;
    int fd = standard ? STDIN_FILENO : open(name, O_RDONLY | O_CLOEXEC);
    if (fd < 0 || fstat(fd, &about) != 0) {
        failed(standard ? "standard input" : name);
    }
    if (!standard && !S_ISREG(about.st_mode) && !S_ISFIFO(about.st_mode)) {
        failed_for(name, "Neither a regular file nor a pipe");
    }
    struct bytes bytes = standard || !S_ISREG(about.st_mode) ? read_all(fd, standard ? "standard input" : name) : map_to_read(fd, name);
    if (!standard) {
        close(fd);
    }
    return bytes;
}
