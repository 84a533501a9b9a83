/* What is written to files. */
#include "writes.h"

#include "files.h"
#include "say.h"

#include <errno.h>
#include <fcntl.h>
#include <libgen.h>
#include <signal.h>
#include <stdio.h>
#include <stdlib.h>
#include <string.h>
#include <sys/stat.h>
#include <unistd.h>

/* Bytes that one call writes. */
enum { SLICE = 1 << 20 };

static volatile sig_atomic_t signalled;

static void on_signal(int number)
{
    signalled = number;
}

void end_writes_by_signal(void)
{
    static const int ending[] = {SIGINT, SIGTERM, SIGHUP, SIGQUIT, SIGALRM, SIGVTALRM, SIGPROF, SIGXCPU, SIGUSR1, SIGUSR2};
    for (size_t i = 0; i < sizeof ending / sizeof ending[0]; i++) {
        if (signal(ending[i], on_signal) == SIG_IGN) {
            signal(ending[i], SIG_IGN);
        }
    }
}

void end_if_signalled(const char *name, const char *how)
{
    if (signalled) {
        note(name, "%s, %s", strsignal(signalled), how);
        fflush(stderr);
        signal(signalled, SIG_DFL);
        raise(signalled);
    }
}

int write_at(int fd, const uint8_t *bytes, size_t length, size_t place)
{
    while (length > 0) {
        if (signalled) {
            errno = EINTR;
            return -1;
        }
        ssize_t n = pwrite(fd, bytes, length < SLICE ? length : SLICE, (off_t)place);
        if (n == 0) {
            errno = ENOSPC;
        }
        if (n <= 0 && errno != EINTR) {
            return -1;
        }
        if (n > 0) {
            bytes += n;
            place += (size_t)n;
            length -= (size_t)n;
        }
    }
    return 0;
}

/* A path in the folder of a name. */
static char *beside(const char *name, const char *last)
{
    char *copy = strdup(name), *path = NULL;
    if (copy == NULL || asprintf(&path, "%s/%s", dirname(copy), last) < 0) {
        failed(name);
    }
    free(copy);
    return path;
}

struct new_file new_file(const char *name)
{
    struct stat about;
    if (lstat(name, &about) == 0) {
        errno = EEXIST;
        failed(name);
    }
    end_writes_by_signal();
    struct new_file file = {name, beside(name, ".paff-XXXXXX"), -1};
    mode_t mask = umask(0);
    umask(mask);
    file.fd = mkostemp(file.temporary, O_CLOEXEC);
    if (file.fd < 0) {
        failed(name);
    }
    if (fchmod(file.fd, 0666 & ~mask) != 0) {
        drop(&file, name, NULL);
    }
    return file;
}

/* Gives a file its name where no file has it; a file system that cannot do so in one step can by a second name. */
static int name_file(const struct new_file *file)
{
    if (renameat2(AT_FDCWD, file->temporary, AT_FDCWD, file->name, RENAME_NOREPLACE) == 0) {
        return 0;
    }
    if (errno != EINVAL && errno != ENOSYS) {
        return -1;
    }
    return link(file->temporary, file->name) != 0 ? -1 : unlink(file->temporary);
}

/* A new name is on the disk when its folder is, or, where that may not be read, when all of the file system is. */
static int sync_name(const struct new_file *file)
{
    char *path = beside(file->name, ".");
    int folder = open(path, O_RDONLY | O_DIRECTORY | O_CLOEXEC);
    int answer = folder < 0 ? -1 : fsync(folder);
    free(path);
    if (folder >= 0) {
        close(folder);
    }
    return answer == 0 ? 0 : syncfs(file->fd);
}

void keep(const struct new_file *file)
{
    if (fsync(file->fd) != 0 || signalled || name_file(file) != 0) {
        drop(file, file->name, NULL);
    }
    if (sync_name(file) != 0) {
        int why = errno;
        unlink(file->name);
        failed_for(file->name, strerror(why));
    }
    end_if_signalled(file->name, "after it was made");
}

void drop(const struct new_file *file, const char *what, const char *why)
{
    const char *reason = why == NULL ? strerror(errno) : why;
    unlink(file->temporary);
    end_if_signalled(file->name, "it was not made");
    failed_for(what, reason);
}
