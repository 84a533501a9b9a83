/* What the command says, and how it ends. */
#include "say.h"

#include "refusals.h"

#include <errno.h>
#include <fcntl.h>
#include <inttypes.h>
#include <signal.h>
#include <stdarg.h>
#include <stdio.h>
#include <stdlib.h>
#include <string.h>
#include <unistd.h>

static const char *usage = "";

/* A word of the user on standard error, so that it neither ends the line nor does anything to the terminal. */
static void say_word(const char *word)
{
    for (const char *c = word; *c != '\0'; c++) {
        unsigned char byte = (unsigned char)*c;
        fprintf(stderr, byte < ' ' || byte > '~' ? "\\x%02x" : "%c", byte);
    }
}

/* A mapped file that another program cut, or a disk that cannot be read, comes as this signal. */
static void on_lost_page(int signal_number)
{
    static const char line[] = "paff: a file was cut short or could not be read\n";
    (void)signal_number;
    ssize_t written = write(STDERR_FILENO, line, sizeof line - 1);
    (void)written;
    _exit(FAILED);
}

/* A closed descriptor would be given to the next file that is opened, and the output would go into it: it is taken
   by one that output fails on. */
static void keep_standard_descriptors(void)
{
    for (int fd = STDIN_FILENO; fd <= STDERR_FILENO; fd++) {
        if (fcntl(fd, F_GETFD) < 0 && open("/dev/null", fd == STDIN_FILENO ? O_WRONLY : O_RDONLY) != fd) {
            _exit(FAILED);
        }
    }
}

void say_failures(void)
{
    static char line[BUFSIZ];
    keep_standard_descriptors();
    signal(SIGPIPE, SIG_IGN);
    signal(SIGXFSZ, SIG_IGN);
    signal(SIGBUS, on_lost_page);
    /* A line is written whole, so that those of two commands do not mix. */
    setvbuf(stderr, line, _IOLBF, sizeof line);
}

void say_usage(const char *text)
{
    usage = text;
}

void note(const char *file, const char *format, ...)
{
    va_list values;
    fprintf(stderr, "paff: ");
    say_word(file);
    fprintf(stderr, ": ");
    va_start(values, format);
    vfprintf(stderr, format, values);
    va_end(values);
    fprintf(stderr, "\n");
}

void say_why(const char *file, uint64_t number)
{
    const char *sentence = sentence_of(number);
    note(file, "%s (%" PRIu64 ")", sentence == NULL ? "refused" : sentence, number);
}

void refused(const char *file, uint64_t number)
{
    printf("refused\t%" PRIu64 "\n", number);
    say_why(file, number);
    end(REFUSED);
}

void refused_aside(const char *file, uint64_t number)
{
    fprintf(stderr, "refused\t%" PRIu64 "\n", number);
    say_why(file, number);
    exit(REFUSED);
}

void misused(const char *why, const char *word)
{
    fprintf(stderr, "paff: %s%s", why, word == NULL ? "" : ": ");
    say_word(word == NULL ? "" : word);
    fprintf(stderr, "\n%s", usage);
    exit(FAILED);
}

void failed_for(const char *what, const char *why)
{
    note(what, "%s", why);
    exit(FAILED);
}

void failed(const char *what)
{
    failed_for(what, strerror(errno));
}

void end(int status)
{
    if (ferror(stdout) || fclose(stdout) != 0) {
        failed("standard output");
    }
    exit(status);
}
