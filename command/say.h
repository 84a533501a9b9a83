/* What the command says: a refusal on standard output, and in a sentence on standard error, where a wrong use and a
   failure of the system are said too; and that its output came through. */
#ifndef SAY_H
#define SAY_H

#include <stdint.h>

enum { DONE = 0, REFUSED = 1, FAILED = 2 };

/* Makes each failure of the system an error that is said: a closed pipe, a full disk, a mapped file that is cut
   short, a standard output that is closed. */
void say_failures(void);

/* What a wrong use is told with from then on: how the command, or a subcommand of it, is used. */
void say_usage(const char *text);

/* A line about a file on standard error. */
__attribute__((format(printf, 2, 3))) void note(const char *file, const char *format, ...);

/* The sentence of a refusal on standard error. */
void say_why(const char *file, uint64_t number);

/* The line of a refusal, and its sentence; the status is 1. */
_Noreturn void refused(const char *file, uint64_t number);

/* The same where standard output is for the bytes of a film: both on standard error. */
_Noreturn void refused_aside(const char *file, uint64_t number);

/* A wrong use: what is wrong with which word, and how the command is used; the status is 2. */
_Noreturn void misused(const char *why, const char *word);

/* A failure of the system, by its reason or by errno; the status is 2. */
_Noreturn void failed_for(const char *what, const char *why);
_Noreturn void failed(const char *what);

/* Ends with a status once all output is written. */
_Noreturn void end(int status);

#endif
