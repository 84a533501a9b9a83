/* The words that a subcommand is given: its options, with their values, and its operands. A wrong use ends the
   command. */
#ifndef WORDS_H
#define WORDS_H

#include <stdbool.h>
#include <stddef.h>
#include <stdint.h>

struct words {
    char **next;
    char **end;
    char **operands; /* those that were met so far, in the place of words that were taken */
    size_t count;
    bool only_operands; /* `--` was met, which ends the options */
    const char *option; /* the option that was met last */
    char *value;        /* what stands behind its `=`, until it is taken */
};

struct words words_in(char **words, size_t count);

/* Steps to the next option and answers its name, NULL where there is none left; the operands before it are gathered. */
const char *next_option(struct words *words);

bool is(const char *option, const char *name);

/* The value of the option that was met last: behind its `=`, or else the next word, which may then not begin with a
   dash unless it is one alone. */
const char *value_of(struct words *words);

/* A number in decimal digits, below 2^64. */
uint64_t number_in(const char *word);

/* Notes that an option was given, which it may be once. */
void once(bool *given, const char *option);

/* Holds the operands to be so many. */
void operands_are(const struct words *words, size_t least, size_t most);

#endif
