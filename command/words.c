/* The words that a subcommand is given. */
#include "words.h"

#include "say.h"

#include <string.h>

struct words words_in(char **words, size_t count)
{
    return (struct words){.next = words, .end = words + count, .operands = words};
}

/* An option as it stands in a word, its value parted from it. */
static const char *option_in(struct words *words, char *word)
{
    char *equals = strchr(word, '=');
    words->option = word;
    words->value = equals == NULL ? NULL : equals + 1;
    if (equals != NULL) {
        *equals = '\0';
    }
    return word;
}

const char *next_option(struct words *words)
{
    if (words->value != NULL) {
        misused("takes no value", words->option);
    }
    while (words->next != words->end) {
        char *word = *words->next++;
        if (words->only_operands || word[0] != '-') {
            words->operands[words->count++] = word;
        } else if (strcmp(word, "--") == 0) {
            words->only_operands = true;
        } else {
            return option_in(words, word);
        }
    }
    return NULL;
}

bool is(const char *option, const char *name)
{
    return strcmp(option, name) == 0;
}

const char *value_of(struct words *words)
{
    const char *value = words->value;
    words->value = NULL;
    if (value == NULL && words->next != words->end && ((*words->next)[0] != '-' || is(*words->next, "-"))) {
        value = *words->next++;
    }
    if (value == NULL) {
        misused("no value is given", words->option);
    }
    return value;
}

uint64_t number_in(const char *word)
{
    uint64_t n = 0;
    const char *digit = word;
    for (; *digit >= '0' && *digit <= '9'; digit++) {
        uint64_t next = (uint64_t)(*digit - '0');
        if (n > (UINT64_MAX - next) / 10) {
            break;
        }
        n = 10 * n + next;
    }
    if (digit == word || *digit != '\0') {
        misused("not a number", word);
    }
    return n;
}

void once(bool *given, const char *option)
{
    if (*given) {
        misused("given twice", option);
    }
    *given = true;
}

void operands_are(const struct words *words, size_t least, size_t most)
{
    if (words->count < least) {
        misused("a word is missing", NULL);
    }
    if (words->count > most) {
        misused("a word too many", words->operands[most]);
    }
}
