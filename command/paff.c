/* The command `paff`: its subcommands, and what each does with its words. The manual page is paff.1. */
#include "append.h"
#include "begin.h"
#include "get.h"
#include "index.h"
#include "info.h"
#include "refusals.h"
#include "say.h"
#include "show.h"
#include "sources.h"
#include "vrazhupa.h"

#include <inttypes.h>
#include <stdio.h>
#include <string.h>

/* Takes an option that has no value and is asked for, or --no-wait; another one is a wrong use. */
static void take_flag(const char *option, const char *name, bool *given)
{
    if (name != NULL && is(option, name)) {
        once(given, option);
    } else if (is(option, "--no-wait")) {
        do_not_wait();
    } else {
        misused("not an option", option);
    }
}

/* Takes the options of a subcommand that has one flag, or none, beside --no-wait, and operands in so great a number. */
static bool flag_in(struct words *words, const char *name, size_t most)
{
    bool given = false;
    for (const char *option; (option = next_option(words)) != NULL;) {
        take_flag(option, name, &given);
    }
    operands_are(words, 1, most);
    return given;
}

static void run_map(struct words *words)
{
    struct meant meant = {.named = false};
    bool missing = false;
    for (const char *option; (option = next_option(words)) != NULL;) {
        if (!take_source(&meant, option, words)) {
            take_flag(option, "--missing", &missing);
        }
    }
    operands_are(words, 1, 1);
    show_map(words->operands[0], &meant, missing);
}

static void run_sources(struct words *words)
{
    bool percent = flag_in(words, "--percent", 1);
    show_sources(words->operands[0], percent);
}

static void run_boxes(struct words *words)
{
    flag_in(words, NULL, 1);
    show_boxes(words->operands[0]);
}

static void run_rows(struct words *words)
{
    bool percent = flag_in(words, "--percent", 1);
    show_rows(words->operands[0], percent);
}

static void run_index(struct words *words)
{
    bool tree = flag_in(words, "--tree", 1);
    show_index(words->operands[0], tree);
}

static void run_info(struct words *words)
{
    bool json = flag_in(words, "--json", SIZE_MAX);
    show_info(words->operands, words->count, json);
}

static void run_get(struct words *words)
{
    struct wanted wanted = {.output = NULL};
    bool output = false;
    for (const char *option; (option = next_option(words)) != NULL;) {
        if (is(option, "--output")) {
            once(&output, option);
            wanted.output = value_of(words);
        } else if (!take_source(&wanted.meant, option, words)) {
            take_flag(option, NULL, NULL);
        }
    }
    operands_are(words, 1, 3);
    wanted.file = words->operands[0];
    wanted.whole = words->count == 1;
    if (!wanted.whole) {
        operands_are(words, 3, 3);
        wanted.first = number_in(words->operands[1]);
        wanted.length = number_in(words->operands[2]);
    }
    get_bytes(&wanted);
}

/* Whether a file with this brand is mixed. */
static bool mixed_by(const char *brand)
{
    bool mixed = is(brand, "pmff");
    if (!mixed && !is(brand, "paff")) {
        misused("not a brand", brand);
    }
    return mixed;
}

static void run_begin(struct words *words)
{
    bool brand = false, mixed = false;
    for (const char *option; (option = next_option(words)) != NULL;) {
        if (!is(option, "--brand")) {
            misused("not an option", option);
        }
        once(&brand, option);
        mixed = mixed_by(value_of(words));
    }
    operands_are(words, 2, 3);
    begin_file(words->operands[0], mixed, words->operands[1], words->count == 3 ? words->operands[2] : "");
}

static void run_append(struct words *words)
{
    struct addition addition = addition_in(words);
    append_segment(&addition);
}

static void run_why(struct words *words)
{
    const char *option = next_option(words);
    if (option != NULL) {
        misused("not an option", option);
    }
    operands_are(words, 1, 1);
    const char *sentence = sentence_of(number_in(words->operands[0]));
    if (sentence == NULL) {
        misused("not the number of a refusal", words->operands[0]);
    }
    printf("%s\n", sentence);
    end(DONE);
}

static const struct subcommand {
    const char *name;
    void (*run)(struct words *words);
    const char *usage;
} subcommands[] = {
    {"map", run_map, "paff map [--missing] [--source N] [--no-wait] FILE\n"},
    {"sources", run_sources, "paff sources [--percent] [--no-wait] FILE\n"},
    {"info", run_info, "paff info [--json] [--no-wait] FILE...\n"},
    {"boxes", run_boxes, "paff boxes [--no-wait] FILE\n"},
    {"rows", run_rows, "paff rows [--percent] [--no-wait] FILE\n"},
    {"index", run_index, "paff index [--tree] [--no-wait] FILE\n"},
    {"get", run_get, "paff get [--source N] [--output NEW] [--no-wait] FILE [FIRST LENGTH]\n"},
    {"begin", run_begin, "paff begin [--brand paff|pmff] FILE URL [MIME]\n"},
    {"append", run_append,
     "paff append FILE [--source N | (--url U [--mime M])...] --offset N [--last] [--time T] [--outside] [--no-wait]\n"
     "                   [--at N] [--size N] (--good DATA | --damaged DATA | --lost SIZE | --elsewhere SIZE)...\n"
     "       paff append FILE [--source N | (--url U [--mime M])...] --offset N --open [--last] [--time T] [--no-wait]\n"},
    {"why", run_why, "paff why NUMBER\n"},
};

enum { SUBCOMMANDS = sizeof subcommands / sizeof subcommands[0] };

/* How a subcommand is used, or all of them. */
static const char *usage_of(const struct subcommand *subcommand)
{
    static char text[4096];
    size_t at = 0;
    for (const struct subcommand *each = subcommands; each < subcommands + SUBCOMMANDS; each++) {
        if (subcommand == NULL || subcommand == each) {
            at += (size_t)snprintf(text + at, sizeof text - at, "%s%s", at == 0 ? "usage: " : "       ", each->usage);
        }
    }
    return text;
}

static _Noreturn void help(const struct subcommand *subcommand)
{
    printf("%sThe manual page, `man paff`, says all of it.\n", usage_of(subcommand));
    end(DONE);
}

static const struct subcommand *named(const char *name)
{
    for (size_t i = 0; i < SUBCOMMANDS; i++) {
        if (is(name, subcommands[i].name)) {
            return &subcommands[i];
        }
    }
    return NULL;
}

/* Whether --help is among the words before a `--`. */
static bool asks_for_help(char **words, int count)
{
    for (int i = 0; i < count && !is(words[i], "--"); i++) {
        if (is(words[i], "--help")) {
            return true;
        }
    }
    return false;
}

/* `paff help`, or `paff --help`, alone or with the name of a subcommand. */
static _Noreturn void help_by(char **words, int count)
{
    const struct subcommand *subcommand = count == 0 ? NULL : named(words[0]);
    if (count > 1) {
        misused("a word too many", words[1]);
    }
    if (count == 1 && subcommand == NULL) {
        misused("not a subcommand", words[0]);
    }
    help(subcommand);
}

int main(int count, char **words)
{
    say_failures();
    say_usage(usage_of(NULL));
    if (count < 2) {
        misused("no subcommand is given", NULL);
    }
    if (is(words[1], "help") || is(words[1], "--help")) {
        help_by(words + 2, count - 2);
    }
    if (is(words[1], "--version") && count == 2) {
        printf("paff %s\n", VRAZHUPA_VERSION);
        end(DONE);
    }
    const struct subcommand *subcommand = named(words[1]);
    if (subcommand == NULL) {
        misused("not a subcommand", words[1]);
    }
    if (asks_for_help(words + 2, count - 2)) {
        help(subcommand);
    }
    say_usage(usage_of(subcommand));
    struct words given = words_in(words + 2, (size_t)count - 2);
    subcommand->run(&given);
}
