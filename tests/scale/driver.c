/* Makes the calls of a stream on whatever implements include/vrazhupa.h, compares all that comes of each, and counts.
   It knows nothing of partial files. With the word `report` it compares nothing, and prints of each call the answer and
   a sum of each memory afterwards; with `calls`, the calls that are there. For an implementation from before request 2
   it is built with that one's header and -DBEFORE_MIXED, and leaves out what begin and append are asked since; for one
   from before request 8 with -DBEFORE_SOURCES, and leaves out all sources but the first, and the texts of append. */
#include "lent.h"
#include "stream.h"

#include "vrazhupa.h"

#include <inttypes.h>
#include <signal.h>
#include <stdbool.h>
#include <stdio.h>
#include <stdlib.h>
#include <string.h>
#include <unistd.h>

/* An implementation from before request 1 lacks the first of these calls, one from before request 6 the second too, one
   from before request 7 the two behind, one from before request 8 the three that follow, and one from before request 9
   the others; so may its header. */
extern __typeof__(vrazhupa_map) vrazhupa_missmap;
extern uint64_t vrazhupa_heading(const uint8_t *file, size_t file_length, uint64_t told[7]);
extern uint64_t vrazhupa_index(const uint8_t *file, size_t file_length, uint64_t *table, size_t table_length, uint64_t told[1]);
extern uint64_t vrazhupa_source_url(const uint8_t *file, size_t file_length, uint64_t source, uint64_t told[2]);
extern uint64_t vrazhupa_source_mime(const uint8_t *file, size_t file_length, uint64_t source, uint64_t told[2]);
extern uint64_t vrazhupa_texts(const uint8_t *file, size_t file_length, uint64_t segment, uint8_t *texts, size_t texts_length, uint64_t *lengths,
                               size_t lengths_length, uint64_t told[2]);
extern uint64_t vrazhupa_salvage(const uint8_t *file, size_t file_length, uint8_t *buffer, size_t buffer_length, uint64_t told[1]);
extern __typeof__(vrazhupa_map) vrazhupa_salvage_lines;
#pragma weak vrazhupa_boxes
#pragma weak vrazhupa_missmap
#pragma weak vrazhupa_heading
#pragma weak vrazhupa_index
#pragma weak vrazhupa_source_url
#pragma weak vrazhupa_source_mime
#pragma weak vrazhupa_texts
#pragma weak vrazhupa_salvage
#pragma weak vrazhupa_salvage_lines

/* An argument that came with request 2, and those that came with request 8. */
#ifdef BEFORE_MIXED
#define SINCE_MIXED(number)
#else
#define SINCE_MIXED(number) (number) != 0,
#endif
#ifdef BEFORE_SOURCES
#include "before.h"
#define SINCE_SOURCES(...)
#else
#define SINCE_SOURCES(...) __VA_ARGS__,
#endif

enum {
    BLOCK,
    READ,
    URL,
    MIME,
    SERVE,
    ASK,
    LIST,
    MAP,
    BEGIN,
    APPEND,
    BOXES,
    MISSMAP,
    HEADING,
    INDEX,
    SOURCE_URL,
    SOURCE_MIME,
    TEXTS,
    SALVAGE,
    SALVAGE_LINES,
    KINDS,
    ZEROS = 254,
    END = 255
};
enum { ANSWERS = 64 };

/* What a kind of call takes: its numbers, its memories with their width in bytes, and how many numbers it tells. */
struct shape {
    const char *name;
    struct takes takes;
    size_t told;
    struct {
        const char *name;
        size_t width;
    } memories[MEMORIES];
};

#define TABLES {"segments", 8}, {"chunks", 8}

static const struct shape shapes[KINDS] = {
    [READ] = {"read", {1, 3}, 5, {{"file", 1}, TABLES}},
    [URL] = {"url", {0, 1}, 2, {{"file", 1}}},
    [MIME] = {"mime", {0, 1}, 2, {{"file", 1}}},
    [SERVE] = {"serve", {2, 3}, 2, {{"file", 1}, TABLES}},
    [ASK] = {"ask", {2, 3}, 2, {{"file", 1}, TABLES}},
    [LIST] = {"list", {1, 5}, 4, {{"file", 1}, TABLES, {"had", 8}, {"missing", 8}}},
    [MAP] = {"map", {1, 2}, 1, {{"file", 1}, {"buffer", 1}}},
    [BEGIN] = {"begin", {1, 3}, 1, {{"buffer", 1}, {"url", 1}, {"mime", 1}}},
    [APPEND] = {"append", {5, 5}, 1, {{"buffer", 1}, {"list", 8}, {"data", 1}, {"texts", 1}, {"lengths", 8}}},
    [BOXES] = {"boxes", {1, 2}, 1, {{"file", 1}, {"buffer", 1}}},
    [MISSMAP] = {"missmap", {1, 2}, 1, {{"file", 1}, {"buffer", 1}}},
    [HEADING] = {"heading", {0, 1}, 7, {{"file", 1}}},
    [INDEX] = {"index", {0, 2}, 1, {{"file", 1}, {"table", 8}}},
    [SOURCE_URL] = {"source_url", {1, 1}, 2, {{"file", 1}}},
    [SOURCE_MIME] = {"source_mime", {1, 1}, 2, {{"file", 1}}},
    [TEXTS] = {"texts", {1, 3}, 2, {{"file", 1}, {"texts", 1}, {"lengths", 8}}},
    [SALVAGE] = {"salvage", {0, 2}, 1, {{"file", 1}, {"buffer", 1}}},
    [SALVAGE_LINES] = {"salvage_lines", {1, 2}, 1, {{"file", 1}, {"buffer", 1}}},
};

static struct lent lent[MEMORIES];
static struct lent told;
static uint64_t cases;
static uint64_t differing;
static uint64_t by_kind[KINDS];
static uint64_t by_answer[ANSWERS];
static unsigned kind;
static bool reporting;

static uint64_t call_on_tables(uint64_t source, uint64_t p)
{
    const uint8_t *file = lent[0].at;
    uint64_t *segments = numbers_of(&lent[1]);
    uint64_t *chunks = numbers_of(&lent[2]);
    size_t length = lent[0].length;
    if (kind == READ) {
        return vrazhupa_read(file, length, segments, lent[1].length, chunks, lent[2].length, source, numbers_of(&told));
    }
    if (kind == SERVE) {
        return vrazhupa_serve(file, length, segments, lent[1].length, chunks, lent[2].length, source, p, numbers_of(&told));
    }
    if (kind == ASK) {
        return vrazhupa_ask(file, length, segments, lent[1].length, chunks, lent[2].length, source, p, numbers_of(&told));
    }
    return vrazhupa_list(file, length, segments, lent[1].length, chunks, lent[2].length, source, numbers_of(&lent[3]), lent[3].length,
                         numbers_of(&lent[4]), lent[4].length, numbers_of(&told));
}

static uint64_t call_for_text(__typeof__(&vrazhupa_map) call, uint64_t most)
{
    return call(lent[0].at, lent[0].length, most, lent[1].at, lent[1].length, numbers_of(&told));
}

static uint64_t call_append(const uint64_t *numbers)
{
    return vrazhupa_append(lent[0].at, lent[0].length, numbers[0], numbers[1], numbers[2], numbers[3] != 0, SINCE_MIXED(numbers[4]) numbers_of(&lent[1]),
                           lent[1].length, lent[2].at, lent[2].length,
                           SINCE_SOURCES(lent[3].at, lent[3].length, numbers_of(&lent[4]), lent[4].length) numbers_of(&told));
}

static uint64_t call_for_texts(const uint64_t *numbers)
{
    if (kind == SOURCE_URL) {
        return vrazhupa_source_url(lent[0].at, lent[0].length, numbers[0], numbers_of(&told));
    }
    if (kind == SOURCE_MIME) {
        return vrazhupa_source_mime(lent[0].at, lent[0].length, numbers[0], numbers_of(&told));
    }
    return vrazhupa_texts(lent[0].at, lent[0].length, numbers[0], lent[1].at, lent[1].length, numbers_of(&lent[2]), lent[2].length, numbers_of(&told));
}

static uint64_t make(const uint64_t *numbers)
{
    switch (kind) {
    case URL:
        return vrazhupa_url(lent[0].at, lent[0].length, numbers_of(&told));
    case MIME:
        return vrazhupa_mime(lent[0].at, lent[0].length, numbers_of(&told));
    case MAP:
        return call_for_text(vrazhupa_map, numbers[0]);
    case BEGIN:
        return vrazhupa_begin(lent[0].at, lent[0].length, SINCE_MIXED(numbers[0]) lent[1].at, lent[1].length, lent[2].at, lent[2].length, numbers_of(&told));
    case APPEND:
        return call_append(numbers);
    case BOXES:
        return call_for_text(vrazhupa_boxes, numbers[0]);
    case MISSMAP:
        return call_for_text(vrazhupa_missmap, numbers[0]);
    case SALVAGE:
        return vrazhupa_salvage(lent[0].at, lent[0].length, lent[1].at, lent[1].length, numbers_of(&told));
    case SALVAGE_LINES:
        return call_for_text(vrazhupa_salvage_lines, numbers[0]);
    case HEADING:
        return vrazhupa_heading(lent[0].at, lent[0].length, numbers_of(&told));
    case INDEX:
        return vrazhupa_index(lent[0].at, lent[0].length, numbers_of(&lent[1]), lent[1].length, numbers_of(&told));
    case SOURCE_URL:
    case SOURCE_MIME:
    case TEXTS:
        return call_for_texts(numbers);
    default:
        return call_on_tables(numbers[0], numbers[1]);
    }
}

static void lend_all(const struct shape *shape, const struct call *call)
{
    static const struct block nothing;
    for (size_t at = 0; at < shape->takes.memories; at++) {
        lend(&lent[at], shape->memories[at].width, &call->memories[at], call->how);
    }
    struct memory numbers = {shape->told, &nothing, &call->told};
    lend(&told, sizeof(uint64_t), &numbers, call->how);
}

static bool all_as_wanted(const struct shape *shape, const struct call *call, uint64_t answer)
{
    char who[48];
    snprintf(who, sizeof who, "case %" PRIu64 ", %s", cases, shape->name);
    bool wanted = answer == call->answer;
    if (!wanted) {
        printf("%s: answer %" PRIu64 ", wanted %" PRIu64 "\n", who, answer, call->answer);
    }
    for (size_t at = 0; at < shape->takes.memories; at++) {
        wanted &= as_wanted(&lent[at], call->memories[at].after, who, shape->memories[at].name);
    }
    wanted &= as_wanted(&told, &call->told, who, "told");
    return wanted;
}

static void report(const struct shape *shape, uint64_t answer)
{
    printf("%" PRIu64, answer);
    for (size_t at = 0; at < shape->takes.memories; at++) {
        printf(" %" PRIx64, sum_of(&lent[at]));
    }
    printf(" %" PRIx64 "\n", sum_of(&told));
}

static void run_case(void)
{
    struct call call = {0};
    const struct shape *shape = &shapes[kind];
    take_call(shape->takes, &call);
    lend_all(shape, &call);
    cases++;
    by_kind[kind]++;
    uint64_t answer = make(call.numbers);
    if (answer < ANSWERS) {
        by_answer[answer]++;
    }
    if (reporting) {
        report(shape, answer);
    } else if (!all_as_wanted(shape, &call, answer)) {
        differing++;
    }
}

static bool is_there(unsigned call)
{
    return call > BLOCK && call < KINDS && (call != BOXES || vrazhupa_boxes != NULL) && (call != MISSMAP || vrazhupa_missmap != NULL) &&
           (call != HEADING || vrazhupa_heading != NULL) && (call != INDEX || vrazhupa_index != NULL) &&
           (call != SOURCE_URL || vrazhupa_source_url != NULL) && (call != SOURCE_MIME || vrazhupa_source_mime != NULL) &&
           (call != TEXTS || vrazhupa_texts != NULL) && (call != SALVAGE || vrazhupa_salvage != NULL) &&
           (call != SALVAGE_LINES || vrazhupa_salvage_lines != NULL);
}

static int say_calls(void)
{
    for (unsigned at = READ; at < KINDS; at++) {
        if (is_there(at)) {
            printf("%s\n", shapes[at].name);
        }
    }
#ifndef BEFORE_MIXED
    printf("begin-mixed\nappend-outside\n");
#endif
#ifndef BEFORE_SOURCES
    printf("sources\nappend-texts\n");
#endif
    return EXIT_SUCCESS;
}

static void say_counts(void)
{
    for (unsigned at = READ; at < KINDS; at++) {
        printf("%s %" PRIu64 "%s", shapes[at].name, by_kind[at], at + 1 < KINDS ? ", " : "; refusals met: ");
    }
    const char *between = "";
    for (unsigned at = 1; at < ANSWERS; at++) {
        if (by_answer[at] > 0) {
            printf("%s%u: %" PRIu64, between, at, by_answer[at]);
            between = ", ";
        }
    }
    printf("; %" PRIu64 " cases, %" PRIu64 " differ\n", cases, differing);
}

/* A fault comes out of the call, where no other printing is at work. */
static void stopped(int signal_number)
{
    printf("case %" PRIu64 ", %s: stopped by signal %d\n", cases, shapes[kind].name, signal_number);
    differing++;
    say_counts();
    fflush(stdout);
    _exit(EXIT_FAILURE);
}

static void catch_faults(void)
{
    static const int faults[] = {SIGSEGV, SIGBUS, SIGILL, SIGFPE, SIGABRT, SIGTRAP};
    for (size_t at = 0; at < sizeof faults / sizeof faults[0]; at++) {
        signal(faults[at], stopped);
    }
}

int main(int count, char **words)
{
    if (count > 1 && strcmp(words[1], "calls") == 0) {
        return say_calls();
    }
    reporting = count > 1 && strcmp(words[1], "report") == 0;
    catch_faults();
    for (kind = take_byte(); kind != END; kind = take_byte()) {
        if (kind == BLOCK) {
            take_block();
        } else if (kind == ZEROS) {
            take_zeros();
        } else if (is_there(kind)) {
            run_case();
        } else {
            give_up("no such record or call");
        }
    }
    if (take_number() != cases) {
        give_up("the stream has another number of cases");
    }
    if (!reporting) {
        say_counts();
    }
    return differing > 0 ? EXIT_FAILURE : EXIT_SUCCESS;
}
