/* The proved library and the plain C one on the same films, and append against memcpy: `bench FOLDER`, with the films
   that bench/films.py makes there. `bench FOLDER PROGRAM CALL FILM POSITION TIMES` makes one call so many times and
   prints nothing, for bench/instructions.py to count. */
#include "calls.h"
#include "timing.h"

#include <stdio.h>
#include <stdlib.h>
#include <string.h>

enum { ROUNDS = 31, FEW_ROUNDS = 11, LONGEST_FILM = 2 << 20, MIB = 1 << 20, HEAD = 256, MAP_ROOM = 1 << 18, INDEXED = 512 };

/* One call of a program on a film. */
struct asking {
    const uint8_t *film;
    size_t length;
    uint64_t position;
    void (*call)(const struct calls *program, const struct asking *asked);
};

/* Data to be appended to a file that was begun, or to be copied there. */
struct adding {
    uint8_t *buffer;
    size_t length;
    uint8_t *data;
    size_t size;
    const struct calls *program;
};

static const struct calls *const programs[] = {&proved, &plain};
static uint64_t segments[VRAZHUPA_SEGMENTS * VRAZHUPA_SEGMENT_ROW], chunks[VRAZHUPA_CHUNKS * VRAZHUPA_CHUNK_ROW];
static uint64_t had[VRAZHUPA_RANGES * VRAZHUPA_RANGE_ROW], missing[VRAZHUPA_RANGES * VRAZHUPA_RANGE_ROW];
static uint64_t indexed[INDEXED * VRAZHUPA_INDEX_ROW];

#define ALL(table) table, sizeof table / sizeof table[0]

static void read_film(const struct calls *program, const struct asking *a)
{
    uint64_t told[5];
    program->read(a->film, a->length, ALL(segments), ALL(chunks), 0, told);
}

static void serve_position(const struct calls *program, const struct asking *a)
{
    uint64_t told[2];
    program->serve(a->film, a->length, ALL(segments), ALL(chunks), 0, a->position, told);
}

static void ask_position(const struct calls *program, const struct asking *a)
{
    uint64_t told[2];
    program->ask(a->film, a->length, ALL(segments), ALL(chunks), 0, a->position, told);
}

static void list_film(const struct calls *program, const struct asking *a)
{
    uint64_t told[4];
    program->list(a->film, a->length, ALL(segments), ALL(chunks), 0, ALL(had), ALL(missing), told);
}

static void index_film(const struct calls *program, const struct asking *a)
{
    uint64_t told[1];
    program->index(a->film, a->length, ALL(indexed), told);
}

static uint8_t text[MAP_ROOM];

static void map_film(const struct calls *program, const struct asking *a)
{
    uint64_t told[1];
    program->map(a->film, a->length, UINT64_MAX, text, sizeof text, told);
}

static void missmap_film(const struct calls *program, const struct asking *a)
{
    uint64_t told[1];
    program->missmap(a->film, a->length, UINT64_MAX, text, sizeof text, told);
}

static void ask_once(int program, void *given)
{
    const struct asking *a = given;
    a->call(programs[program], a);
}

/* The calls that are compared, by name. */
static const struct named {
    const char *name;
    void (*call)(const struct calls *program, const struct asking *asked);
} named[] = {
    {"read", read_film}, {"serve", serve_position}, {"ask", ask_position}, {"list", list_film},
    {"map", map_film}, {"missmap", missmap_film}, {"index", index_film},
};

static struct asking asking_of(const char *folder, const char *film, const char *what, uint64_t position)
{
    static uint8_t bytes[LONGEST_FILM];
    char name[512];
    snprintf(name, sizeof name, "%s/%s.paff", folder, film);
    FILE *in = fopen(name, "rb");
    if (in == NULL) {
        perror(name);
        exit(2);
    }
    struct asking asked = {bytes, fread(bytes, 1, sizeof bytes, in), position, NULL};
    fclose(in);
    for (size_t i = 0; i < sizeof named / sizeof named[0]; i++) {
        if (strcmp(named[i].name, what) == 0) {
            asked.call = named[i].call;
        }
    }
    if (asked.call == NULL) {
        fprintf(stderr, "no call %s\n", what);
        exit(2);
    }
    return asked;
}

static void compare_on(const char *folder, const char *film, const char *what, uint64_t position)
{
    struct asking asked = asking_of(folder, film, what, position);
    char name[512];
    snprintf(name, sizeof name, "%s %s", what, film);
    compare(name, ask_once, &asked, ROUNDS);
}

/* One call of one program, so many times. */
static void repeat(char **words)
{
    struct asking asked = asking_of(words[1], words[4], words[3], strtoull(words[5], NULL, 10));
    int program = strcmp(words[2], "plain") == 0;
    for (int left = atoi(words[6]); left > 0; left--) {
        ask_once(program, &asked);
    }
}

static void append_once(int program, void *given)
{
    const struct adding *a = given;
    if (program == 1) {
        memcpy(a->buffer + a->length, a->data, a->size);
        return;
    }
    uint64_t list[2] = {a->size, 2}, told[1];
    if (a->program->append(a->buffer, HEAD + a->length + a->size, a->length, 0, 0, true, false, list, 2, a->data, a->size, NULL, 0, NULL, 0, told) != 0) {
        fprintf(stderr, "append refused\n");
        exit(2);
    }
}

static void compare_append(const char *name, const struct calls *program, size_t size, int rounds)
{
    static const uint8_t url[] = "http://films.example/lesson";
    struct adding adding = {malloc(2 * HEAD + size), 0, malloc(size), size, program};
    uint64_t told[1];
    if (adding.buffer == NULL || adding.data == NULL || program->begin(adding.buffer, HEAD, false, url, sizeof url - 1, url, 0, told) != 0) {
        fprintf(stderr, "no room\n");
        exit(2);
    }
    adding.length = told[0];
    memset(adding.data, 7, size);
    compare(name, append_once, &adding, rounds);
    free(adding.buffer);
    free(adding.data);
}

static void compare_calls(const char *folder)
{
    compare_on(folder, "ordinary", "read", 0);
    compare_on(folder, "largest", "read", 0);
    compare_on(folder, "far", "read", 0);
    compare_on(folder, "refused", "read", 0);
    compare_on(folder, "ordinary", "serve", 1048575);
    compare_on(folder, "ordinary", "ask", 1048575);
    compare_on(folder, "in_order", "ask", 65535);
    compare_on(folder, "overlapping", "list", 0);
    compare_on(folder, "in_order", "list", 0);
    compare_on(folder, "in_order", "map", 0);
    compare_on(folder, "in_order", "missmap", 0);
    compare_on(folder, "in_order", "index", 0);
    compare_on(folder, "indexed", "read", 0);
    compare_on(folder, "indexed", "index", 0);
    compare_on(folder, "damaged", "map", 0);
    compare_on(folder, "layered", "read", 0);
    compare_on(folder, "layered", "list", 0);
    compare_on(folder, "layered", "map", 0);
}

static void compare_growth(const char *folder)
{
    static const char *const by_chunks[] = {"chunks_16", "chunks_64", "chunks_256", "chunks_1024"};
    static const char *const by_boxes[] = {"boxes_8", "boxes_64", "boxes_512"};
    for (size_t i = 0; i < sizeof by_chunks / sizeof by_chunks[0]; i++) {
        compare_on(folder, by_chunks[i], "read", 0);
        compare_on(folder, by_chunks[i], "list", 0);
    }
    for (size_t i = 0; i < sizeof by_boxes / sizeof by_boxes[0]; i++) {
        compare_on(folder, by_boxes[i], "read", 0);
    }
}

int main(int count, char **words)
{
    if (count == 7) {
        repeat(words);
        return 0;
    }
    if (count != 2) {
        fprintf(stderr, "usage: bench FOLDER [PROGRAM CALL FILM POSITION TIMES]\n");
        return 2;
    }
    printf("case\tproved\tquartiles\tplain or memcpy\tquartiles\tratio\n");
    compare_calls(words[1]);
    compare_growth(words[1]);
    compare_append("append 1 MiB and memcpy", &proved, MIB, ROUNDS);
    compare_append("append 1 MiB in plain C and memcpy", &plain, MIB, ROUNDS);
    compare_append("append 256 MiB and memcpy", &proved, (size_t)256 * MIB, FEW_ROUNDS);
    compare_append("append 256 MiB in plain C and memcpy", &plain, (size_t)256 * MIB, FEW_ROUNDS);
    return 0;
}
