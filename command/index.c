/* The index of a partial file: a line for each box of the film that it tells of, for a program or for a person. */
#include "index.h"

#include "say.h"
#include "tables.h"
#include "text.h"

#include <inttypes.h>
#include <stdio.h>

/* How far a level stands in from the one above it. */
enum { INDENT = 2 };

static const char *const words[] = {[VRAZHUPA_NONE] = "none", [VRAZHUPA_SOME] = "some", [VRAZHUPA_ALL] = "all"};

/* The sign before a line of the tree, so that an eye finds what is missing; of a box in part it is that of the bar. */
static const char signs[] = {[VRAZHUPA_NONE] = '-', [VRAZHUPA_SOME] = '%', [VRAZHUPA_ALL] = ' '};

static const uint64_t *row_of(uint64_t number)
{
    return indexed.rows + number * VRAZHUPA_INDEX_ROW;
}

static void put_row(const uint64_t *row)
{
    char type[TYPE_TEXT];
    put_type(type, row[INDEX_TYPE]);
    printf("%" PRIu64 "\t%" PRIu64 "\t%" PRIu64 "\t%s\t%s\n", row[INDEX_LEVEL], row[INDEX_PLACE], row[INDEX_SIZE], type, words[row[INDEX_SERVED]]);
}

/* How wide the columns of a tree are. */
struct widths {
    int box, place, size;
};

static int wider(int width, int other)
{
    return width > other ? width : other;
}

static int indent_of(const uint64_t *row)
{
    return INDENT * ((int)row[INDEX_LEVEL] - 1);
}

/* As wide as the widest field of each column, its heading among them. */
static struct widths widths_of(void)
{
    struct widths widths = {(int)sizeof "box" - 1, (int)sizeof "place" - 1, (int)sizeof "size" - 1};
    for (uint64_t i = 0; i < indexed.count; i++) {
        const uint64_t *row = row_of(i);
        char type[TYPE_TEXT];
        widths.box = wider(widths.box, indent_of(row) + put_type(type, row[INDEX_TYPE]));
        widths.place = wider(widths.place, grouped_width(row[INDEX_PLACE]));
        widths.size = wider(widths.size, grouped_width(row[INDEX_SIZE]));
    }
    return widths;
}

static void put_number(uint64_t number, int width)
{
    printf("%*s", 2 + width - grouped_width(number), "");
    put_grouped(number);
}

static void put_branch(const uint64_t *row, struct widths widths)
{
    char type[TYPE_TEXT];
    put_type(type, row[INDEX_TYPE]);
    printf("%c %*s%-*s", signs[row[INDEX_SERVED]], indent_of(row), "", widths.box - indent_of(row), type);
    put_number(row[INDEX_PLACE], widths.place);
    put_number(row[INDEX_SIZE], widths.size);
    printf("  %s\n", words[row[INDEX_SERVED]]);
}

/* The last line: how many boxes there are, and how many are there wholly, in part and not at all. */
static void put_counts(void)
{
    uint64_t counts[] = {[VRAZHUPA_NONE] = 0, [VRAZHUPA_SOME] = 0, [VRAZHUPA_ALL] = 0};
    for (uint64_t i = 0; i < indexed.count; i++) {
        counts[row_of(i)[INDEX_SERVED]]++;
    }
    put_grouped(indexed.count);
    printf(indexed.count == 1 ? " box: " : " boxes: ");
    put_grouped(counts[VRAZHUPA_ALL]);
    printf(" whole, ");
    put_grouped(counts[VRAZHUPA_SOME]);
    printf(" in part, ");
    put_grouped(counts[VRAZHUPA_NONE]);
    printf(" missing\n");
}

static void put_tree(void)
{
    struct widths widths = widths_of();
    printf("  %-*s  %*s  %*s\n", widths.box, "box", widths.place, "place", widths.size, "size");
    for (uint64_t i = 0; i < indexed.count; i++) {
        put_branch(row_of(i), widths);
    }
    put_counts();
}

void show_index(const char *name, bool tree)
{
    uint64_t number = read_index(map_locked(name));
    if (number != 0) {
        refused(name, number);
    }
    if (tree && indexed.count > 0) {
        put_tree();
    } else if (tree) {
        note(name, "no box is indexed");
    }
    for (uint64_t i = 0; i < indexed.count && !tree; i++) {
        put_row(row_of(i));
    }
    end(DONE);
}
