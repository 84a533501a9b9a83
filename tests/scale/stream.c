/* Takes numbers, blocks and calls from standard input. */
#include "stream.h"

#include <stdio.h>
#include <stdlib.h>

enum { BLOCKS = 16, NO_BLOCK = 255 };

/* A number stands in the stream as it does in memory, so that rows are compared as bytes. */
_Static_assert(__BYTE_ORDER__ == __ORDER_LITTLE_ENDIAN__, "the stream has the least significant byte first");

static struct block blocks[BLOCKS];
static const struct block nothing;

_Noreturn void give_up(const char *why)
{
    fflush(stdout);
    fprintf(stderr, "scale: %s\n", why);
    exit(2);
}

static void take(void *bytes, size_t length)
{
    if (length > 0 && fread(bytes, 1, length, stdin) != length) {
        give_up("the stream ends too early");
    }
}

uint8_t take_byte(void)
{
    uint8_t byte = 0;
    take(&byte, 1);
    return byte;
}

uint64_t take_number(void)
{
    uint64_t number = 0;
    take(&number, sizeof number);
    return number;
}

static struct block *take_index(void)
{
    unsigned index = take_byte();
    if (index >= BLOCKS) {
        give_up("no such block");
    }
    return &blocks[index];
}

void take_zeros(void)
{
    struct block *block = take_index();
    block->length = take_number();
    block->zeros = true;
}

void take_block(void)
{
    struct block *block = take_index();
    block->length = take_number();
    block->zeros = false;
    if (block->length > block->capacity) {
        free(block->bytes);
        block->bytes = malloc(block->length);
        if (block->bytes == NULL) {
            give_up("no memory for a block");
        }
        block->capacity = block->length;
    }
    take(block->bytes, block->length);
}

static const struct block *take_held(void)
{
    unsigned index = take_byte();
    if (index == NO_BLOCK) {
        return &nothing;
    }
    if (index >= BLOCKS) {
        give_up("no such block");
    }
    return &blocks[index];
}

static void take_told(struct block *told)
{
    static uint8_t bytes[TOLD * sizeof(uint64_t)];
    size_t count = take_byte();
    if (count > TOLD) {
        give_up("too many numbers told");
    }
    told->bytes = bytes;
    told->length = told->capacity = count * sizeof(uint64_t);
    take(bytes, told->length);
}

void take_call(struct takes takes, struct call *call)
{
    call->how = take_byte();
    call->answer = take_number();
    for (size_t at = 0; at < takes.numbers; at++) {
        call->numbers[at] = take_number();
    }
    for (size_t at = 0; at < takes.memories; at++) {
        call->memories[at].length = take_number();
        call->memories[at].before = take_held();
        call->memories[at].after = take_held();
    }
    take_told(&call->told);
}
