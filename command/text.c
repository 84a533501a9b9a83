/* Texts of a file on standard output. */
#include "text.h"

#include <inttypes.h>
#include <stdio.h>
#include <string.h>

void put_printing(const uint8_t *text, size_t length)
{
    for (size_t i = 0; i < length; i++) {
        printf(text[i] < ' ' || text[i] > '~' || text[i] == '\\' ? "\\x%02x" : "%c", text[i]);
    }
}

void put_percent(const uint8_t *text, size_t length)
{
    for (size_t i = 0; i < length; i++) {
        printf(text[i] <= ' ' || text[i] > '~' || strchr("\"<>\\^`{|}", text[i]) != NULL ? "%%%02X" : "%c", text[i]);
    }
}

/* The character of UTF-8 at a place, and how many bytes it has; a byte that begins none stands for itself. */
static uint32_t character_at(const uint8_t *text, size_t left, size_t *size)
{
    static const uint32_t least[] = {0, 0x80, 0x800, 0x10000};
    size_t more = text[0] >= 0xf8 ? 0 : text[0] >= 0xf0 ? 3 : text[0] >= 0xe0 ? 2 : text[0] >= 0xc0 ? 1 : 0;
    uint32_t character = text[0] & (0x7fu >> more >> (more > 0));
    *size = 1;
    if (more == 0 || more >= left) {
        return text[0];
    }
    for (size_t i = 1; i <= more; i++) {
        if ((text[i] & 0xc0) != 0x80) {
            return text[0];
        }
        character = character << 6 | (text[i] & 0x3f);
    }
    if (character < least[more] || character > 0x10ffff || (character >= 0xd800 && character < 0xe000)) {
        return text[0];
    }
    *size = more + 1;
    return character;
}

void put_json(const uint8_t *text, size_t length)
{
    putchar('"');
    for (size_t at = 0, size; at < length; at += size) {
        uint32_t character = character_at(text + at, length - at, &size);
        if (character > 0xffff) {
            printf("\\u%04" PRIx32 "\\u%04" PRIx32, 0xd7c0 + (character >> 10), 0xdc00 + (character & 0x3ff));
        } else if (character < ' ' || character > '~') {
            printf("\\u%04" PRIx32, character);
        } else {
            printf(character == '"' || character == '\\' ? "\\%c" : "%c", (int)character);
        }
    }
    putchar('"');
}

void put_grouped(uint64_t number)
{
    if (number >= 1000) {
        put_grouped(number / 1000);
        printf(",%03" PRIu64, number % 1000);
    } else {
        printf("%" PRIu64, number);
    }
}

int grouped_width(uint64_t number)
{
    int digits = 1;
    for (; number >= 10; number /= 10) {
        digits++;
    }
    return digits + (digits - 1) / 3;
}

int put_type(char text[TYPE_TEXT], uint64_t type)
{
    int length = 0;
    for (int shift = 24; shift >= 0; shift -= 8) {
        unsigned byte = type >> shift & 0xff;
        length += snprintf(text + length, (size_t)(TYPE_TEXT - length), byte < ' ' || byte > '~' ? "\\x%02x" : "%c", byte);
    }
    return length;
}
