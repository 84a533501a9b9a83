/* Writes the list of the boxes of a file, and where and why their framing breaks off, as text into a lent buffer. */
#include "plain.h"
#include "plain_text.h"

/* A line is no longer than two numbers of ten digits, a type and a user type in hexadecimal, their tabs and the line's
   end; so is that of a fault or of a refusal. */
enum { LONGEST_TYPE = 4 * 4, LONGEST_LINE = 11 + 11 + LONGEST_TYPE + 1 + 2 * USER_TYPE + 1, LONGEST_TEXT = (MOST_BOXES + 1) * LONGEST_LINE };

static uint8_t *put_hex(uint8_t *at, uint8_t byte)
{
    static const char hex[] = "0123456789abcdef";

    *at++ = (uint8_t)hex[byte >> 4];
    *at++ = (uint8_t)hex[byte & 15];
    return at;
}

/* Writes a type, each byte that does not print in hexadecimal. */
static uint8_t *put_type(uint8_t *at, const uint8_t type[4])
{
    for (int i = 0; i < 4; i++) {
        if (type[i] >= 32 && type[i] <= 126)
            *at++ = type[i];
        else
            at = put_hex(put_text(at, "\\x", 2), type[i]);
    }
    return at;
}

static uint8_t *put_box(uint8_t *at, const uint8_t *file, const struct box *box)
{
    at = put_number(at, box->place, '\t');
    at = put_number(at, box->end - box->place, '\t');
    at = put_type(at, file + box->place + 4);
    if (box->type == UUID) {
        *at++ = '\t';
        for (file_place place = box->body - USER_TYPE; place < box->body; place++)
            at = put_hex(at, file[place]);
    }
    *at++ = '\n';
    return at;
}

/* Writes the lines of the boxes up to the first fault, and then its place and its number. */
static uint8_t *put_boxes(uint8_t *at, const uint8_t *file, size_t file_length)
{
    struct container in = {0, (uint32_t)file_length, 0};

    while (in.place < in.end) {
        struct box box;
        enum refusal refusal = next_box(file, &in, &box);
        if (refusal != ACCEPTED)
            return put_number(put_number(at, in.place, '\t'), refusal, '\n');
        at = put_box(at, file, &box);
    }
    return at;
}

uint64_t vrazhupa_boxes(const uint8_t *file, size_t file_length, uint64_t most, uint8_t *buffer, size_t buffer_length, uint64_t told[1])
{
    uint8_t text[LONGEST_TEXT], *end;
    size_t length;

    if (file_length > most)
        end = put_refusal(text, INPUT_OVER_LIMIT);
    else if (file_length > VRAZHUPA_FILE)
        end = put_refusal(text, FILE_OVER_LIMIT);
    else
        end = put_boxes(text, file, file_length);
    length = (size_t)(end - text);
    if (buffer_length < length)
        return BUFFER_TOO_SHORT;
    if (length > 0)
        memcpy(buffer, text, length);
    told[0] = length;
    return ACCEPTED;
}
