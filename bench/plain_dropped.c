/* Writes the places and numbers of the boxes that salvage drops, and of the framing error that it ends at, as text into a
   lent buffer. */
#include "plain_salvage.h"
#include "plain_text.h"

static uint8_t *put_line(uint8_t *at, file_place place, unsigned number)
{
    return put_number(put_number(at, place, '\t'), number, '\n');
}

static uint8_t *put_dropped(uint8_t *at, const struct spoiled *spoiled)
{
    for (uint32_t i = 0; i < spoiled->boxes; i++)
        if (spoiled->fate[i] != KEPT)
            at = put_line(at, spoiled->box[i].place, spoiled->fate[i]);
    if (spoiled->error != ACCEPTED)
        at = put_line(at, spoiled->error_place, spoiled->error);
    return at;
}

uint64_t vrazhupa_salvage_lines(const uint8_t *file, size_t file_length, uint64_t most, uint8_t *buffer, size_t buffer_length, uint64_t told[1])
{
    struct spoiled spoiled;
    uint8_t text[SALVAGE_TEXT], *end;
    enum refusal refusal = file_length > most ? INPUT_OVER_LIMIT : plain_judge_boxes(file, file_length, &spoiled);
    size_t length;

    end = refusal == ACCEPTED ? put_dropped(text, &spoiled) : put_refusal(text, refusal);
    length = (size_t)(end - text);
    if (buffer_length < length)
        return BUFFER_TOO_SHORT;
    if (length > 0)
        memcpy(buffer, text, length);
    told[0] = length;
    return ACCEPTED;
}
