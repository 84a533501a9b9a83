/* What each refusal says. README.md has the same sentences in its table. */
#include "refusals.h"

#include "vrazhupa.h"

#include <stddef.h>

static const char *const sentences[] = {
    [VRAZHUPA_FILE_OVER_LIMIT] = "the file is, or would be, over its limit of 1,073,741,824 bytes",
    [VRAZHUPA_HEADER_CUT_SHORT] = "a header is cut short",
    [VRAZHUPA_SIZE_ZERO] = "a size field is 0",
    [VRAZHUPA_SIZE_UNDER_HEADER] = "a size is smaller than its header, to which the user type of a `uuid` counts",
    [VRAZHUPA_BOX_PAST_CONTAINER] = "a box ends after its container",
    [VRAZHUPA_TOO_MANY_BOXES] = "a container holds, or would hold, a 513th box",
    [VRAZHUPA_FTYP_WRONG] = "`ftyp` is not first, ill-formed or not single",
    [VRAZHUPA_NO_BRAND] = "no compatible brand is `paff` or `pmff`",
    [VRAZHUPA_PFIL_WRONG] = "`pfil` is not second or not single",
    [VRAZHUPA_PFHD_WRONG] = "there is not exactly one well-formed `pfhd`",
    [VRAZHUPA_SURL_WRONG] = "a `surl` in `pfil` is ill-formed",
    [VRAZHUPA_NO_SEGMENT] = "there is no `pseg`: nothing was appended yet",
    [VRAZHUPA_TOO_MANY_SEGMENTS] = "there are, or would be, over 64 `pseg`",
    [VRAZHUPA_PSHD_WRONG] = "`pshd` is not first, not single or ill-formed",
    [VRAZHUPA_NOT_ONE_PLOC] = "there is not exactly one `ploc` in a `pseg`",
    [VRAZHUPA_SEGMENT_SURL_WRONG] = "a `surl` in a `pseg` is ill-formed",
    [VRAZHUPA_PLOC_WRONG] = "`ploc` is ill-formed, cut short or has bytes left over",
    [VRAZHUPA_WIDTH_OVER_EIGHT] = "a width of `ploc` is over 8",
    [VRAZHUPA_DATA_REFERENCE] = "the data reference index is not 0",
    [VRAZHUPA_RESERVED_BIT] = "a reserved bit is set",
    [VRAZHUPA_TOO_MANY_CHUNKS] = "there are, or would be, over 1,024 chunks so far",
    [VRAZHUPA_POSITION_OVER_LIMIT] = "a source offset or chunk end is over its limit of 1,099,511,627,775",
    [VRAZHUPA_CHUNK_MISPLACED] = "a chunk does not lie in one `pdat` body, nor is a good one of a mixed file whole boxes outside",
    [VRAZHUPA_SIZES_DISAGREE] = "known sizes of one source differ, or something lies above its known size",
    [VRAZHUPA_TABLE_TOO_SHORT] = "a lent table or list is too short",
    [VRAZHUPA_INPUT_OVER_LIMIT] = "a program's input is over 65,536 bytes",
    [VRAZHUPA_LENGTH_OVER_BUFFER] = "the stated length exceeds the buffer",
    [VRAZHUPA_CHUNK_LIST_WRONG] = "a chunk list is odd, has size 0 or a state above 3, or a list of text lengths is odd",
    [VRAZHUPA_DATA_NOT_AS_SIZES] = "the data does not match the sizes, or the texts do not match their lengths",
    [VRAZHUPA_BUFFER_TOO_SHORT] = "the buffer is too short for the result",
    [VRAZHUPA_ZERO_IN_TEXT] = "a URL or MIME text has a zero byte",
    [VRAZHUPA_NOT_TO_GO_OUTSIDE] = "a good chunk to go outside is not whole allowed boxes, or its file is not mixed",
    [VRAZHUPA_INDEX_WRONG] = "an index is wrong: its framing, a cut field, a size, what fills a box, a second `fidx` or front part, or an end",
    [VRAZHUPA_NINTH_LEVEL] = "an index has a ninth level",
    [VRAZHUPA_INDEXES_IN_BOTH] = "there are indexes both in `pfil` and in a `pseg`",
    [VRAZHUPA_END_UNKNOWN] = "an indexed size of 0 runs to an end that is not known",
    [VRAZHUPA_TOO_MANY_SOURCES] = "there are, or would be, over 8 sources",
    [VRAZHUPA_NO_URL] = "a `pseg` has, or would have, no `surl`, and neither has `pfil`",
};

const char *sentence_of(uint64_t number)
{
    return number < sizeof sentences / sizeof sentences[0] ? sentences[number] : NULL;
}
