/*
 * A whole step file in one plain loop, with the tests of oq3_read_file: what a C programmer would write. It stands in a file of its own so
 * that the compiler cannot move it into what times it.
 */
#include "plain.h"

#include "oq3.h"

static unsigned two_bytes(const uint8_t *at)
{
    return at[0] + 256u * at[1];
}

uint32_t plain_read_file(const uint8_t *file, size_t file_length, uint64_t *answer, size_t answer_length)
{
    size_t at = 0, records = 0, depth = 0;
    uint32_t said = OQ3_DONE;
    if (answer_length < OQ3_FILE_WORDS) {
        return OQ3_NO_ANSWER_ROOM;
    }
    while (at < file_length) {
        size_t left = file_length - at;
        const uint8_t *record = file + at;
        unsigned payload, kind;
        if (left < 4) {
            said = OQ3_CUT_RECORD;
            break;
        }
        payload = two_bytes(record);
        kind = two_bytes(record + 2);
        if (left - 4 < payload) {
            said = OQ3_CUT_RECORD;
            break;
        }
        if (!((kind == OQ3_STEP_ENTER && payload == 2) || (kind == OQ3_STEP_LEAVE && payload == 0) ||
              (kind == OQ3_STEP_TOKEN && payload == 3 && record[6] >= 1 && record[6] <= 3) || (kind == OQ3_STEP_ERROR && payload == 4) ||
              (kind == OQ3_STEP_EXPECTED && payload == 6 && two_bytes(record + 4) == 1))) {
            said = OQ3_BAD_RECORD;
            break;
        }
        if (depth == 0 && (records > 0 || kind == OQ3_STEP_LEAVE)) {
            said = OQ3_BAD_NESTING;
            break;
        }
        if (kind == OQ3_STEP_ENTER) {
            depth++;
        } else if (kind == OQ3_STEP_LEAVE) {
            depth--;
        }
        records++;
        at += 4 + payload;
    }
    if (said == OQ3_DONE && (records == 0 || depth > 0)) {
        said = OQ3_BAD_NESTING;
    }
    answer[0] = at;
    answer[1] = said == OQ3_DONE ? records : 0;
    return said;
}
