/*
 * The reader of step files beside the loop of plain.c, on one good file.
 *
 *   reader time FILE                 bytes, records, and the times of oq3_read_file and of oq3_read_step one by one, each by that of the loop
 *   reader repeat FILE SIDE COUNT    COUNT turns of one side, for an instrument that counts: plain, whole or steps
 *
 * All three must say the same of the file and of many of its prefixes, or this ends with an error.
 */
#include <stdio.h>
#include <stdlib.h>
#include <string.h>

#include "oq3.h"
#include "plain.h"
#include "rounds.h"

typedef uint32_t (*side)(const uint8_t *, size_t, uint64_t *, size_t);

/* The whole file step by step, each through the C function; the depth is judged here. */
static uint32_t by_steps(const uint8_t *file, size_t length, uint64_t *answer, size_t answer_length)
{
    uint64_t step[OQ3_STEP_WORDS];
    size_t at = 0, records = 0, depth = 0;
    uint32_t said;
    if (answer_length < OQ3_FILE_WORDS) {
        return OQ3_NO_ANSWER_ROOM;
    }
    while ((said = oq3_read_step(file + at, length - at, step, OQ3_STEP_WORDS)) == OQ3_DONE && step[1] != OQ3_STEP_END) {
        if (depth == 0 && (records > 0 || step[1] == OQ3_STEP_LEAVE)) {
            said = OQ3_BAD_NESTING;
            break;
        }
        if (step[1] == OQ3_STEP_ENTER) {
            depth++;
        } else if (step[1] == OQ3_STEP_LEAVE) {
            depth--;
        }
        records++;
        at += (size_t)step[0];
    }
    if (said == OQ3_DONE && (records == 0 || depth > 0)) {
        said = OQ3_BAD_NESTING;
    }
    answer[0] = at;
    answer[1] = said == OQ3_DONE ? records : 0;
    return said;
}

static const side sides[3] = { plain_read_file, oq3_read_file, by_steps };
static const char *const names[3] = { "plain", "whole", "steps" };

static uint8_t file[OQ3_MOST_STEPS];
static size_t length;

static void turns(int number, long count)
{
    uint64_t answer[OQ3_FILE_WORDS];
    for (long i = 0; i < count; i++) {
        if (sides[number](file, length, answer, OQ3_FILE_WORDS) != OQ3_DONE) {
            fprintf(stderr, "reader: the file is not good\n");
            exit(1);
        }
    }
}

/* Whether all sides say the same of the first bytes of the file. */
static void agree(size_t bytes)
{
    uint64_t first[OQ3_FILE_WORDS], other[OQ3_FILE_WORDS];
    uint32_t said = sides[0](file, bytes, first, OQ3_FILE_WORDS);
    for (int i = 1; i < 3; i++) {
        if (sides[i](file, bytes, other, OQ3_FILE_WORDS) != said || memcmp(first, other, sizeof first) != 0) {
            fprintf(stderr, "reader: %s says otherwise than plain of %lu bytes\n", names[i], (unsigned long)bytes);
            exit(1);
        }
    }
}

static void compare_times(void)
{
    double ratios[3];
    uint64_t answer[OQ3_FILE_WORDS];
    medians(turns, 3, ratios);
    oq3_read_file(file, length, answer, OQ3_FILE_WORDS);
    printf("%lu %lu %.2f %.2f\n", (unsigned long)length, (unsigned long)answer[1], ratios[1], ratios[2]);
}

int main(int count, char **words)
{
    FILE *from = count > 2 ? fopen(words[2], "rb") : NULL;
    if (!from) {
        fprintf(stderr, "usage: reader time FILE | repeat FILE SIDE COUNT\n");
        return 2;
    }
    length = fread(file, 1, sizeof file, from);
    fclose(from);
    if (count == 3 && strcmp(words[1], "time") == 0) {
        /* the last thousand prefixes, and those at some distance of one another */
        for (size_t bytes = 0; bytes <= length; bytes += length - bytes > 1000 ? 97 : 1) {
            agree(bytes);
        }
        compare_times();
        return 0;
    }
    for (int i = 0; count == 5 && strcmp(words[1], "repeat") == 0 && i < 3; i++) {
        if (strcmp(words[3], names[i]) == 0) {
            turns(i, atol(words[4]));
            return 0;
        }
    }
    fprintf(stderr, "usage: reader time FILE | repeat FILE SIDE COUNT\n");
    return 2;
}
