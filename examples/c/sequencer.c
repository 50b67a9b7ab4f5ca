/*
 * Runs the step file of a parse: a sketch of what a sequencer does. It links liboq3_read.a alone, and takes its memory beforehand.
 *
 *   sequencer FILE
 *
 * Nothing is run unless the whole file is good. Exit status: 0 all steps are run, 2 the file is refused and none is, 3 it cannot be read.
 * docs/SEQUENCERS.md says what to do at each answer.
 */
#include <stdio.h>

#include "oq3.h"

/* The longest step file of a parse, and a byte more, so that a longer one is seen. */
static uint8_t buffer[OQ3_MOST_STEPS + 1];

/* Says in plain words why a file is refused. */
static void explain(uint32_t said, uint64_t place, size_t length)
{
    unsigned long at = (unsigned long)place;
    if (said == OQ3_CUT_RECORD) {
        fprintf(stderr, "the record at byte %lu is cut: the file has not come whole\n", at);
    } else if (said == OQ3_BAD_RECORD) {
        fprintf(stderr, "the record at byte %lu is none that is known here: bytes are damaged, or the writer is newer\n", at);
    } else if (said == OQ3_BAD_NESTING && length == 0) {
        fprintf(stderr, "the file is empty\n");
    } else if (said == OQ3_BAD_NESTING && place == length) {
        fprintf(stderr, "the file ends at byte %lu with a node open: its rest is missing\n", at);
    } else if (said == OQ3_BAD_NESTING) {
        fprintf(stderr, "the record at byte %lu is outside of the tree: two files in one, or no file of a source-file parse\n", at);
    } else {
        fprintf(stderr, "the reader says %lu\n", (unsigned long)said);
    }
}

/* Runs one step. Here it prints it. */
static void perform(const uint64_t *step)
{
    unsigned long first = (unsigned long)step[2], second = (unsigned long)step[3], third = (unsigned long)step[4];
    switch (step[1]) {
    case OQ3_STEP_ENTER: printf("enter %lu\n", first); break;
    case OQ3_STEP_LEAVE: printf("leave\n"); break;
    case OQ3_STEP_TOKEN: printf("token %lu %lu\n", first, second); break;
    case OQ3_STEP_ERROR: printf("error %lu %lu\n", first, second); break;
    case OQ3_STEP_EXPECTED: printf("error %lu %lu %lu\n", first, second, third); break; /* code 1; the kinds expected and found */
    }
}

/* Runs a whole file, or nothing. Returns OQ3_DONE, or why it is refused. */
static uint32_t run(const uint8_t *file, size_t length)
{
    uint64_t whole[OQ3_FILE_WORDS], step[OQ3_STEP_WORDS];
    uint32_t said = oq3_read_file(file, length, whole, OQ3_FILE_WORDS);
    size_t at = 0;
    if (said != OQ3_DONE) {
        explain(said, whole[0], length);
        return said;
    }
    /* the file is good: each call is done now, and the last one says the end */
    while ((said = oq3_read_step(file + at, length - at, step, OQ3_STEP_WORDS)) == OQ3_DONE && step[1] != OQ3_STEP_END) {
        perform(step);
        at += (size_t)step[0];
    }
    return said;
}

int main(int count, char **words)
{
    size_t length;
    FILE *from;
    if (count != 2) {
        fprintf(stderr, "usage: sequencer FILE\n");
        return 3;
    }
    from = fopen(words[1], "rb");
    if (!from) {
        fprintf(stderr, "there is no file %s\n", words[1]);
        return 3;
    }
    length = fread(buffer, 1, sizeof buffer, from);
    if (ferror(from)) {
        fprintf(stderr, "the file %s cannot be read\n", words[1]);
        fclose(from);
        return 3;
    }
    fclose(from);
    if (length == sizeof buffer) {
        fprintf(stderr, "the file has more than %lu bytes, and no parse makes such a one\n", (unsigned long)OQ3_MOST_STEPS);
        return 2;
    }
    return run(buffer, length) == OQ3_DONE ? 0 : 2;
}
