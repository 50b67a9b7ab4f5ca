/*
 * Parses a small program, resolves it, reads its step file and prints the tree; then the same of its beginning, where a token is missing; then
 * shows a refusal. The tokens are written out here, with the names of oq3_kinds.h; text.c has them from a text, by oq3_lex. sequencer.c reads a
 * step file that another program has made.
 */
#include <stdio.h>

#include "oq3.h"
#include "oq3_kinds.h"

#define EVENTS 128 /* more than this program needs; OQ3_MOST_EVENTS is enough for all */
#define SMALL 10   /* fewer than it needs */

/* A Bell pair. */
static const uint16_t kinds[] = {
    /* qubit[2] q; */
    OQ3_KIND_QUBIT_KW, OQ3_KIND_L_BRACK, OQ3_KIND_INT_NUMBER, OQ3_KIND_R_BRACK, OQ3_KIND_IDENT, OQ3_KIND_SEMICOLON,
    /* h q[0]; */
    OQ3_KIND_IDENT, OQ3_KIND_IDENT, OQ3_KIND_L_BRACK, OQ3_KIND_INT_NUMBER, OQ3_KIND_R_BRACK, OQ3_KIND_SEMICOLON,
    /* cx q[0], q[1]; */
    OQ3_KIND_IDENT, OQ3_KIND_IDENT, OQ3_KIND_L_BRACK, OQ3_KIND_INT_NUMBER, OQ3_KIND_R_BRACK, OQ3_KIND_COMMA,
    OQ3_KIND_IDENT, OQ3_KIND_L_BRACK, OQ3_KIND_INT_NUMBER, OQ3_KIND_R_BRACK, OQ3_KIND_SEMICOLON
};

#define TOKENS (sizeof kinds / sizeof *kinds)
#define CUT 5 /* the first tokens, up to the semicolon that they miss */

/* No two of these tokens are glued, as the halves of == are, so no bit is needed. */
static const uint64_t joints[OQ3_JOINT_WORDS(TOKENS)] = { 0 };

/* The rooms: static here, so nothing is allocated. */
static uint32_t room[OQ3_ROOM_WORDS(EVENTS)];
static uint8_t steps[OQ3_STEP_BYTES(EVENTS)];
static uint64_t answer[OQ3_PARSE_WORDS];

static const char *name_of(unsigned kind)
{
    switch (kind) {
    case OQ3_KIND_EOF: return " end";
    case OQ3_KIND_SEMICOLON: return " ;";
    case OQ3_KIND_COMMA: return " ,";
    case OQ3_KIND_L_BRACK: return " [";
    case OQ3_KIND_R_BRACK: return " ]";
    case OQ3_KIND_QUBIT_KW: return " qubit";
    case OQ3_KIND_INT_NUMBER: return " integer";
    case OQ3_KIND_IDENT: return " identifier";
    case OQ3_KIND_SOURCE_FILE: return " source file";
    case OQ3_KIND_GATE_CALL_EXPR: return " gate call";
    case OQ3_KIND_QUANTUM_DECLARATION_STATEMENT: return " qubit declaration";
    default: return "";
    }
}

/* Prints a step file as an indented tree. Returns the raw tokens that its steps cover, or -1 where the file is not good. */
static long walk(const uint8_t *file, size_t length)
{
    uint64_t whole[OQ3_FILE_WORDS], step[OQ3_STEP_WORDS];
    size_t at = 0;
    long tokens = 0;
    int depth = 0;
    if (oq3_read_file(file, length, whole, OQ3_FILE_WORDS) != OQ3_DONE) {
        return -1;
    }
    while (oq3_read_step(file + at, length - at, step, OQ3_STEP_WORDS) == OQ3_DONE && step[1] != OQ3_STEP_END) {
        unsigned first = (unsigned)step[2], second = (unsigned)step[3], third = (unsigned)step[4];
        if (step[1] == OQ3_STEP_ENTER) {
            printf("%*snode %u%s\n", 2 * depth, "", first, name_of(first));
            depth++;
        } else if (step[1] == OQ3_STEP_LEAVE) {
            depth--;
        } else if (step[1] == OQ3_STEP_TOKEN) {
            printf("%*stoken %u%s\n", 2 * depth, "", first, name_of(first));
            tokens += (long)second;
        } else if (step[1] == OQ3_STEP_EXPECTED) {
            printf("%*serror %u, expected %u%s but found %u%s\n", 2 * depth, "", first, second, name_of(second), third, name_of(third));
        } else {
            printf("%*serror %u, argument %u\n", 2 * depth, "", first, second);
        }
        at += (size_t)step[0];
    }
    return tokens;
}

/* Parses the first tokens of the program and prints the tree. Returns whether that was done. */
static int show(size_t tokens)
{
    uint32_t said = oq3_parse(OQ3_SOURCE_FILE, OQ3_MODE_CRATE, kinds, tokens, joints, OQ3_JOINT_WORDS(tokens), room, OQ3_ROOM_WORDS(EVENTS),
                              answer, OQ3_PARSE_WORDS);
    if (said != OQ3_DONE) {
        printf("the parse is refused with %u at token %lu\n", (unsigned)said, (unsigned long)answer[0]);
        return 0;
    }
    printf("%lu tokens, %lu events, %lu lookups\n", (unsigned long)answer[0], (unsigned long)answer[1], (unsigned long)answer[2]);

    /* The list is the room's first words: two for each event. */
    size_t words = OQ3_ROOM_WORDS(answer[1]);
    said = oq3_resolve(room, words, steps, sizeof steps, answer, OQ3_PARSE_WORDS);
    if (said != OQ3_DONE) {
        printf("the resolution is refused with %u\n", (unsigned)said);
        return 0;
    }
    if (walk(steps, (size_t)answer[0]) != (long)tokens) {
        printf("the steps do not cover the tokens\n");
        return 0;
    }
    return 1;
}

int main(void)
{
    uint32_t said;
    if (!show(TOKENS) || !show(CUT)) {
        return 1;
    }

    /* A small room. Nothing is handed out, the room is zero, and the answer says how far the parse came. */
    said = oq3_parse(OQ3_SOURCE_FILE, OQ3_MODE_CRATE, kinds, TOKENS, joints, OQ3_JOINT_WORDS(TOKENS), room, OQ3_ROOM_WORDS(SMALL), answer,
                     OQ3_PARSE_WORDS);
    if (said != OQ3_NO_EVENT_ROOM) {
        printf("a room of %d events was expected to be refused, not told with %u\n", SMALL, (unsigned)said);
        return 1;
    }
    printf("a room of %d events: refused with %u after %lu tokens\n", SMALL, (unsigned)said, (unsigned long)answer[0]);
    return 0;
}
