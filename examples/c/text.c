/*
 * From OpenQASM text to its tree: reads a file, lexes and parses it, resolves the events, and prints the step file as a tree with the text of
 * each token. An error is told with its LINE:COLUMN, a refusal in words. Nothing is allocated: all rooms are static, and as large as the longest
 * text asks for.
 *
 *   text FILE
 *
 * Lines end with LF, CR LF or CR, and a column is a byte; both are counted from 1. Exit status: 0 done, 1 done with errors in the tree, 2 refused,
 * 3 the file cannot be read.
 */
#include <stdio.h>

#include "oq3.h"
#include "oq3_kinds.h"

/* The text, and a byte more, so that oq3_lex sees one that is too long. */
static uint8_t text[OQ3_MOST_TEXT + 1];
static size_t length;

/* What lexing writes. No text has more tokens than bytes, so these rooms are never too small. */
static uint16_t kinds[OQ3_MOST_TEXT];
static uint64_t joints[OQ3_JOINT_WORDS(OQ3_MOST_TEXT)];
static uint32_t tokens[OQ3_TOKEN_WORDS(OQ3_MOST_TEXT)];
static size_t all; /* tokens in the list, white space and comments too */

/* What parsing and resolution write. */
static uint32_t room[OQ3_MOST_ROOM];
static uint8_t steps[OQ3_MOST_STEPS];

/* Where a walk over the tokens is: the token, its first byte, and the line and column of that. */
struct place {
    size_t token, at;
    unsigned long line, column;
};

static const struct place start = { 0, 0, 1, 1 };

/* Moves past a token, byte by byte. The CR of a CR LF does not end the line: its LF does. */
static void pass(struct place *p)
{
    size_t end = p->at + tokens[2 * p->token + 1];
    for (; p->at < end; p->at++) {
        if (text[p->at] == '\n' || (text[p->at] == '\r' && (p->at + 1 == length || text[p->at + 1] != '\n'))) {
            p->line++;
            p->column = 1;
        } else {
            p->column++;
        }
    }
    p->token++;
}

/* Moves to the next token that is no trivia, which may be the one here. Behind the last one this is the end of the text. */
static void settle(struct place *p)
{
    while (p->token < all && (tokens[2 * p->token] == OQ3_KIND_WHITESPACE || tokens[2 * p->token] == OQ3_KIND_COMMENT)) {
        pass(p);
    }
}

/* Says in plain words why a call is refused. The place of 4 to 8 is the number of a token, trivia left out: it is told as LINE:COLUMN. */
static void explain(uint32_t said, uint64_t number)
{
    struct place p = start;
    const char *why = "this is not expected";
    switch (said) {
    case OQ3_TEXT_TOO_LONG: why = "the text is longer than 65,536 bytes"; break;
    case OQ3_NO_TEXT_ROOM: why = "the tokens find no room"; break;
    case OQ3_TOO_LONG: why = "there are more than 8,192 tokens, or more than 65,536 events"; break;
    case OQ3_NO_EVENT_ROOM: why = "the program makes more events than the room holds"; break;
    case OQ3_TOO_DEEP: why = "the program is nested too deep here"; break;
    case OQ3_STUCK: why = "the parser goes round here without taking a token"; break;
    case OQ3_STOPPED: why = "what must stand here does not"; break;
    case OQ3_NO_STEP_ROOM: why = "the steps find no room"; break;
    }
    if (said >= OQ3_BAD_KIND && said <= OQ3_STOPPED) {
        settle(&p);
        while (number-- > 0 && p.token < all) {
            pass(&p);
            settle(&p);
        }
        printf("refused %u at %lu:%lu: %s\n", (unsigned)said, p.line, p.column, why);
    } else {
        printf("refused %u: %s\n", (unsigned)said, why);
    }
}

/* Prints the tree of a step file, and returns how many errors it has. Tokens and errors come in the order of the text: one walk does for all. */
static unsigned long print(const uint8_t *file, size_t bytes)
{
    uint64_t step[OQ3_STEP_WORDS];
    struct place p = start;
    size_t at = 0;
    int depth = 0;
    unsigned long errors = 0;
    while (oq3_read_step(file + at, bytes - at, step, OQ3_STEP_WORDS) == OQ3_DONE && step[1] != OQ3_STEP_END) {
        unsigned first = (unsigned)step[2], second = (unsigned)step[3], third = (unsigned)step[4];
        settle(&p);
        switch (step[1]) {
        case OQ3_STEP_ENTER:
            printf("%*snode %u\n", 2 * depth, "", first);
            depth++;
            break;
        case OQ3_STEP_LEAVE: depth--; break;
        case OQ3_STEP_TOKEN:
            printf("%*stoken %u at %lu:%lu: ", 2 * depth, "", first, p.line, p.column);
            /* a glued one is two or three tokens, with nothing between them */
            for (; second > 0 && p.token < all; second--) {
                fwrite(text + p.at, 1, tokens[2 * p.token + 1], stdout);
                pass(&p);
            }
            printf("\n");
            break;
        case OQ3_STEP_ERROR:
            printf("%*serror %u at %lu:%lu\n", 2 * depth, "", first, p.line, p.column);
            errors++;
            break;
        case OQ3_STEP_EXPECTED:
            printf("%*serror %u at %lu:%lu: expected kind %u, found kind %u\n", 2 * depth, "", first, p.line, p.column, second, third);
            errors++;
            break;
        }
        at += (size_t)step[0];
    }
    return errors;
}

/* From the text to the tree. Returns the exit status. */
static int run(void)
{
    uint64_t answer[OQ3_PARSE_WORDS];
    unsigned long errors;
    size_t count;
    uint32_t said = oq3_lex(text, length, kinds, OQ3_MOST_TEXT, joints, OQ3_JOINT_WORDS(OQ3_MOST_TEXT), tokens, OQ3_TOKEN_WORDS(OQ3_MOST_TEXT), answer, OQ3_LEX_WORDS);
    if (said != OQ3_DONE) {
        explain(said, answer[0]);
        return 2;
    }
    all = (size_t)answer[0];
    count = (size_t)answer[1];

    said = oq3_parse(OQ3_SOURCE_FILE, OQ3_MODE_CRATE, kinds, count, joints, OQ3_JOINT_WORDS(count), room, OQ3_MOST_ROOM, answer, OQ3_PARSE_WORDS);
    if (said != OQ3_DONE) {
        explain(said, answer[0]);
        return 2;
    }
    /* The events are the room's first words; the bytes of their steps are what is said then. */
    said = oq3_resolve(room, OQ3_ROOM_WORDS(answer[1]), steps, OQ3_MOST_STEPS, answer, OQ3_LIST_WORDS);
    if (said != OQ3_DONE) {
        explain(said, answer[0]);
        return 2;
    }
    errors = print(steps, (size_t)answer[0]);
    printf("%lu tokens, %lu errors\n", (unsigned long)count, errors);
    return errors > 0;
}

int main(int words, char **word)
{
    FILE *from;
    int broken;
    if (words != 2) {
        fprintf(stderr, "usage: text FILE\n");
        return 3;
    }
    from = fopen(word[1], "rb");
    if (!from) {
        fprintf(stderr, "there is no file %s\n", word[1]);
        return 3;
    }
    length = fread(text, 1, sizeof text, from);
    broken = ferror(from);
    fclose(from);
    if (broken) {
        fprintf(stderr, "%s cannot be read\n", word[1]);
        return 3;
    }
    return run();
}
