/*
 * The library beside an older one, both in this program: the functions of the older one have before_ in front of their names.
 *
 *   before FILE    of each program of FILE, as `bench programs` writes them: its tokens and errors, and the time of the library by that of the
 *                  older one, for a parse and for a parse with its resolution
 *
 * Each has rooms of the size that it needs. Both must be done with the same tokens, events and lookups, or this ends with an error.
 */
#include <stdio.h>
#include <stdlib.h>
#include <string.h>

#include "oq3.h"
#include "rounds.h"

extern uint32_t before_oq3_parse(uint32_t entry, uint32_t mode, const uint16_t *kinds, size_t kinds_length, const uint64_t *joints,
                                 size_t joints_length, uint32_t *room, size_t room_length, uint64_t *answer, size_t answer_length);
extern uint32_t before_oq3_resolve(uint32_t *words, size_t words_length, uint8_t *steps, size_t steps_length, uint64_t *answer,
                                   size_t answer_length);

enum { LARGEST = 2 * OQ3_MOST_ROOM, LONGEST = 2 * OQ3_MOST_STEPS, ANSWERS = 8 };

static uint16_t kinds[OQ3_MOST_TOKENS];
static uint64_t joints[OQ3_MOST_TOKENS / 64];
static size_t tokens, words_of_joints;

/* The older library's call and rooms, and the library's: what is lent, and how many words of the list a done parse leaves to be resolved. */
static struct side {
    __typeof__(&oq3_parse) parse;
    __typeof__(&oq3_resolve) resolve;
    uint32_t room[LARGEST];
    uint8_t steps[LONGEST];
    size_t words, list, bytes;
    uint64_t answer[ANSWERS];
} sides[2] = { { .parse = before_oq3_parse, .resolve = before_oq3_resolve }, { .parse = oq3_parse, .resolve = oq3_resolve } };

static int both;

static uint32_t parsed(struct side *s)
{
    return s->parse(OQ3_SOURCE_FILE, OQ3_MODE_CRATE, kinds, tokens, joints, words_of_joints, s->room, s->words, s->answer, ANSWERS);
}

static void turns(int number, long count)
{
    struct side *s = &sides[number];
    for (long i = 0; i < count; i++) {
        if (parsed(s) != OQ3_DONE || (both && s->resolve(s->room, s->list, s->steps, s->bytes, s->answer, ANSWERS) != OQ3_DONE)) {
            fprintf(stderr, "before: a side is not done\n");
            exit(1);
        }
    }
}

/* The least rooms of a side; its answer is that of the parse. */
static void needs(struct side *s, size_t event_words)
{
    uint64_t said[ANSWERS];
    size_t below = 0;
    s->words = LARGEST;
    while (s->words - below > 1) {
        size_t above = s->words;
        s->words = below + (above - below) / 2;
        if (parsed(s) != OQ3_DONE) {
            below = s->words;
            s->words = above;
        }
    }
    parsed(s);
    memcpy(said, s->answer, sizeof said);
    s->list = event_words * (size_t)said[1];
    s->resolve(s->room, s->list, s->steps, LONGEST, s->answer, ANSWERS);
    s->bytes = (size_t)s->answer[0];
    memcpy(s->answer, said, sizeof said);
}

static size_t errors(const struct side *s)
{
    uint64_t step[OQ3_STEP_WORDS];
    size_t count = 0;
    for (size_t at = 0; oq3_read_step(s->steps + at, s->bytes - at, step, OQ3_STEP_WORDS) == OQ3_DONE && step[1] != OQ3_STEP_END;) {
        count += step[1] == OQ3_STEP_ERROR || step[1] == OQ3_STEP_EXPECTED;
        at += (size_t)step[0];
    }
    return count;
}

/* The numbers of a list, parted by commas. */
static size_t numbers(const char *text, int base, void (*put)(size_t, unsigned long long))
{
    size_t count = 0;
    for (char *end; *text && *text != '-'; text = *end ? end + 1 : end) {
        put(count++, strtoull(text, &end, base));
    }
    return count;
}

static void put_kind(size_t i, unsigned long long n) { kinds[i] = (uint16_t)n; }
static void put_joint(size_t i, unsigned long long n) { joints[i] = (uint64_t)n; }

int main(int count, char **words)
{
    static char line[1 << 20];
    FILE *from = count == 2 ? fopen(words[1], "r") : NULL;
    if (!from) {
        fprintf(stderr, "usage: before FILE\n");
        return 2;
    }
    while (fgets(line, sizeof line, from)) {
        double parse[2], all[2];
        strtok(line, " ");
        strtok(NULL, " ");
        tokens = numbers(strtok(NULL, " "), 10, put_kind);
        words_of_joints = numbers(strtok(NULL, " \n"), 16, put_joint);
        needs(&sides[0], OQ3_EVENT_WORDS);
        needs(&sides[1], OQ3_EVENT_WORDS);
        if (memcmp(sides[0].answer, sides[1].answer, OQ3_PARSE_WORDS * sizeof sides[0].answer[0]) != 0 || sides[0].answer[0] != tokens) {
            fprintf(stderr, "before: the two say otherwise of a program\n");
            return 1;
        }
        both = 0;
        medians(turns, 2, parse);
        both = 1;
        medians(turns, 2, all);
        printf("%lu %lu %.3f %.3f\n", (unsigned long)tokens, (unsigned long)errors(&sides[1]), parse[1], all[1]);
        fflush(stdout);
    }
    return 0;
}
