/*
 * Runs each function of oq3.h and each number that it can say. What is expected is written from docs/RULES.md. Around every lent room there
 * are guard words, and each call is followed by a look at all that it must not have touched.
 */
#include <stdio.h>
#include <string.h>

#include "oq3_kinds.h"
#include "oq3.h"

#define GUARD 16 /* elements on both sides of a room */
#define LEAST 22508 /* events of the least room in which `def f ( 3` is refused with 7 (docs/PANICS.md) */
#define JOINTS (OQ3_JOINT_WORDS(OQ3_MOST_TOKENS) + 1)
#define STEPS 1024 /* bytes of the step room */

/* The kinds by shorter names. */
enum {
    L_PAREN = OQ3_KIND_L_PAREN, R_CURLY = OQ3_KIND_R_CURLY, MINUS = OQ3_KIND_MINUS, DEF_KW = OQ3_KIND_DEF_KW, DELAY_KW = OQ3_KIND_DELAY_KW,
    RESET_KW = OQ3_KIND_RESET_KW, INT_NUMBER = OQ3_KIND_INT_NUMBER, IDENT = OQ3_KIND_IDENT, SEMICOLON = OQ3_KIND_SEMICOLON, EQ = OQ3_KIND_EQ,
    EQ2 = OQ3_KIND_EQ2, ERROR = OQ3_KIND_ERROR, BIN_EXPR = OQ3_KIND_BIN_EXPR, IDENTIFIER = OQ3_KIND_IDENTIFIER, BREAK_KW = OQ3_KIND_BREAK_KW,
    BREAK_STMT = OQ3_KIND_BREAK_STMT, L_ANGLE = OQ3_KIND_L_ANGLE, WHITESPACE = OQ3_KIND_WHITESPACE, COMMENT = OQ3_KIND_COMMENT
};

static int failed;

#define IS(what, expected) is(__LINE__, #what, (uint64_t)(what), (uint64_t)(expected))

static void is(int line, const char *what, uint64_t got, uint64_t expected)
{
    if (got != expected) {
        printf("test.c:%d: %s is %llu, expected %llu\n", line, what, (unsigned long long)got, (unsigned long long)expected);
        failed = 1;
    }
}

/* The rooms with their guards. All is filled with 0xa5 before a call. */
static uint16_t kinds_all[GUARD + OQ3_MOST_TOKENS + 1 + GUARD], *const kinds = kinds_all + GUARD;
static uint64_t joints_all[GUARD + JOINTS + GUARD], *const joints = joints_all + GUARD;
static uint32_t room_all[GUARD + OQ3_MOST_ROOM + OQ3_EVENT_WORDS + GUARD], *const room = room_all + GUARD;
static uint8_t steps_all[GUARD + STEPS + GUARD], *const steps = steps_all + GUARD;
static uint64_t answer_all[GUARD + 8 + GUARD], *const answer = answer_all + GUARD;
static uint8_t text_all[GUARD + OQ3_MOST_TEXT + 1 + GUARD], *const text = text_all + GUARD;

static uint16_t kinds_before[GUARD + OQ3_MOST_TOKENS + 1 + GUARD];
static uint64_t joints_before[GUARD + JOINTS + GUARD];
static uint32_t room_before[GUARD + OQ3_MOST_ROOM + OQ3_EVENT_WORDS + GUARD];
static uint8_t steps_before[GUARD + STEPS + GUARD];
static uint8_t text_before[GUARD + OQ3_MOST_TEXT + 1 + GUARD];

static void fill(void)
{
    memset(kinds_all, 0xa5, sizeof kinds_all);
    memset(joints_all, 0xa5, sizeof joints_all);
    memset(room_all, 0xa5, sizeof room_all);
    memset(steps_all, 0xa5, sizeof steps_all);
    memset(text_all, 0xa5, sizeof text_all);
}

static void begin(void)
{
    memset(answer_all, 0xa5, sizeof answer_all);
    memcpy(kinds_before, kinds_all, sizeof kinds_all);
    memcpy(joints_before, joints_all, sizeof joints_all);
    memcpy(room_before, room_all, sizeof room_all);
    memcpy(steps_before, steps_all, sizeof steps_all);
    memcpy(text_before, text_all, sizeof text_all);
}

/* Whether all bytes of `all` outside of the elements [from, from + count) are as in `before`. */
static int kept(const void *all, const void *before, size_t size, size_t each, size_t from, size_t count)
{
    const uint8_t *a = (const uint8_t *)all, *b = (const uint8_t *)before;
    return memcmp(a, b, from * each) == 0 && memcmp(a + (from + count) * each, b + (from + count) * each, size - (from + count) * each) == 0;
}

static uint8_t answer_before[sizeof answer_all];

/* After a call: of each room it may have changed so many elements, and nothing else. */
static void changed(int line, size_t kinds_length, size_t joints_length, size_t room_length, size_t steps_length, size_t answer_length)
{
    memset(answer_before, 0xa5, sizeof answer_before);
    is(line, "the text kept", (uint64_t)kept(text_all, text_before, sizeof text_all, 1, 0, 0), 1);
    is(line, "kinds kept", (uint64_t)kept(kinds_all, kinds_before, sizeof kinds_all, 2, GUARD, kinds_length), 1);
    is(line, "joint words kept", (uint64_t)kept(joints_all, joints_before, sizeof joints_all, 8, GUARD, joints_length), 1);
    is(line, "words beside the room kept", (uint64_t)kept(room_all, room_before, sizeof room_all, 4, GUARD, room_length), 1);
    is(line, "bytes beside the step room kept", (uint64_t)kept(steps_all, steps_before, sizeof steps_all, 1, GUARD, steps_length), 1);
    is(line, "words beside the answer kept", (uint64_t)kept(answer_all, answer_before, sizeof answer_all, 8, GUARD, answer_length), 1);
}

/* The same of a call that changes no tokens. */
static void ended(int line, size_t room_length, size_t steps_length, size_t answer_length)
{
    changed(line, 0, 0, room_length, steps_length, answer_length);
}

/* The text room holds a text, and all else is as at the beginning. */
static void write_text(const char *bytes, size_t count)
{
    fill();
    memcpy(text, bytes, count);
}

/* A lexing of the first bytes of the text room, with the event room for the list: its number, all tokens and the number of kinds. */
static void lexes(int line, size_t bytes, size_t kinds_length, size_t joints_length, size_t words, size_t answers, uint32_t number, uint64_t place,
                  uint64_t count)
{
    int done = number == OQ3_DONE;
    begin();
    is(line, "the number", oq3_lex(text, bytes, kinds, kinds_length, joints, joints_length, room, words, answer, answers), number);
    changed(line, done ? (size_t)count : 0, done ? OQ3_JOINT_WORDS(count) : 0, done ? 2 * (size_t)place : 0, 0,
            number == OQ3_NO_ANSWER_ROOM ? 0 : OQ3_LEX_WORDS);
    if (number != OQ3_NO_ANSWER_ROOM) {
        is(line, "all tokens", answer[0], place);
        is(line, "the kinds", answer[1], count);
    }
}

/* A parse: its number, place, events and lookups, and of the room how many words may change. */
static void parses(int line, uint32_t entry, uint32_t mode, size_t tokens, size_t joint_words, size_t words, size_t answers,
                   uint32_t number, uint64_t place, uint64_t events, uint64_t lookups)
{
    size_t i, untouched = number >= 1 && (number <= 4 || number >= 100), used;
    begin();
    is(line, "the number", oq3_parse(entry, mode, kinds, tokens, joints, joint_words, room, words, answer, answers), number);
    ended(line, untouched ? 0 : words, 0, number == OQ3_NO_ANSWER_ROOM ? 0 : OQ3_PARSE_WORDS);
    if (number != OQ3_NO_ANSWER_ROOM) {
        is(line, "the place", answer[0], place);
        is(line, "the events", answer[1], events);
        is(line, "the lookups", answer[2], lookups);
    }
    if (!untouched) {
        used = 0;
        for (i = OQ3_ROOM_WORDS(events); i < words; i++) {
            used += room[i] != 0;
        }
        is(line, "words behind the list that are not 0", used, 0);
    }
}

static void list(const uint32_t *words, size_t count)
{
    fill();
    memcpy(room, words, count * sizeof *words);
}

static void checks(int line, size_t words, size_t answers, uint32_t number, uint64_t place)
{
    begin();
    is(line, "the number", oq3_check(room, words, answer, answers), number);
    ended(line, 0, 0, number == OQ3_NO_ANSWER_ROOM ? 0 : OQ3_LIST_WORDS);
    if (number != OQ3_NO_ANSWER_ROOM) {
        is(line, "the place", answer[0], place);
    }
}

static void resolves(int line, size_t words, size_t bytes, size_t answers, uint32_t number, uint64_t place)
{
    begin();
    is(line, "the number", oq3_resolve(room, words, steps, bytes, answer, answers), number);
    ended(line, number == OQ3_DONE ? words : 0, number == OQ3_DONE ? (size_t)place : 0, number == OQ3_NO_ANSWER_ROOM ? 0 : OQ3_LIST_WORDS);
    if (number != OQ3_NO_ANSWER_ROOM) {
        is(line, "the place", answer[0], place);
    }
}

/* A whole step file, the first bytes of the step room: its number, place and records. */
static void reads(int line, size_t bytes, size_t answers, uint32_t number, uint64_t place, uint64_t records)
{
    begin();
    is(line, "the number", oq3_read_file(steps, bytes, answer, answers), number);
    ended(line, 0, 0, number == OQ3_NO_ANSWER_ROOM ? 0 : OQ3_FILE_WORDS);
    if (number != OQ3_NO_ANSWER_ROOM) {
        is(line, "the place", answer[0], place);
        is(line, "the records", answer[1], records);
    }
}

/* One step, of the step room's bytes from one place to another: its number, the bytes taken, the record kind and the payload's numbers. */
static void takes(int line, size_t from, size_t to, size_t answers, uint32_t number, uint64_t taken, uint64_t record, uint64_t first,
                  uint64_t second, uint64_t third)
{
    begin();
    is(line, "the number", oq3_read_step(steps + from, to - from, answer, answers), number);
    ended(line, 0, 0, number == OQ3_NO_ANSWER_ROOM ? 0 : OQ3_STEP_WORDS);
    if (number != OQ3_NO_ANSWER_ROOM) {
        is(line, "the bytes taken", answer[0], taken);
        is(line, "the record kind", answer[1], record);
        is(line, "the first number", answer[2], first);
        is(line, "the second number", answer[3], second);
        is(line, "the third number", answer[4], third);
        is(line, "the fourth number", answer[5], 0);
    }
}

/* A lone record, in both calls. */
static void record(int line, const uint8_t *bytes, size_t count, uint32_t number)
{
    fill();
    memcpy(steps, bytes, count);
    reads(line, count, OQ3_FILE_WORDS + 1, number, number == OQ3_DONE ? count : 0, number == OQ3_DONE);
    if (number != OQ3_DONE) {
        takes(line, 0, count, OQ3_STEP_WORDS + 1, number, 0, 0, 0, 0, 0);
    }
}

#define LEXES(...) lexes(__LINE__, __VA_ARGS__)
#define PARSES(...) parses(__LINE__, __VA_ARGS__)
#define CHECKS(...) checks(__LINE__, __VA_ARGS__)
#define RESOLVES(...) resolves(__LINE__, __VA_ARGS__)
#define READS(...) reads(__LINE__, __VA_ARGS__)
#define TAKES(...) takes(__LINE__, __VA_ARGS__, 0)
#define TAKES_THREE(...) takes(__LINE__, __VA_ARGS__)
#define RECORD(bytes, number) record(__LINE__, bytes, sizeof bytes, number)

static void tokens(const uint16_t *list_of, size_t count)
{
    fill();
    memset(joints_all, 0, sizeof joints_all);
    memcpy(kinds, list_of, count * sizeof *kinds);
}

static void file(const uint8_t *bytes, size_t count)
{
    fill();
    memcpy(steps, bytes, count);
}

static void same(uint16_t kind, size_t count)
{
    size_t i;
    fill();
    memset(joints_all, 0, sizeof joints_all);
    for (i = 0; i < count; i++) {
        kinds[i] = kind;
    }
}

int main(void)
{
    size_t i;

    /* No text: nothing is written. A text of more than 65,536 bytes is told first, whatever the rooms. */
    fill();
    LEXES(0, 0, 0, 0, OQ3_LEX_WORDS, OQ3_DONE, 0, 0);
    LEXES(0, 0, 0, 0, OQ3_LEX_WORDS - 1, OQ3_NO_ANSWER_ROOM, 0, 0);
    LEXES(OQ3_MOST_TEXT + 1, 0, 0, 0, OQ3_LEX_WORDS, OQ3_TEXT_TOO_LONG, 0, 0);
    LEXES(OQ3_MOST_TEXT + 1, 0, 0, 0, 0, OQ3_NO_ANSWER_ROOM, 0, 0);
    LEXES(OQ3_MOST_TEXT + 1, OQ3_MOST_TOKENS, JOINTS, OQ3_MOST_ROOM, OQ3_LEX_WORDS + 1, OQ3_TEXT_TOO_LONG, 0, 0);

    /* a == b and a comment: nine tokens, four of them no trivia; one touches such a one. Each room one short, then just enough, then more. */
    const char equals[] = "a == b // c\n";
    const uint16_t equals_kinds[] = { IDENT, EQ, EQ, IDENT };
    const uint32_t equals_list[] = { IDENT, 1, WHITESPACE, 1, EQ, 1, EQ, 1, WHITESPACE, 1, IDENT, 1, WHITESPACE, 1, COMMENT, 4, WHITESPACE, 1 };
    const size_t bytes = sizeof equals - 1;
    write_text(equals, bytes);
    LEXES(bytes, 3, 1, 18, OQ3_LEX_WORDS, OQ3_NO_TEXT_ROOM, 9, 0);
    LEXES(bytes, 4, 0, 18, OQ3_LEX_WORDS, OQ3_NO_TEXT_ROOM, 9, 0);
    LEXES(bytes, 4, 1, 17, OQ3_LEX_WORDS, OQ3_NO_TEXT_ROOM, 9, 0);
    LEXES(bytes, 0, 0, 0, OQ3_LEX_WORDS, OQ3_NO_TEXT_ROOM, 9, 0);
    LEXES(bytes, 4, 1, 18, OQ3_LEX_WORDS - 1, OQ3_NO_ANSWER_ROOM, 0, 0);
    LEXES(bytes, 4, 1, 18, OQ3_LEX_WORDS, OQ3_DONE, 9, 4);
    write_text(equals, bytes);
    LEXES(bytes, OQ3_MOST_TOKENS, JOINTS, OQ3_MOST_ROOM, OQ3_LEX_WORDS + 1, OQ3_DONE, 9, 4);
    is(__LINE__, "the kinds", (uint64_t)memcmp(kinds, equals_kinds, sizeof equals_kinds), 0);
    is(__LINE__, "the list", (uint64_t)memcmp(room, equals_list, sizeof equals_list), 0);
    /* the bits of the last joint word behind the last token stay, and a parse does not look at them */
    IS(joints[0], 0xa5a5a5a5a5a5a5a2);
    PARSES(OQ3_EXPRESSION, OQ3_MODE_CRATE, 4, 1, 100, OQ3_PARSE_WORDS, OQ3_DONE, 4, 11, 17);

    /* 65 tokens that touch: all bits of one word, and one of the next. Then a long word, a CR LF, and a letter of two bytes, an error for each. */
    write_text("", 0);
    memset(text, ';', 65);
    LEXES(65, 65, 1, 130, OQ3_LEX_WORDS, OQ3_NO_TEXT_ROOM, 65, 0);
    LEXES(65, 65, 2, 130, OQ3_LEX_WORDS, OQ3_DONE, 65, 65);
    IS(joints[0], UINT64_MAX);
    IS(joints[1], 0xa5a5a5a5a5a5a5a4);
    write_text("defcalgrammar\r\n\316\270", 17);
    LEXES(17, 3, 1, 8, OQ3_LEX_WORDS, OQ3_DONE, 4, 3);
    IS(room[0], OQ3_KIND_DEFCALGRAMMAR_KW);
    IS(room[1], 13);
    IS(room[3], 2);
    IS(room[4], ERROR);
    IS(room[5], 1);
    IS(joints[0], 0xa5a5a5a5a5a5a5a2);

    /* The longest text: one token, and as many as it has bytes. */
    memset(text, ' ', OQ3_MOST_TEXT);
    LEXES(OQ3_MOST_TEXT, 0, 0, 2, OQ3_LEX_WORDS, OQ3_DONE, 1, 0);
    IS(room[1], OQ3_MOST_TEXT);
    memset(text, '"', OQ3_MOST_TEXT);
    LEXES(OQ3_MOST_TEXT, OQ3_MOST_TOKENS, JOINTS, OQ3_MOST_ROOM, OQ3_LEX_WORDS, OQ3_NO_TEXT_ROOM, OQ3_MOST_TEXT, 0);

    /* An empty source file: a start and its finish, no lookup. Rooms of no elements are lent with a pointer into their guards. */
    const uint32_t empty[] = { OQ3_EVENT_START + OQ3_KIND_SOURCE_FILE, 0, OQ3_EVENT_FINISH, 0 };
    fill();
    PARSES(OQ3_SOURCE_FILE, OQ3_MODE_CRATE, 0, 0, 4, OQ3_PARSE_WORDS, OQ3_DONE, 0, 2, 0);
    is(__LINE__, "the list", (uint64_t)memcmp(room, empty, sizeof empty), 0);
    PARSES(OQ3_SOURCE_FILE, OQ3_MODE_CRATE, 0, 0, 3, OQ3_PARSE_WORDS, OQ3_NO_EVENT_ROOM, 0, 0, 0);
    PARSES(OQ3_SOURCE_FILE, OQ3_MODE_CRATE, 0, 0, 0, OQ3_PARSE_WORDS, OQ3_NO_EVENT_ROOM, 0, 0, 0);

    /* a == b, the two = touching; the words behind the list, an odd last one too, become 0. */
    const uint16_t equal[] = { IDENT, EQ, EQ, IDENT };
    const uint8_t equal_file[] = {
        2, 0, OQ3_STEP_ENTER, 0, BIN_EXPR, 0,
        2, 0, OQ3_STEP_ENTER, 0, IDENTIFIER, 0, 3, 0, OQ3_STEP_TOKEN, 0, IDENT, 0, 1, 0, 0, OQ3_STEP_LEAVE, 0,
        3, 0, OQ3_STEP_TOKEN, 0, EQ2, 0, 2,
        2, 0, OQ3_STEP_ENTER, 0, IDENTIFIER, 0, 3, 0, OQ3_STEP_TOKEN, 0, IDENT, 0, 1, 0, 0, OQ3_STEP_LEAVE, 0,
        0, 0, OQ3_STEP_LEAVE, 0
    };
    tokens(equal, 4);
    joints[0] = 2;
    begin();
    IS(oq3_parse(OQ3_EXPRESSION, OQ3_MODE_SPECIFICATION, kinds, 4, joints, 1, room, 101, answer, OQ3_PARSE_WORDS + 1), OQ3_DONE);
    ended(__LINE__, 101, 0, OQ3_PARSE_WORDS);
    IS(answer[0], 4);
    for (i = OQ3_ROOM_WORDS(answer[1]); i < 101; i++) {
        IS(room[i], 0);
    }
    size_t words = OQ3_ROOM_WORDS(answer[1]);
    CHECKS(words, OQ3_LIST_WORDS, OQ3_DONE, words / OQ3_EVENT_WORDS);
    CHECKS(words, 0, OQ3_NO_ANSWER_ROOM, 0);
    CHECKS(words + 1, OQ3_LIST_WORDS, OQ3_FAULTY_LIST, words / OQ3_EVENT_WORDS);
    CHECKS(words + OQ3_EVENT_WORDS, OQ3_LIST_WORDS, OQ3_FAULTY_LIST, words / OQ3_EVENT_WORDS);
    RESOLVES(words, 0, 0, OQ3_NO_ANSWER_ROOM, 0);
    RESOLVES(words, 0, OQ3_LIST_WORDS, OQ3_NO_STEP_ROOM, sizeof equal_file);
    RESOLVES(words, sizeof equal_file - 1, OQ3_LIST_WORDS, OQ3_NO_STEP_ROOM, sizeof equal_file);
    RESOLVES(words, STEPS, OQ3_LIST_WORDS + 1, OQ3_DONE, sizeof equal_file);
    is(__LINE__, "the step file", (uint64_t)memcmp(steps, equal_file, sizeof equal_file), 0);
    for (i = 0; i < words; i++) {
        IS(room[i], i % OQ3_EVENT_WORDS == 0 ? OQ3_EVENT_START : 0);
    }

    /* a == b < c: the equality stands in the comparison in the crate's mode, with a distance to it, and around it in the specification's. */
    const uint16_t compared[] = { IDENT, EQ, EQ, IDENT, L_ANGLE, IDENT };
    tokens(compared, 6);
    joints[0] = 2;
    PARSES(OQ3_EXPRESSION, OQ3_MODE_CRATE, 6, 1, 36, OQ3_PARSE_WORDS, OQ3_DONE, 6, 18, 26);
    IS(room[8], OQ3_EVENT_START + BIN_EXPR);
    IS(room[9], 7);
    PARSES(OQ3_EXPRESSION, OQ3_MODE_SPECIFICATION, 6, 1, 36, OQ3_PARSE_WORDS, OQ3_DONE, 6, 18, 26);
    IS(room[8], OQ3_EVENT_START + BIN_EXPR);
    IS(room[9], 0);

    /* The list of docs/RULES.md, section 9, with the kinds 40, 41, 50 and 51 that it has: 9 steps in 51 bytes. */
    const uint32_t nine[] = {
        OQ3_EVENT_START, 1, OQ3_EVENT_START + 40, 3, OQ3_EVENT_TOKEN + 50, 1, OQ3_EVENT_FINISH, 0, OQ3_EVENT_START + 41, 0,
        OQ3_EVENT_TOKEN + 51, 1, OQ3_EVENT_START, 1, OQ3_EVENT_START + 40, 0, OQ3_EVENT_TOKEN + 50, 1, OQ3_EVENT_FINISH, 0, OQ3_EVENT_FINISH, 0
    };
    list(nine, 22);
    CHECKS(22, OQ3_LIST_WORDS, OQ3_DONE, 11);
    RESOLVES(22, 50, OQ3_LIST_WORDS, OQ3_NO_STEP_ROOM, 51);
    RESOLVES(22, 51, OQ3_LIST_WORDS, OQ3_DONE, 51);

    /* Its file: whole, cut, and with two bytes behind it. The reader writes nothing but its answer. */
    READS(51, OQ3_FILE_WORDS, OQ3_DONE, 51, 9);
    READS(51, OQ3_FILE_WORDS + 6, OQ3_DONE, 51, 9);
    READS(51, OQ3_FILE_WORDS - 1, OQ3_NO_ANSWER_ROOM, 0, 0);
    READS(51, 0, OQ3_NO_ANSWER_ROOM, 0, 0);
    READS(50, OQ3_FILE_WORDS, OQ3_CUT_RECORD, 47, 0);
    READS(47, OQ3_FILE_WORDS, OQ3_BAD_NESTING, 47, 0);
    READS(3, OQ3_FILE_WORDS, OQ3_CUT_RECORD, 0, 0);
    READS(0, OQ3_FILE_WORDS, OQ3_BAD_NESTING, 0, 0);
    READS(53, OQ3_FILE_WORDS, OQ3_CUT_RECORD, 51, 0);
    for (i = 0; i < 51; i++) {
        begin();
        is(__LINE__, "a cut file is done", oq3_read_file(steps, i, answer, OQ3_FILE_WORDS) == OQ3_DONE, 0);
        IS(answer[1], 0);
    }

    /* Its steps, one by one, with the rest of the file; then the end. */
    TAKES(0, 51, OQ3_STEP_WORDS, OQ3_DONE, 6, OQ3_STEP_ENTER, 41, 0);
    TAKES(6, 51, OQ3_STEP_WORDS + 2, OQ3_DONE, 6, OQ3_STEP_ENTER, 40, 0);
    TAKES(12, 51, OQ3_STEP_WORDS, OQ3_DONE, 7, OQ3_STEP_TOKEN, 50, 1);
    TAKES(19, 51, OQ3_STEP_WORDS, OQ3_DONE, 4, OQ3_STEP_LEAVE, 0, 0);
    TAKES(23, 51, OQ3_STEP_WORDS, OQ3_DONE, 7, OQ3_STEP_TOKEN, 51, 1);
    TAKES(30, 51, OQ3_STEP_WORDS, OQ3_DONE, 6, OQ3_STEP_ENTER, 40, 0);
    TAKES(36, 51, OQ3_STEP_WORDS, OQ3_DONE, 7, OQ3_STEP_TOKEN, 50, 1);
    TAKES(43, 51, OQ3_STEP_WORDS, OQ3_DONE, 4, OQ3_STEP_LEAVE, 0, 0);
    TAKES(47, 51, OQ3_STEP_WORDS, OQ3_DONE, 4, OQ3_STEP_LEAVE, 0, 0);
    TAKES(51, 51, OQ3_STEP_WORDS, OQ3_DONE, 0, OQ3_STEP_END, 0, 0);
    TAKES(51, 51, OQ3_STEP_WORDS + 2, OQ3_DONE, 0, OQ3_STEP_END, 0, 0);
    TAKES(47, 50, OQ3_STEP_WORDS, OQ3_CUT_RECORD, 0, 0, 0, 0);
    TAKES(12, 18, OQ3_STEP_WORDS, OQ3_CUT_RECORD, 0, 0, 0, 0);
    TAKES(1, 51, OQ3_STEP_WORDS, OQ3_CUT_RECORD, 0, 0, 0, 0);
    for (i = 0; i < OQ3_STEP_WORDS; i++) {
        TAKES(0, 51, i, OQ3_NO_ANSWER_ROOM, 0, 0, 0, 0);
        TAKES(51, 51, i, OQ3_NO_ANSWER_ROOM, 0, 0, 0, 0);
    }

    /* 13: two roots, a leave too many, a node left open. Three nodes, one inside the other, are good. */
    const uint8_t roots[] = { 2, 0, OQ3_STEP_ENTER, 0, 40, 0, 0, 0, OQ3_STEP_LEAVE, 0, 2, 0, OQ3_STEP_ENTER, 0, 40, 0, 0, 0, OQ3_STEP_LEAVE, 0 };
    const uint8_t three[] = {
        2, 0, OQ3_STEP_ENTER, 0, 40, 0, 2, 0, OQ3_STEP_ENTER, 0, 41, 0, 2, 0, OQ3_STEP_ENTER, 0, 42, 0,
        0, 0, OQ3_STEP_LEAVE, 0, 0, 0, OQ3_STEP_LEAVE, 0, 0, 0, OQ3_STEP_LEAVE, 0
    };
    const uint8_t leave[] = { 0, 0, OQ3_STEP_LEAVE, 0 };
    file(roots, sizeof roots);
    READS(20, OQ3_FILE_WORDS, OQ3_BAD_NESTING, 10, 0);
    READS(10, OQ3_FILE_WORDS, OQ3_DONE, 10, 2);
    READS(6, OQ3_FILE_WORDS, OQ3_BAD_NESTING, 6, 0);
    TAKES(10, 20, OQ3_STEP_WORDS, OQ3_DONE, 6, OQ3_STEP_ENTER, 40, 0);
    file(three, sizeof three);
    READS(30, OQ3_FILE_WORDS, OQ3_DONE, 30, 6);
    file(leave, sizeof leave);
    READS(4, OQ3_FILE_WORDS, OQ3_BAD_NESTING, 0, 0);
    TAKES(0, 4, OQ3_STEP_WORDS, OQ3_DONE, 4, OQ3_STEP_LEAVE, 0, 0);

    /* A lone token or error is good, of any kind, code and argument; 12 for what is no record, 11 first where it runs past the end. */
    const uint8_t token_one[] = { 3, 0, OQ3_STEP_TOKEN, 0, 255, 255, 1 }, token_three[] = { 3, 0, OQ3_STEP_TOKEN, 0, 0, 0, 3 };
    const uint8_t token_none[] = { 3, 0, OQ3_STEP_TOKEN, 0, 50, 0, 0 }, token_four[] = { 3, 0, OQ3_STEP_TOKEN, 0, 50, 0, 4 };
    const uint8_t lone_error[] = { 4, 0, OQ3_STEP_ERROR, 0, 255, 255, 254, 255 };
    const uint8_t no_kind[] = { 0, 0, 9, 0 }, far_past[] = { 255, 255, 9, 0 }, kind_six[] = { 4, 0, 6, 0, 1, 0, 3, 0 }, end_kind[] = { 0, 0, 0, 0 };
    const uint8_t enter_long[] = { 3, 0, OQ3_STEP_ENTER, 0, 40, 0, 0 }, leave_long[] = { 1, 0, OQ3_STEP_LEAVE, 0, 0 };
    const uint8_t token_short[] = { 2, 0, OQ3_STEP_TOKEN, 0, 50, 0 }, error_short[] = { 3, 0, OQ3_STEP_ERROR, 0, 1, 0, 3 };
    const uint8_t high_kind[] = { 0, 0, OQ3_STEP_LEAVE, 1 };
    RECORD(token_one, OQ3_DONE);
    RECORD(token_three, OQ3_DONE);
    RECORD(lone_error, OQ3_DONE);
    TAKES(0, 8, OQ3_STEP_WORDS, OQ3_DONE, 8, OQ3_STEP_ERROR, 65535, 65534);
    RECORD(token_none, OQ3_BAD_RECORD);
    RECORD(token_four, OQ3_BAD_RECORD);
    RECORD(no_kind, OQ3_BAD_RECORD);
    RECORD(far_past, OQ3_CUT_RECORD);
    RECORD(kind_six, OQ3_BAD_RECORD);
    RECORD(end_kind, OQ3_BAD_RECORD);
    RECORD(enter_long, OQ3_BAD_RECORD);
    RECORD(leave_long, OQ3_BAD_RECORD);
    RECORD(token_short, OQ3_BAD_RECORD);
    RECORD(error_short, OQ3_BAD_RECORD);
    RECORD(high_kind, OQ3_BAD_RECORD);

    /* Record kind 5 has code 1 and 6 bytes, and any two kinds. A file that is older than it has code 1 in record kind 4, and stays good. */
    const uint8_t lone_expected[] = { 6, 0, OQ3_STEP_EXPECTED, 0, OQ3_MESSAGE_EXPECTED, 0, SEMICOLON, 0, OQ3_KIND_EOF, 0 };
    const uint8_t expected_most[] = { 6, 0, OQ3_STEP_EXPECTED, 0, 1, 0, 255, 255, 254, 255 };
    const uint8_t expected_code[] = { 6, 0, OQ3_STEP_EXPECTED, 0, 2, 0, 3, 0, 1, 0 }, expected_none[] = { 6, 0, OQ3_STEP_EXPECTED, 0, 0, 0, 3, 0, 1, 0 };
    const uint8_t expected_high[] = { 6, 0, OQ3_STEP_EXPECTED, 0, 1, 1, 3, 0, 1, 0 }, expected_cut[] = { 6, 0, OQ3_STEP_EXPECTED, 0, 2, 0, 3, 0, 1 };
    const uint8_t expected_short[] = { 4, 0, OQ3_STEP_EXPECTED, 0, 1, 0, 3, 0 }, expected_long[] = { 7, 0, OQ3_STEP_EXPECTED, 0, 1, 0, 3, 0, 1, 0, 0 };
    const uint8_t older[] = { 4, 0, OQ3_STEP_ERROR, 0, OQ3_MESSAGE_EXPECTED, 0, SEMICOLON, 0 };
    RECORD(lone_expected, OQ3_DONE);
    TAKES_THREE(0, 10, OQ3_STEP_WORDS, OQ3_DONE, 10, OQ3_STEP_EXPECTED, 1, SEMICOLON, OQ3_KIND_EOF);
    for (i = 1; i < 10; i++) {
        READS(i, OQ3_FILE_WORDS, OQ3_CUT_RECORD, 0, 0);
        TAKES(0, i, OQ3_STEP_WORDS, OQ3_CUT_RECORD, 0, 0, 0, 0);
    }
    RECORD(expected_most, OQ3_DONE);
    TAKES_THREE(0, 10, OQ3_STEP_WORDS + 2, OQ3_DONE, 10, OQ3_STEP_EXPECTED, 1, 65535, 65534);
    RECORD(expected_code, OQ3_BAD_RECORD);
    RECORD(expected_none, OQ3_BAD_RECORD);
    RECORD(expected_high, OQ3_BAD_RECORD);
    RECORD(expected_cut, OQ3_CUT_RECORD);
    RECORD(expected_short, OQ3_BAD_RECORD);
    RECORD(expected_long, OQ3_BAD_RECORD);
    RECORD(older, OQ3_DONE);
    TAKES(0, 8, OQ3_STEP_WORDS, OQ3_DONE, 8, OQ3_STEP_ERROR, 1, SEMICOLON);

    /* What the entry item leaves: one root on `}`, several on `reset ;`. Of a list without steps the file has no bytes. */
    const uint16_t brace[] = { R_CURLY }, resets[] = { RESET_KW, SEMICOLON };
    const uint32_t bare[] = { OQ3_EVENT_START, 0 };
    tokens(brace, 1);
    IS(oq3_parse(OQ3_ITEM, OQ3_MODE_CRATE, kinds, 1, joints, 1, room, 100, answer, OQ3_PARSE_WORDS), OQ3_DONE);
    RESOLVES(OQ3_ROOM_WORDS(answer[1]), STEPS, OQ3_LIST_WORDS, OQ3_DONE, 25);
    READS(25, OQ3_FILE_WORDS, OQ3_DONE, 25, 4);
    TAKES(0, 25, OQ3_STEP_WORDS, OQ3_DONE, 6, OQ3_STEP_ENTER, ERROR, 0);
    tokens(resets, 2);
    IS(oq3_parse(OQ3_ITEM, OQ3_MODE_CRATE, kinds, 2, joints, 1, room, 100, answer, OQ3_PARSE_WORDS), OQ3_DONE);
    RESOLVES(OQ3_ROOM_WORDS(answer[1]), STEPS, OQ3_LIST_WORDS, OQ3_DONE, 40);
    READS(40, OQ3_FILE_WORDS, OQ3_BAD_NESTING, 7, 0);
    list(bare, 2);
    RESOLVES(2, STEPS, OQ3_LIST_WORDS, OQ3_DONE, 0);
    READS(0, OQ3_FILE_WORDS, OQ3_BAD_NESTING, 0, 0);

    /* `break` without its semicolon: the error has what was expected and what was found, the end or another token. */
    const uint16_t broken[] = { BREAK_KW, IDENT };
    const uint8_t break_file[] = {
        2, 0, OQ3_STEP_ENTER, 0, BREAK_STMT, 0, 3, 0, OQ3_STEP_TOKEN, 0, BREAK_KW, 0, 1,
        6, 0, OQ3_STEP_EXPECTED, 0, OQ3_MESSAGE_EXPECTED, 0, SEMICOLON, 0, OQ3_KIND_EOF, 0, 0, 0, OQ3_STEP_LEAVE, 0
    };
    tokens(broken, 1);
    IS(oq3_parse(OQ3_ITEM, OQ3_MODE_CRATE, kinds, 1, joints, 1, room, 100, answer, OQ3_PARSE_WORDS), OQ3_DONE);
    RESOLVES(OQ3_ROOM_WORDS(answer[1]), STEPS, OQ3_LIST_WORDS, OQ3_DONE, sizeof break_file);
    is(__LINE__, "the step file", (uint64_t)memcmp(steps, break_file, sizeof break_file), 0);
    READS(27, OQ3_FILE_WORDS, OQ3_DONE, 27, 4);
    tokens(broken, 2);
    IS(oq3_parse(OQ3_ITEM, OQ3_MODE_CRATE, kinds, 2, joints, 1, room, 100, answer, OQ3_PARSE_WORDS), OQ3_DONE);
    RESOLVES(OQ3_ROOM_WORDS(answer[1]), STEPS, OQ3_LIST_WORDS, OQ3_DONE, 27);
    TAKES_THREE(13, 27, OQ3_STEP_WORDS, OQ3_DONE, 10, OQ3_STEP_EXPECTED, OQ3_MESSAGE_EXPECTED, SEMICOLON, IDENT);

    /* An error with code 1 is the largest record. Any second word is one of it; with another code one above 65,535 is none. */
    const uint32_t error[] = { OQ3_EVENT_ERROR + OQ3_MESSAGE_EXPECTED, SEMICOLON + 65536u * IDENT };
    const uint8_t error_file[] = { 6, 0, OQ3_STEP_EXPECTED, 0, OQ3_MESSAGE_EXPECTED, 0, SEMICOLON, 0, IDENT, 0 };
    const uint32_t error_most[] = { OQ3_EVENT_ERROR + OQ3_MESSAGE_EXPECTED, 4294967295u }, error_found[] = { OQ3_EVENT_ERROR + 2, 65536 };
    const uint32_t error_other[] = { OQ3_EVENT_ERROR + 2, 65535 };
    list(error, 2);
    CHECKS(2, OQ3_LIST_WORDS, OQ3_DONE, 1);
    RESOLVES(2, OQ3_STEP_BYTES(1) - 1, OQ3_LIST_WORDS, OQ3_NO_STEP_ROOM, 10);
    RESOLVES(2, OQ3_STEP_BYTES(1), OQ3_LIST_WORDS, OQ3_DONE, 10);
    is(__LINE__, "the step file", (uint64_t)memcmp(steps, error_file, sizeof error_file), 0);
    list(error_most, 2);
    CHECKS(2, OQ3_LIST_WORDS, OQ3_DONE, 1);
    RESOLVES(2, STEPS, OQ3_LIST_WORDS, OQ3_DONE, 10);
    TAKES_THREE(0, 10, OQ3_STEP_WORDS, OQ3_DONE, 10, OQ3_STEP_EXPECTED, OQ3_MESSAGE_EXPECTED, 65535, 65535);
    list(error_other, 2);
    CHECKS(2, OQ3_LIST_WORDS, OQ3_DONE, 1);
    RESOLVES(2, STEPS, OQ3_LIST_WORDS, OQ3_DONE, 8);
    TAKES(0, 8, OQ3_STEP_WORDS, OQ3_DONE, 8, OQ3_STEP_ERROR, 2, 65535);
    list(error_found, 2);
    CHECKS(2, OQ3_LIST_WORDS, OQ3_FAULTY_LIST, 0);
    RESOLVES(2, STEPS, OQ3_LIST_WORDS, OQ3_FAULTY_LIST, 0);

    /* 9: a depth below zero at event 1, one above zero at the end, a distance past the end, words that are no event. */
    const uint32_t below[] = { OQ3_EVENT_TOKEN + IDENT, 1, OQ3_EVENT_FINISH, 0 };
    const uint32_t above[] = { OQ3_EVENT_START + 40, 0 };
    const uint32_t beyond[] = { OQ3_EVENT_START, 1 };
    list(below, 4);
    CHECKS(4, OQ3_LIST_WORDS, OQ3_FAULTY_LIST, 1);
    RESOLVES(4, STEPS, OQ3_LIST_WORDS, OQ3_FAULTY_LIST, 1);
    list(above, 2);
    RESOLVES(2, STEPS, OQ3_LIST_WORDS, OQ3_FAULTY_LIST, 1);
    list(beyond, 2);
    RESOLVES(2, STEPS, OQ3_LIST_WORDS, OQ3_FAULTY_LIST, 0);
    list(beyond, 0);
    CHECKS(2, OQ3_LIST_WORDS, OQ3_FAULTY_LIST, 0);
    CHECKS(0, OQ3_LIST_WORDS, OQ3_DONE, 0);
    RESOLVES(0, 0, OQ3_LIST_WORDS, OQ3_DONE, 0);

    /* 2: more than 65,536 events; a word more than 65,536 is a 9. */
    CHECKS(OQ3_MOST_ROOM + OQ3_EVENT_WORDS, OQ3_LIST_WORDS, OQ3_TOO_LONG, 0);
    CHECKS(OQ3_MOST_ROOM + 1, OQ3_LIST_WORDS, OQ3_FAULTY_LIST, OQ3_MOST_EVENTS);
    RESOLVES(OQ3_MOST_ROOM + OQ3_EVENT_WORDS, STEPS, OQ3_LIST_WORDS, OQ3_TOO_LONG, 0);

    /* 1 to 4 in their order, behind 100 and 101. */
    const size_t enough = OQ3_JOINT_WORDS(OQ3_MOST_TOKENS);
    same(IDENT, OQ3_MOST_TOKENS + 1);
    kinds[7] = OQ3_KIND_EOF;
    PARSES(3, 2, OQ3_MOST_TOKENS + 1, 0, 64, OQ3_PARSE_WORDS - 1, OQ3_NO_ANSWER_ROOM, 0, 0, 0);
    PARSES(3, 2, OQ3_MOST_TOKENS + 1, 0, 64, OQ3_PARSE_WORDS, OQ3_BAD_ENTRY, 0, 0, 0);
    PARSES(OQ3_ITEM, 2, OQ3_MOST_TOKENS + 1, 0, 64, OQ3_PARSE_WORDS, OQ3_BAD_MODE, 0, 0, 0);
    PARSES(OQ3_ITEM, OQ3_MODE_SPECIFICATION, OQ3_MOST_TOKENS + 1, 0, 64, OQ3_PARSE_WORDS, OQ3_TOO_LONG, 0, 0, 0);
    PARSES(OQ3_ITEM, OQ3_MODE_SPECIFICATION, OQ3_MOST_TOKENS, enough - 1, 64, OQ3_PARSE_WORDS, OQ3_FEW_JOINTS, 0, 0, 0);
    PARSES(OQ3_ITEM, OQ3_MODE_SPECIFICATION, OQ3_MOST_TOKENS, enough, 64, OQ3_PARSE_WORDS, OQ3_BAD_KIND, 7, 0, 0);
    PARSES(OQ3_ITEM, OQ3_MODE_SPECIFICATION, 65, 1, 64, OQ3_PARSE_WORDS, OQ3_FEW_JOINTS, 0, 0, 0);
    PARSES(OQ3_ITEM, OQ3_MODE_SPECIFICATION, 8, 1, 64, OQ3_PARSE_WORDS, OQ3_BAD_KIND, 7, 0, 0);

    /* 5: the room holds the start, and not the event of the token, which is then not consumed. */
    same(IDENT, 1);
    PARSES(OQ3_EXPRESSION, OQ3_MODE_CRATE, 1, 1, 2, OQ3_PARSE_WORDS, OQ3_NO_EVENT_ROOM, 0, 0, 0);

    /* 6: an expression behind 64 minus signs is the 65th unfinished call; behind 63 it is done. */
    same(MINUS, 65);
    kinds[63] = IDENT;
    begin();
    IS(oq3_parse(OQ3_EXPRESSION, OQ3_MODE_CRATE, kinds, 64, joints, 1, room, 1000, answer, OQ3_PARSE_WORDS), OQ3_DONE);
    ended(__LINE__, 1000, 0, OQ3_PARSE_WORDS);
    IS(answer[0], 64);
    same(MINUS, 65);
    kinds[64] = IDENT;
    PARSES(OQ3_EXPRESSION, OQ3_MODE_CRATE, 65, 2, 1000, OQ3_PARSE_WORDS, OQ3_TOO_DEEP, 64, 0, 0);

    /* 7: a typed parameter that is none, in the least room and in one that is an event smaller. */
    const uint16_t spins[] = { DEF_KW, IDENT, L_PAREN, INT_NUMBER };
    tokens(spins, 4);
    PARSES(OQ3_ITEM, OQ3_MODE_CRATE, 4, 1, OQ3_ROOM_WORDS(LEAST), OQ3_PARSE_WORDS, OQ3_STUCK, 3, 0, 0);
    PARSES(OQ3_ITEM, OQ3_MODE_CRATE, 4, 1, OQ3_ROOM_WORDS(LEAST - 1), OQ3_PARSE_WORDS, OQ3_NO_EVENT_ROOM, 3, 0, 0);

    /* 8: `delay` without its `[`. */
    same(DELAY_KW, 1);
    PARSES(OQ3_SOURCE_FILE, OQ3_MODE_CRATE, 1, 1, 100, OQ3_PARSE_WORDS, OQ3_STOPPED, 1, 0, 0);

    /* The tags of an event and the limits, in the numbers of docs/RULES.md. */
    IS(OQ3_EVENT_START, 65536);
    IS(OQ3_EVENT_FINISH, 131072);
    IS(OQ3_EVENT_TOKEN, 196608);
    IS(OQ3_EVENT_ERROR, 262144);
    IS(OQ3_MOST_TEXT, 65536);
    IS(OQ3_MOST_TOKENS, 8192);
    IS(OQ3_MOST_EVENTS, 65536);
    IS(OQ3_MOST_ROOM, OQ3_ROOM_WORDS(OQ3_MOST_EVENTS));
    IS(OQ3_KIND_TOMBSTONE, 0);
    IS(OQ3_MOST_STEPS, 655360);
    IS(OQ3_STEP_BYTES(OQ3_MOST_EVENTS), OQ3_MOST_STEPS);

    if (!failed) {
        printf("examples: every call and every number of oq3.h is as docs/RULES.md has it\n");
    }
    return failed;
}
