/*
 * Grisolemp: a proved lexer and parser of OpenQASM 3, and a reader of the step files that it makes, for C99 and C++ on x86-64 Linux.
 *
 *   liboq3.a        tools/library         all six functions; it needs nothing but memset
 *   liboq3_read.a   tools/library read    oq3_read_file and oq3_read_step alone; it needs nothing at all, not even memset
 *
 * A program that parses links the first, one that only reads step files (docs/SEQUENCERS.md) the second; none needs both. The functions take
 * what is lent, return a number and write into lent rooms alone. They use no heap and no global state: they are re-entrant, and what one call
 * answers depends on what it is lent. docs/RULES.md says what each does, to the last word; oq3_kinds.h has the kinds and the error codes by
 * name, docs/KINDS.md and docs/MESSAGES.md with what they are.
 *
 * Nothing checks the calls of this header against the source (crates/oq3_c/src/lib.rt, crates/oq3_read_c/src/lib.rt): they are kept by hand,
 * and examples/c/test.c runs them.
 *
 * What a caller owes, which no call can test:
 *   - A pointer is valid for as many elements as the length behind it says, and aligned for its type. With a length of 0 it is still
 *     not null and aligned, and is not read.
 *   - No two rooms of one call overlap, and nothing else reads or writes them while it runs.
 *   - OQ3_STACK bytes of stack are left. The proofs know no stack; tools/stack reads the bound off the compiled code. All but
 *     oq3_parse and oq3_lex, which holds its table there, take a few hundred.
 * Everything else may have any value: there is no further condition on any number, word or length.
 */
#ifndef OQ3_H
#define OQ3_H

#include <stddef.h>
#include <stdint.h>

/*
 * The version of the library: that of the crate oq3_parser whose parser it is, and a number that is one more with each change of what this header
 * says or a call answers.
 */
#define OQ3_VERSION "0.7.0-4"

#ifdef __cplusplus
extern "C" {
#endif

/*
 * What a call returns: done, or why it is refused. The place is the first word of the answer room. Where the crate, oq3_parser 0.7.0, panics
 * stands in docs/PANICS.md. Written by tools/refusals from docs/RULES.md, section 3; ./check compares the two.
 */
enum {
    /* done; place: a parse: tokens consumed. The check: events. Resolution: bytes written. A step file: its length. Lexing: all tokens,
     * trivia included */
    OQ3_DONE = 0,
    /* the mode is neither 0 nor 1; place: 0 */
    OQ3_BAD_MODE = 1,
    /* more than 8,192 tokens; a list of more than 65,536 events; place: 0 */
    OQ3_TOO_LONG = 2,
    /* fewer joint words than tokens / 64, rounded up; place: 0 */
    OQ3_FEW_JOINTS = 3,
    /* a kind that is not permitted; place: the first such token */
    OQ3_BAD_KIND = 4,
    /* one more event than the room holds, at any moment of the run; place: tokens consumed */
    OQ3_NO_EVENT_ROOM = 5,
    /* a counted call (docs/COUNTED.md) begins while 64 are unfinished; place: tokens consumed */
    OQ3_TOO_DEEP = 6,
    /* the 10,001st lookup since a token was consumed; place: tokens consumed */
    OQ3_STUCK = 7,
    /* where the crate's release build panics, its step limit aside; a source-file run that would end with a token left; place: tokens
     * consumed */
    OQ3_STOPPED = 8,
    /* the list is not well formed; place: the first faulty event */
    OQ3_FAULTY_LIST = 9,
    /* the step room is too small; place: bytes needed */
    OQ3_NO_STEP_ROOM = 10,
    /* a record of a step file runs past the end; place: the first byte of that record */
    OQ3_CUT_RECORD = 11,
    /* a record of a step file is unsound: an unknown kind, another length than its kind has, a raw count outside 1 to 3, or another code
     * than 1 in record kind 5; place: the first byte of that record */
    OQ3_BAD_RECORD = 12,
    /* the records of a step file do not nest, or there is none; place: the first byte of the first record that breaks the nesting, or
     * the file's length where that is seen at the end */
    OQ3_BAD_NESTING = 13,
    /* a text of more than 65,536 bytes; place: 0 */
    OQ3_TEXT_TOO_LONG = 14,
    /* one of the three rooms for a text's tokens is too small; place: all tokens, trivia included */
    OQ3_NO_TEXT_ROOM = 15,
    /* from C: the answer room is too short; place: none */
    OQ3_NO_ANSWER_ROOM = 100,
    /* from C: the entry of a parse is none of the three; place: 0 */
    OQ3_BAD_ENTRY = 101
};

/* Where a parse begins. */
enum { OQ3_SOURCE_FILE = 0, OQ3_ITEM = 1, OQ3_EXPRESSION = 2 };

/* How operators bind: as oq3_parser 0.7.0 has them, or as the OpenQASM 3 specification has them. */
enum { OQ3_MODE_CRATE = 0, OQ3_MODE_SPECIFICATION = 1 };

/* The limits. */
enum {
    OQ3_MOST_TOKENS = 8192,
    OQ3_MOST_EVENTS = 65536,
    OQ3_EVENT_WORDS = 2,         /* words of one event */
    OQ3_MOST_ROOM = OQ3_EVENT_WORDS * OQ3_MOST_EVENTS, /* words of the largest event room */
    OQ3_MOST_STEPS = 655360,     /* bytes of the longest step file: ten for each event */
    OQ3_MOST_TEXT = 65536,       /* bytes of the longest text */
    OQ3_STACK = 262144           /* bytes of stack that are enough for any call, on x86-64 */
};

/* The words of an answer room: at least so many must be lent, and further ones stay. */
enum {
    OQ3_LEX_WORDS = 2,   /* oq3_lex: place, kinds */
    OQ3_PARSE_WORDS = 3, /* oq3_parse: place, events, lookups */
    OQ3_LIST_WORDS = 1,  /* oq3_check and oq3_resolve: place */
    OQ3_FILE_WORDS = 2,  /* oq3_read_file: place, records */
    OQ3_STEP_WORDS = 6   /* oq3_read_step: bytes taken, record kind, and four for the payload */
};

/* The least number of joint words for so many tokens. */
#define OQ3_JOINT_WORDS(tokens) (((size_t)(tokens) + 63) / 64)

/* The least number of list words for so many tokens of a text, trivia included. */
#define OQ3_TOKEN_WORDS(tokens) (2 * (size_t)(tokens))

/* An event room of so many words holds so many events. */
#define OQ3_ROOM_WORDS(events) (OQ3_EVENT_WORDS * (size_t)(events))

/* A step room of so many bytes is enough for every list of so many events. */
#define OQ3_STEP_BYTES(events) (10 * (size_t)(events))

/*
 * Finds the tokens of a text: 0, 14 or 15. docs/LEXER.md has the rules of what a token is.
 *
 *   text    the bytes of a program, at most OQ3_MOST_TEXT; any byte may stand in it, 0 too
 *   kinds   gets the kind of each token that is no white space and no comment
 *   joints  gets a bit for each of these: 1 where the next byte begins another such token, else 0; laid out as oq3_parse reads it
 *   tokens  gets two words for each token, white space and comments too: its kind and its length in bytes. The lengths add up to the text's
 *   answer  at least OQ3_LEX_WORDS words: the number of all tokens, and the number of kinds. A refusal has 0 for the second. Further words stay
 *
 * Done, everything behind what is written stays as it was, the further bits of the last joint word too. Hand oq3_parse answer[1] kinds and the
 * joint words: it is not refused with 3 or 4 then. Refused, no room is written. After a 15 answer[0] is the number n of all tokens, and n kinds,
 * OQ3_JOINT_WORDS(n) joint words and OQ3_TOKEN_WORDS(n) list words are enough; the rooms may have no elements, so this can be asked for.
 * Rooms for as many tokens as the text has bytes are always enough, and fastest: the tokens are not counted first then.
 *
 * No byte is refused: one that begins no token is an OQ3_KIND_ERROR of one byte, and the tree of the program has an error.
 */
uint32_t oq3_lex(const uint8_t *text, size_t text_length,
                 uint16_t *kinds, size_t kinds_length,
                 uint64_t *joints, size_t joints_length,
                 uint32_t *tokens, size_t tokens_length,
                 uint64_t *answer, size_t answer_length);

/*
 * Parses tokens into a list of events.
 *
 *   kinds   one kind for each token, trivia left out
 *   joints  token i touches the next one where bit i % 64, counted from the lowest, of joints[i / 64] is 1; further words and bits are ignored
 *   room    the event room, two words for each event, of any contents; an odd last word holds none
 *   answer  at least OQ3_PARSE_WORDS words: the place, the events and the lookups. A refusal has 0 for the last two. Further words stay
 *
 * Done, the events are the first OQ3_ROOM_WORDS(answer[1]) words of the room, and every word behind them is 0. Refused with 5 to 8 the whole
 * room is 0. Refused with 1 to 4, 100 or 101 it is untouched.
 *
 * How large a room? No bound by the number of tokens is known. OQ3_MOST_ROOM words are always enough: in a room of that size a 5 means that
 * the run passes the limit of 65,536 events itself, and no larger room helps. A smaller room is never wrong: what does not fit is refused
 * with 5. The run may hold a few more events at one moment than the list that it leaves. Each word of the room that is lent beyond the list
 * is written once, so a room that is far too large costs time (docs/SPEED.md).
 */
uint32_t oq3_parse(uint32_t entry, uint32_t mode,
                   const uint16_t *kinds, size_t kinds_length,
                   const uint64_t *joints, size_t joints_length,
                   uint32_t *room, size_t room_length,
                   uint64_t *answer, size_t answer_length);

/*
 * Whether a list of events is well formed: 0, 2 or 9. It changes nothing but answer[0], the place; the answer has at least OQ3_LIST_WORDS
 * words. Of a parsed room, lend the list alone, OQ3_ROOM_WORDS(events) words: the zeros behind it are no events.
 */
uint32_t oq3_check(const uint32_t *words, size_t words_length,
                   uint64_t *answer, size_t answer_length);

/*
 * Checks a list of events and resolves it into a step file: 0, 2, 9 or 10. The answer has at least OQ3_LIST_WORDS words.
 *
 * Done, the first answer[0] bytes of the step room are the file, its other bytes are as they were, and the list is used up: each event is a
 * start without kind and distance. Refused, both rooms are untouched; after a 10 answer[0] is the number of bytes to lend, and the same
 * list may be handed in again. A step room may have no bytes, so the size can be asked for.
 */
uint32_t oq3_resolve(uint32_t *words, size_t words_length,
                     uint8_t *steps, size_t steps_length,
                     uint64_t *answer, size_t answer_length);

/*
 * Whether a whole step file is good: 0, 11, 12 or 13. It changes nothing but the answer; a file may have any length.
 *
 *   answer  at least OQ3_FILE_WORDS words: the place and the records. A refusal has 0 records. Further words stay
 *
 * A file is good when it has a record, each is sound, and they are one tree: the depth, +1 at an enter and -1 at a leave, is 0 after the last
 * record and above 0 after every earlier one. So it is one node, or a lone token or error. Records are judged from the front, each for 11,
 * then 12, then 13, and the first fault is told, with the offset of its record. It is the file's length for a 13 that only the end shows: no
 * record at all (13 at 0), or a node that is still open. A good file that is cut anywhere is refused: with 11, or, cut between two records,
 * with 13 at its length.
 *
 * oq3_check judges lists of events, this judges step files. What oq3_resolve writes of a list that passes the check need not be a good file:
 * it may have no step, or several roots, as a parse from OQ3_ITEM may leave. From OQ3_SOURCE_FILE it is always good.
 */
uint32_t oq3_read_file(const uint8_t *file, size_t file_length,
                       uint64_t *answer, size_t answer_length);

/*
 * Reads the first step of a file, or of what is left of one: 0, 11 or 12. It changes nothing but the answer.
 *
 *   answer  at least OQ3_STEP_WORDS words: the bytes taken, where the rest begins; the record kind (OQ3_STEP_ENTER and so on); then the
 *           payload's numbers in their order, and 0 for those that it lacks. Further words stay
 *
 * On no bytes it returns 0 with record kind 0: the end. There and on a refusal all six words are 0. Nesting is not judged, so ask
 * oq3_read_file first: in a good file each call from the front to the end is done, as many as it has records.
 */
uint32_t oq3_read_step(const uint8_t *file, size_t file_length,
                       uint64_t *answer, size_t answer_length);

/*
 * A step file is one record after the other: payload length in 2 bytes, record kind in 2 bytes, payload; all little-endian. What is named
 * here is the payload; oq3_read_step has its numbers in answer[2] and answer[3], and the third one of record kind 5 in answer[4].
 *
 * "Expected KIND" (code 1, OQ3_MESSAGE_EXPECTED) is written as record kind 5, every other error as record kind 4. A file that is older than
 * record kind 5 has code 1 in record kind 4: it is as good as it was.
 */
enum {
    OQ3_STEP_END = 0,     /* no record: what oq3_read_step says at the end */
    OQ3_STEP_ENTER = 1,   /* kind, 2 bytes */
    OQ3_STEP_LEAVE = 2,   /* no payload */
    OQ3_STEP_TOKEN = 3,   /* kind, 2 bytes; raw count, 1 byte: how many tokens it is glued of, 1, 2 or 3 */
    OQ3_STEP_ERROR = 4,   /* code, 2 bytes; argument, 2 bytes: a kind or 0 */
    OQ3_STEP_EXPECTED = 5 /* code, 2 bytes, always 1; expected kind, 2 bytes; found kind, 2 bytes: OQ3_KIND_EOF past the last token */
};

/*
 * An event is two words: the tag and what is added to it, and a second number.
 */
enum {
    OQ3_EVENT_START = 65536,    /* + kind; the distance to its parent's start in events, 0 for none */
    OQ3_EVENT_FINISH = 131072,  /* 0 */
    OQ3_EVENT_TOKEN = 196608,   /* + kind; raw count */
    OQ3_EVENT_ERROR = 262144    /* + code; argument, and with code 1 the expected kind and 65,536 times the found kind */
};

#ifdef __cplusplus
}
#endif

#endif
