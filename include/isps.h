/* The calls of the reader and runner for a bench subset of ISPS: Check and Run; Why; Profile; Store and Load; Bound; Trace.
 *
 * Each byte buffer is lent as a pointer and a length. Where the length is 0, the pointer may be anything, NULL included: it is not followed. The calls keep
 * nothing from one call to the next, allocate nothing, and write only to the work buffers, `answer`, and where a call's comment says so.
 * Lent buffers must not overlap. A call takes at most 32 KiB of stack. */
#ifndef ISPS_H
#define ISPS_H

#include <stddef.h>
#include <stdint.h>

#ifdef __cplusplus
extern "C" {
#endif

#define ISPS_WORK_SIZE 65536    /* least length of each of the work buffers: three, and four for Trace */
#define ISPS_ANSWER_SIZE 32     /* least length of `answer` */
#define ISPS_REASON_SIZE 96     /* least length of `reason`, of Why */
#define ISPS_LONGEST_TEXT 32768 /* in bytes */

/* Checks a description. Returns its refusal number, 0 if it is accepted, and fills `answer`. */
uint32_t isps_check(const uint8_t *text, size_t text_len,
                    uint8_t *work_a, size_t a_len, uint8_t *work_b, size_t b_len, uint8_t *work_c, size_t c_len,
                    uint8_t *answer, size_t answer_len);

/* Checks a description and says why it is refused. Returns and fills `answer` as isps_check does, and fills `reason` with 24 little-endian numbers of 4 bytes, in
 * the order that is listed below; bytes behind its first 96 stay as they are. A `reason` that is shorter than published is 1. */
uint32_t isps_why(const uint8_t *text, size_t text_len,
                  uint8_t *work_a, size_t a_len, uint8_t *work_b, size_t b_len, uint8_t *work_c, size_t c_len,
                  uint8_t *reason, size_t reason_len,
                  uint8_t *answer, size_t answer_len);

/* Reads a description afresh and runs it from the given carriers, for at most `budget` steps. Returns the number of the refusal or of the
 * fault, 0 if there is neither, and fills `answer`.
 *
 * `carriers` has 8 bytes for each word, little-endian, in the order of the declarations, the word with the left name first; its length is
 * 8 times the number of words that isps_check gives. The call leaves in it what the counted steps stored. A refusal leaves it unchanged. */
uint32_t isps_run(const uint8_t *text, size_t text_len,
                  uint8_t *carriers, size_t carriers_len, uint32_t budget,
                  uint8_t *work_a, size_t a_len, uint8_t *work_b, size_t b_len, uint8_t *work_c, size_t c_len,
                  uint8_t *answer, size_t answer_len);

/* The resume profile: whether no path from the start of MAIN writes any bit of the storage carrier `output` before one activation of the body `test` has
 * ended. On a path every IF and DECODE may go either way, whatever the carriers hold, a REPEAT turns until a LEAVE, RESTART or STOP() leads out of it, and
 * members step in any order. A write inside the test's first activation is too early. Returns the refusal number, 0 if the profile is accepted, and fills
 * `answer`: ISPS_DONE, or ISPS_REFUSED with the number and place of the text's own refusal, else of 90 to 92.
 *
 * `test` and `output` are bytes of any number and any kind, without a zero at their end; letters are folded. */
uint32_t isps_profile(const uint8_t *text, size_t text_len,
                      const uint8_t *test, size_t test_len, const uint8_t *output, size_t output_len,
                      uint8_t *work_a, size_t a_len, uint8_t *work_b, size_t b_len, uint8_t *work_c, size_t c_len,
                      uint8_t *answer, size_t answer_len);

/* Stored carriers: an image of blocks of 512 bytes, each with its own check. Byte 0 of a block is its number from 0, byte 1 the edition, 1; bytes 2 and 3 are the
 * payload bytes used, little-endian; bytes 4 to 507 the payload, of which the unused part is zero; bytes 508 to 511, little-endian, the sum over bytes 0
 * to 507 of byte times (position + 1). Every block but the last is full, and no words have no blocks. */
#define ISPS_IMAGE_SIZE(words) (((size_t)(words) + 62) / 63 * 512) /* length of the image of so many words: 63 of them fill a block */

/* Writes the image of the carriers to `image`. Returns the refusal number, 0 if there is none, and fills `answer`: ISPS_DONE, or ISPS_REFUSED with the text's
 * own refusal, else 60, 61, 62, in this order. A refusal leaves `image` unchanged. */
uint32_t isps_store(const uint8_t *text, size_t text_len,
                    const uint8_t *carriers, size_t carriers_len, uint8_t *image, size_t image_len,
                    uint8_t *work_a, size_t a_len, uint8_t *work_b, size_t b_len, uint8_t *work_c, size_t c_len,
                    uint8_t *answer, size_t answer_len);

/* Writes the carriers that the image holds to `carriers`, whatever stood there. Returns and fills `answer` as isps_store does. The refusals behind the text's
 * own are 60 of the length of `carriers`, 62, then 63 or 64 of the lowest block at fault, then 61 of the words that the image holds. A refusal leaves
 * `carriers` unchanged. */
uint32_t isps_load(const uint8_t *text, size_t text_len,
                   const uint8_t *image, size_t image_len, uint8_t *carriers, size_t carriers_len,
                   uint8_t *work_a, size_t a_len, uint8_t *work_b, size_t b_len, uint8_t *work_c, size_t c_len,
                   uint8_t *answer, size_t answer_len);

/* The longest run: a bound on the steps of a run from any carriers, in any order, so that a budget of that size never ends Paused. A transfer, test, activation
 * or other step is 1; a group or sequence adds up; IF adds its action; DECODE its dearest alternative; an activation its body. LEAVE cuts nothing off.
 * Returns the text's refusal number, 0 if it is accepted, and fills `answer`: ISPS_DONE with the bound as ISPS_STEPS; ISPS_NO_BOUND where a REPEAT or RESTART
 * stands in MAIN or in a body that activations from MAIN reach, or where the number passes 4,294,967,295; or ISPS_REFUSED. */
uint32_t isps_bound(const uint8_t *text, size_t text_len,
                    uint8_t *work_a, size_t a_len, uint8_t *work_b, size_t b_len, uint8_t *work_c, size_t c_len,
                    uint8_t *answer, size_t answer_len);

/* A designer's list of stores, in the order in which they were made. An entry is 16 bytes, little-endian: 4 of the place of the transfer (the offset in bytes of its first
 * token, behind a label), 4 of the number of the word in the order of the carriers, from 0, 8 of what the word holds after the store. There is one entry for each part of a
 * destination, those of one transfer together from left to right; a store that changes nothing is an entry too. */
#define ISPS_ENTRY_SIZE 16     /* in bytes */
#define ISPS_MOST_ENTRIES 4096 /* of a list */

/* An entry by name. x86-64, for which the library is, keeps it as these 16 bytes: the bytes of an array of entries are a list. */
typedef struct {
    uint32_t place;
    uint32_t word;
    uint64_t value;
} isps_entry;

/* Whether a list is what some order of steps stores: the text is read afresh and run from the given carriers, for at most `budget` steps, and the list is compared
 * with its stores. Returns and fills `answer` as isps_run does, but for these numbers: where the ending is ISPS_DONE or ISPS_STOPPED, ISPS_YES is 1 if some
 * allowed order ends so within the budget and makes just those stores; else it is 0, and ISPS_FIRST_BAD is the first entry, counted from 0, at which the list up to
 * and including it begins the stores of no such order, or the number of entries if only more entries could help. The refusals behind those of isps_run are 110.
 *
 * `carriers` and `entries` are only read; the call runs on a copy in its work memory, which is four buffers. A list of no entries has length 0, and its pointer may be
 * NULL. */
uint32_t isps_trace(const uint8_t *text, size_t text_len,
                    const uint8_t *carriers, size_t carriers_len, uint32_t budget, const uint8_t *entries, size_t entries_len,
                    uint8_t *work_a, size_t a_len, uint8_t *work_b, size_t b_len, uint8_t *work_c, size_t c_len, uint8_t *work_d, size_t d_len,
                    uint8_t *answer, size_t answer_len);

/* Work memory may hold anything before a call. After it, it is zero over its whole length, also where it is longer than the published size.
 * Refusals 1 and 2 are the exception: they write nothing anywhere, not even the answer, so that the returned number is all there is. It stands for
 * place 0, line 1 and column 1. */

/* `answer` takes eight little-endian numbers of 4 bytes; bytes behind its first 32 stay as they are. This is their order. */
enum {
    ISPS_ENDING,       /* one of the endings below */
    ISPS_NUMBER,       /* of the refusal or fault, else 0; the call returns it too */
    ISPS_PLACE,        /* of the refusal or fault, else 0: an offset in bytes into the text (for 61 into the carriers, for 63 and 64 into the image) */
    ISPS_STEPS,        /* that Run or Trace took, or Bound's bound; 0 after a refusal */
    ISPS_DECLARATIONS, /* number of declarations, in the answer of Check and Why to an accepted text, else 0 */
    ISPS_WORDS,        /* number of words of all carriers, likewise */
    ISPS_LINE,         /* of the place of a refusal or fault, else 0; see below */
    ISPS_COLUMN,       /* likewise */

    ISPS_YES = ISPS_DECLARATIONS, /* in Trace's answer: 1 if the list is so, else 0 */
    ISPS_FIRST_BAD = ISPS_WORDS   /* in Trace's answer where the list is not so: the number of an entry or of all, else 0 */
};

/* Line and column are counted from 1. Byte 10 ends a line; every other byte, tab and 13 included, is one column. The end of the text has what the next
 * byte would have. Where the place is no offset into the text (1, 2, 60 to 64, 90, 91, 110), line and column are 1. */

/* `reason` has 24 numbers. The first is its kind, which says what those behind it are; numbers that are not listed for a kind are 0. Each place is an offset
 * in bytes into the text. */
enum {
    ISPS_REASON, /* one of the kinds below */

    /* of a race: the member at the refusal's place, and the earliest in its group that races with it */
    ISPS_EARLIER_MEMBER = 1, /* place of the earlier one */
    ISPS_LATER_MEMBER = 2,   /* place of the later one, which is the refusal's */
    ISPS_SHARED = 3,         /* the first storage carrier, in declaration order, that they share in conflict: the number of its declaration, from 0 */
    ISPS_SHARED_NAME = 4,    /* place of the name of that declaration */
    ISPS_WRITERS = 5,        /* who writes it: 1 the earlier member, 2 the later one, 3 both */

    /* of a chain: bodies, each of which activates the next one. The first is the refused one. The last stands among those before it, so that the chain
     * closes, or is the 17th. */
    ISPS_BODIES = 1,    /* how many are listed, 2 to 17 */
    ISPS_FIRST_BODY = 2 /* from here on the place of the declared name of each */
};

/* Kinds of reasons. */
enum {
    ISPS_NO_REASON, /* the text is accepted, or its refusal is neither 53 nor 51: number and place say it all */
    ISPS_RACING,    /* 53 */
    ISPS_CHAINED    /* 51 */
};

/* Endings. */
enum {
    ISPS_DONE,    /* the run came to its end; or Check or Why accepted the text, Profile the profile; Store and Load wrote their buffer; Bound has one */
    ISPS_STOPPED, /* the run came to a STOP() */
    ISPS_PAUSED,  /* more steps than the budget were needed */
    ISPS_FAULT,   /* a step could not be taken: 70 or 71 */
    ISPS_REFUSED, /* 1 to 64, 90 to 92, 110 */
    ISPS_NO_BOUND /* Bound has none */
};

/* Numbers. The comment says when, and the place where it is not the thing itself. */
enum {
    /* the call: place 0, and nothing is written */
    ISPS_WORK_TOO_SHORT = 1, /* a work buffer, `answer` or `reason` is shorter than published */
    ISPS_TEXT_TOO_LONG = 2,  /* text over 32,768 bytes */

    /* bytes and tokens */
    ISPS_BAD_BYTE = 10,        /* byte or mark not allowed */
    ISPS_LONG_NAME = 11,       /* name over 32 bytes */
    ISPS_BAD_CONSTANT = 12,    /* constant malformed, or over 64 bits */
    ISPS_TOO_MANY_TOKENS = 13, /* over 8,192 tokens; at token 8,193 */

    /* grammar */
    ISPS_NO_DESCRIPTION = 20, /* the tokens up to this one begin no description; at the end of text its length */
    ISPS_TOO_DEEP = 21,       /* BEGIN, `(` and `[` open over 32 deep; at the opener */

    /* declarations: at the declared name */
    ISPS_DECLARED_TWICE = 30,        /* name declared twice, the outer name included; at the second */
    ISPS_TOO_LONG = 31,              /* over 64 bits, or a declared bit or word name over 4,095 */
    ISPS_TOO_MANY_DECLARATIONS = 32, /* over 256 declarations, or over 4,096 words in total */
    ISPS_BAD_MAPPING = 33,           /* target unknown, has words or is a mapping; its bits outside, the other way round, or not as many */

    /* bodies */
    ISPS_UNKNOWN_NAME = 40,   /* name not declared */
    ISPS_WRONG_USE = 41,      /* `[e]` missing, or given without words; no bits; P() on what is no body; at the name */
    ISPS_BITS_OUTSIDE = 42,   /* bits outside the declared ones, or running the other way; at the name */
    ISPS_RESULT_TOO_LONG = 43,/* result or joined destination over 64 bits; at the operator */
    ISPS_BAD_LABEL = 44,      /* label repeated in a body, or a known name; LEAVE or RESTART aims at nothing around it (at the keyword) */
    ISPS_BAD_SELECTOR = 45,   /* alternative 65; selector past the tested length; two alternatives overlap; at the (later) alternative */
    ISPS_STORED_TWICE = 46,   /* one storage carrier twice in a destination; at the second */

    /* the whole description */
    ISPS_NOT_ONE_MAIN = 50, /* MAIN missing, at 0; or a second MAIN */
    ISPS_LONG_CHAIN = 51,   /* chain of activations over 16 bodies long, or a cycle; at the first declared body that begins one */
    ISPS_ESCAPES = 52,      /* in a group of two or more: LEAVE or RESTART aims outside its member (at the keyword), or STOP below a member (at it) */
    ISPS_RACE = 53,         /* two members of a group race; at the later one */

    /* carriers, in Run, Store, Load and Trace */
    ISPS_CARRIERS_LENGTH = 60, /* carriers not 8 bytes a word; at 0 */
    ISPS_CARRIER_BITS = 61,    /* a carrier bit above its length is set; at the word's offset in the carriers */

    /* images, in Store and Load: 63 and 64 at the block's offset in the image */
    ISPS_IMAGE_LENGTH = 62, /* image not of the blocks that the words need; at 0 */
    ISPS_BLOCK_CHECK = 63,  /* a block's check is not that of its bytes */
    ISPS_BLOCK_HEAD = 64,   /* a block's number, edition or used count is wrong, or its unused payload not zero */

    /* faults of a run, with the steps before it */
    ISPS_NO_SUCH_WORD = 70,   /* word name outside the declaration; at the carrier's name */
    ISPS_NO_ALTERNATIVE = 71, /* no alternative matches; at DECODE */

    /* the resume profile, in Profile only */
    ISPS_NO_TEST = 90,   /* the test's name is that of no body; at 0 */
    ISPS_NO_OUTPUT = 91, /* the output's name is that of no storage carrier: a mapping is none, a body with bits is one; at 0 */
    ISPS_TOO_EARLY = 92, /* some path writes the output too early; at the lowest such transfer, its first token */

    /* a designer's list, in Trace only */
    ISPS_BAD_LIST = 110 /* over 4,096 entries, or not whole ones; at 0 */
};

#ifdef __cplusplus
}
#endif

#endif
