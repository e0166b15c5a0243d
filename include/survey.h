/*
 * The three-unit survey set: one order on words, one tape, and 64 decompositions at once.
 *
 * `rt lib` in crates/interface writes out/libinterface.a there (x86-64 Linux). "01" is the scope paper,
 * "02" its change requests; crates/layout/specs/Layout.antt says what each word is, crates/interface/specs/Calls.antt
 * what a call leaves.
 *
 * The library calls nothing but memset and memcpy of C.
 *
 * Each run of words is a pointer and its length in words. A pointer is never null, not even for length 0, and is
 * aligned for uint64_t. A run that a call writes overlaps no other run of that call.
 * No function keeps a pointer, allocates, or can fail in any other way than by the number that it returns.
 */
#ifndef SURVEY_H
#define SURVEY_H

#include <stddef.h>
#include <stdint.h>

#ifdef __cplusplus
extern "C" {
#endif

/*
 * A machine record is 83 words: registers 0 to 15 of five words each, then the three positions.
 * The words of register r start at SURVEY_REGISTER_WORDS * r. All zeros is the empty machine of 01.
 */
enum {
    SURVEY_REGISTERS = 16,
    SURVEY_REGISTER_WORDS = 5,
    SURVEY_RECORD_WORDS = 83
};

/* The words of a register, from its first on. The words of an empty one are all 0. */
enum {
    SURVEY_TAG = 0,   /* one of the tags below */
    SURVEY_SIZE = 1,  /* a number's ring width, or how many bits there are */
    SURVEY_SHARES = 2 /* sub-shares 0, 1 and 2 */
};

enum {
    SURVEY_EMPTY = 0,
    SURVEY_NUMBER = 1,
    SURVEY_BITS = 2
};

/* The positions, as words of the record: strands, wires, dealer's tape. */
enum {
    SURVEY_MASKS_AT = 80,
    SURVEY_CHANNELS_AT = 81,
    SURVEY_DEALER_AT = 82
};

/* The rings, by their width e: the modulus is 2^e - 1. In survey_prepare 1 asks for bits. */
enum {
    SURVEY_BITS_CODE = 1,
    SURVEY_RING_13 = 13,
    SURVEY_RING_31 = 31,
    SURVEY_RING_61 = 61
};

/* An order is four words: its kind, then its fields in 01's order. d is the destination, x and y are sources. */
enum { SURVEY_ORDER_WORDS = 4 };

enum {
    SURVEY_DEAL = 1,      /* d, ring width, number */
    SURVEY_ADD = 2,       /* d, x, y */
    SURVEY_SCALE = 3,     /* d, x, public factor */
    SURVEY_MULTIPLY = 4,  /* d, x, y */
    SURVEY_DECOMPOSE = 5, /* d, x, how many bits */
    SURVEY_CONVERT = 6,   /* d, x, ring width */
    SURVEY_SHIFT = 7,     /* d, x, places */
    SURVEY_COMPOSE = 8,   /* d, x, ring width */
    SURVEY_OPEN = 9       /* x, 0, 0 */
};

/* The answer to an order: refusal or 0, value opened or 0, gates spent. */
enum {
    SURVEY_ANSWER_REFUSAL = 0,
    SURVEY_ANSWER_VALUE = 1,
    SURVEY_ANSWER_GATES = 2,
    SURVEY_ANSWER_WORDS = 3
};

/* The answer to a preparation: refusal or 0, raw words used. */
enum {
    SURVEY_PREPARED_REFUSAL = 0,
    SURVEY_PREPARED_USED = 1,
    SURVEY_PREPARED_WORDS = 2
};

/* The length of each of survey_batch's runs of sub-shares and of results: figure k stands at place k. */
enum { SURVEY_BATCH_FIGURES = 64 };

/*
 * 01's refusals, 02's 23, and one of this interface: 100, so that 02's numbers 14 to 22 stay free.
 * A refusal changes no record, position, channel or run.
 */
enum {
    SURVEY_DONE = 0,
    SURVEY_UNSOUND_RECORD = 1,
    SURVEY_NO_SUCH_REGISTER = 2,
    SURVEY_EMPTY_SOURCE = 3,
    SURVEY_WRONG_KIND_OF_SOURCE = 4,
    SURVEY_NO_SUCH_RING = 5,
    SURVEY_RINGS_DIFFER = 6,
    SURVEY_NUMBER_OUT_OF_RANGE = 7,
    SURVEY_BAD_LENGTH = 8,         /* unequal lengths, or more than 1,000,000 words */
    SURVEY_TAPE_TOO_SHORT = 9,
    SURVEY_ITEM_OUT_OF_RANGE = 10, /* in survey_batch a sub-share */
    SURVEY_CHANNEL_TOO_SHORT = 11,
    SURVEY_RAW_WORDS_RAN_OUT = 12, /* survey_prepare only */
    SURVEY_NOT_64 = 23,            /* survey_batch only: sub-shares or results not in runs of 64 words */
    SURVEY_MALFORMED = 100         /* words in no layout: the answer is left as it was, too */
};

/*
 * Carries out one order. Reads the three mask tapes (01's strands) m0 to m2 and the dealer's tape; writes the record,
 * the three channels (01's wires) c0 to c2 and the answer. Returns the refusal or 0, which is the answer's first word too
 * but for SURVEY_MALFORMED.
 * At a gate on x and y, channel i gets x_i y_i + x_i y_(i+1) + x_(i+1) y_i + t_(i+1) - t_i, modulo the ring's modulus or,
 * on bits, modulo 2; t_i is the item of mask tape i. Old units send the same words (02, P5).
 */
uint64_t survey_step(const uint64_t *order, size_t order_length,
                     uint64_t *record, size_t record_length,
                     const uint64_t *m0, size_t m0_length,
                     const uint64_t *m1, size_t m1_length,
                     const uint64_t *m2, size_t m2_length,
                     const uint64_t *dealer, size_t dealer_length,
                     uint64_t *c0, size_t c0_length,
                     uint64_t *c1, size_t c1_length,
                     uint64_t *c2, size_t c2_length,
                     uint64_t *answer, size_t answer_length);

/*
 * Fills a run with items for a ring width, or for bits, from raw random words. Returns the refusal or 0, as above.
 */
uint64_t survey_prepare(uint64_t code,
                        const uint64_t *raw, size_t raw_length,
                        uint64_t *run, size_t run_length,
                        uint64_t *answer, size_t answer_length);

/*
 * Decomposes 64 figures of one ring, width 31 or 61, into so many bits each, as 64 orders of kind 5 would. Figure k's
 * sub-shares stand at place k of a0 to a2; three words below 2^bits, as the order would leave them in a bits register, go
 * to place k of z0 to z2. Mask tapes m0 to m2 and channels c0 to c2 are used from their start, one word a gate, of which
 * bit k is figure k's: any word serves as an item. There is no record. The answer is as survey_step's, with value 0 and
 * 3 * bits + 1 gates; the words behind those on a channel stay as they are.
 * Checked in this order: 23; 5, width 13 too; 7, bits not from 1 to width - 2; 10, a sub-share of 2^width - 1 or more;
 * 8; 9; 11. Returns the refusal or 0, as above; SURVEY_MALFORMED where the answer has not three words.
 * Every call needs mask tapes of its own: two calls that take the same words let a unit see differences of hidden bits.
 */
uint64_t survey_batch(uint64_t width, uint64_t bits,
                      const uint64_t *a0, size_t a0_length,
                      const uint64_t *a1, size_t a1_length,
                      const uint64_t *a2, size_t a2_length,
                      const uint64_t *m0, size_t m0_length,
                      const uint64_t *m1, size_t m1_length,
                      const uint64_t *m2, size_t m2_length,
                      uint64_t *c0, size_t c0_length,
                      uint64_t *c1, size_t c1_length,
                      uint64_t *c2, size_t c2_length,
                      uint64_t *z0, size_t z0_length,
                      uint64_t *z1, size_t z1_length,
                      uint64_t *z2, size_t z2_length,
                      uint64_t *answer, size_t answer_length);

/* What a refusal says. */
static inline const char *survey_refusal_name(uint64_t refusal)
{
    switch (refusal) {
    case SURVEY_DONE: return "done";
    case SURVEY_UNSOUND_RECORD: return "record not sound";
    case SURVEY_NO_SUCH_REGISTER: return "no such register";
    case SURVEY_EMPTY_SOURCE: return "source empty";
    case SURVEY_WRONG_KIND_OF_SOURCE: return "wrong kind of source";
    case SURVEY_NO_SUCH_RING: return "no such ring";
    case SURVEY_RINGS_DIFFER: return "rings differ";
    case SURVEY_NUMBER_OUT_OF_RANGE: return "number out of range";
    case SURVEY_BAD_LENGTH: return "lengths unequal or too large";
    case SURVEY_TAPE_TOO_SHORT: return "tape too short";
    case SURVEY_ITEM_OUT_OF_RANGE: return "tape item or sub-share out of range";
    case SURVEY_CHANNEL_TOO_SHORT: return "channel too short";
    case SURVEY_RAW_WORDS_RAN_OUT: return "raw words ran out";
    case SURVEY_NOT_64: return "not 64 sub-shares or results";
    case SURVEY_MALFORMED: return "words in no layout";
    default: return "no such refusal";
    }
}

#ifdef __cplusplus
}
#endif

#endif
