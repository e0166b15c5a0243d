/*
 * 01's worked listing by the library: a dealer's tape of 1 and 2, then deal 5 in ring 13 to register 0, open register 0,
 * open register 3, which is empty. Prints the listing's three lines on standard output, and what an order was refused for
 * on standard error.
 */
#include <inttypes.h>
#include <stdio.h>

#include "survey.h"

/* A length that suffices for the listing: an opening writes one word a channel. */
enum { CHANNEL_WORDS = 8 };

/* All that a set of three units keeps between two orders. */
struct set {
    uint64_t record[SURVEY_RECORD_WORDS];
    uint64_t masks[3][1]; /* this job has no gate, and its mask tapes have length 0 */
    uint64_t dealer[2];
    uint64_t channels[3][CHANNEL_WORDS];
};

/* Carries out one order; the number that survey_step returns. */
static uint64_t step(struct set *set, const uint64_t order[SURVEY_ORDER_WORDS], uint64_t answer[SURVEY_ANSWER_WORDS])
{
    return survey_step(order, SURVEY_ORDER_WORDS, set->record, SURVEY_RECORD_WORDS,
                       set->masks[0], 0, set->masks[1], 0, set->masks[2], 0, set->dealer, 2,
                       set->channels[0], CHANNEL_WORDS, set->channels[1], CHANNEL_WORDS, set->channels[2], CHANNEL_WORDS,
                       answer, SURVEY_ANSWER_WORDS);
}

/* The line that the job program prints for an order. Returns 0 where the call itself was wrong. */
static int print_line(struct set *set, unsigned line, const uint64_t order[SURVEY_ORDER_WORDS])
{
    uint64_t answer[SURVEY_ANSWER_WORDS] = {0};
    uint64_t refusal = step(set, order, answer);

    if (refusal != SURVEY_DONE) {
        fprintf(stderr, "line %u: %s\n", line, survey_refusal_name(refusal));
    }
    if (refusal == SURVEY_MALFORMED) {
        return 0;
    }
    printf("%u,%" PRIu64 ",%" PRIu64 ",%" PRIu64 ",%" PRIu64 "\n", line, refusal, answer[SURVEY_ANSWER_VALUE],
           set->record[SURVEY_MASKS_AT], set->record[SURVEY_CHANNELS_AT]);
    return 1;
}

int main(void)
{
    /* The empty machine is all zeros. */
    struct set set = {.dealer = {1, 2}};
    static const uint64_t orders[3][SURVEY_ORDER_WORDS] = {
        {SURVEY_DEAL, 0, SURVEY_RING_13, 5},
        {SURVEY_OPEN, 0, 0, 0},
        {SURVEY_OPEN, 3, 0, 0},
    };
    unsigned i;

    for (i = 0; i < 3; i++) {
        /* The listing's lines 1 and 2 are the two items of the dealer's tape. */
        if (!print_line(&set, i + 3, orders[i])) {
            return 1;
        }
    }
    return 0;
}
