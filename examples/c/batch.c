/*
 * 64 figures decomposed by one call: figure k is k, with sub-shares k + 5, 7 and p - 12 in ring 31. Prints the gates
 * spent and, of each figure, the exclusive or of its three words of bits.
 */
#include <inttypes.h>
#include <stdio.h>

#include "survey.h"

enum { BITS = 8, GATES = 3 * BITS + 1 };

/* Words of a tape, not random ones: this program hides nothing. */
static void fill(uint64_t *words, size_t length, uint64_t word)
{
    for (size_t k = 0; k < length; k++) {
        word = word * 6364136223846793005u + 1442695040888963407u;
        words[k] = word;
    }
}

int main(void)
{
    uint64_t a[3][SURVEY_BATCH_FIGURES], m[3][GATES], c[3][GATES], z[3][SURVEY_BATCH_FIGURES];
    uint64_t answer[SURVEY_ANSWER_WORDS] = {0};

    for (uint64_t k = 0; k < SURVEY_BATCH_FIGURES; k++) {
        a[0][k] = k + 5;
        a[1][k] = 7;
        a[2][k] = 0x7fffffff - 12;
    }
    for (size_t i = 0; i < 3; i++) {
        fill(m[i], GATES, i);
        fill(c[i], GATES, 0);
    }
    uint64_t refusal = survey_batch(SURVEY_RING_31, BITS, a[0], SURVEY_BATCH_FIGURES, a[1], SURVEY_BATCH_FIGURES,
                                    a[2], SURVEY_BATCH_FIGURES, m[0], GATES, m[1], GATES, m[2], GATES,
                                    c[0], GATES, c[1], GATES, c[2], GATES, z[0], SURVEY_BATCH_FIGURES,
                                    z[1], SURVEY_BATCH_FIGURES, z[2], SURVEY_BATCH_FIGURES, answer, SURVEY_ANSWER_WORDS);
    if (refusal != SURVEY_DONE) {
        fprintf(stderr, "refused: %s\n", survey_refusal_name(refusal));
        return 1;
    }
    printf("%" PRIu64 " gates\n", answer[SURVEY_ANSWER_GATES]);
    for (size_t k = 0; k < SURVEY_BATCH_FIGURES; k++) {
        printf("%" PRIu64 "%c", z[0][k] ^ z[1][k] ^ z[2][k], k % 16 == 15 ? '\n' : ' ');
    }
    return 0;
}
