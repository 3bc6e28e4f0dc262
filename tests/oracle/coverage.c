#include "coverage.h"

#include <stdio.h>

const char *const QUESTION[QUESTIONS] = {"verdict", "race", "order"};

/* the numbers of each question, a bit for each */
#define FROM_TO(low, high) ((uint32_t)(((uint64_t)1 << ((high) + 1)) - ((uint64_t)1 << (low))))
static const uint32_t ASKED[QUESTIONS] = {
    [VERDICT] = 1u | FROM_TO(1, 7) | FROM_TO(10, 18) | FROM_TO(21, 29),
    [RACE] = 1u | FROM_TO(1, 7) | FROM_TO(11, 14) | 1u << 31,
    [ORDER] = 1u | FROM_TO(1, 8) | FROM_TO(11, 18) | 1u << 31,
};
static const uint32_t LENT = 1u << 4 | 1u << 8;

int same_answer(struct answer x, struct answer y) { return x.n == y.n && x.s == y.s && x.a == y.a && x.b == y.b; }

uint64_t packed(struct answer x) {
    return x.n + ((uint64_t)x.s << 8) + ((uint64_t)x.a << 16) + ((uint64_t)x.b << 32);
}

void cover(struct coverage *c, enum question q, struct answer x) {
    if (x.n < NUMBERS)
        c->reached[q][x.n]++;
}

unsigned print_coverage(const struct coverage *c, unsigned questions, int lent) {
    unsigned missing = 0;
    uint32_t counted = lent ? ~(uint32_t)0 : ~LENT;
    printf("number");
    for (unsigned q = 0; q < questions; q++)
        printf("%10s", QUESTION[q]);
    printf("\n");
    for (unsigned n = 0; n < NUMBERS; n++) {
        unsigned asked = 0;
        for (unsigned q = 0; q < questions; q++)
            asked |= (ASKED[q] & counted) >> n & 1;
        if (!asked)
            continue;
        printf("%6u", n);
        for (unsigned q = 0; q < questions; q++)
            if (ASKED[q] >> n & 1)
                printf("%10lu", c->reached[q][n]);
            else
                printf("%10s", "-");
        printf("\n");
    }
    for (unsigned q = 0; q < questions; q++)
        for (unsigned n = 0; n < NUMBERS; n++)
            if ((ASKED[q] & counted) >> n & 1 && c->reached[q][n] == 0) {
                printf("%s %u was never reached\n", QUESTION[q], n);
                missing++;
            }
    return missing;
}
