/* Which numbers were reached, per question, and how answers are compared and shown. */
#ifndef DULQIMES_COVERAGE_H
#define DULQIMES_COVERAGE_H

#include "oracle.h"

enum question { VERDICT, RACE, ORDER, QUESTIONS };
enum { NUMBERS = 32 };

extern const char *const QUESTION[QUESTIONS];

struct coverage {
    unsigned long reached[QUESTIONS][NUMBERS];
};

int same_answer(struct answer x, struct answer y);
uint64_t packed(struct answer x);       /* the host's one number */
void cover(struct coverage *c, enum question q, struct answer x);

/*
 * A line for each number that one of the first questions can answer, then a line for each that was never reached. How
 * many those are. `lent`: 4 and 8 count, which only too small a work area or list can bring.
 */
unsigned print_coverage(const struct coverage *c, unsigned questions, int lent);

#endif
