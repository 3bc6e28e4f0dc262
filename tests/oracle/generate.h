/* Records made by chance, each decided by its seed alone. */
#ifndef DULQIMES_GENERATE_H
#define DULQIMES_GENERATE_H

#include "oracle.h"
#include "vectors.h"

/*
 * A record of at most LONGEST_INPUT bytes: well-formed and justified ones, such with a fault aimed at one of the rules,
 * actions thrown together, damaged and cut bytes; from a few actions to full sections, some longer than a record may be.
 */
size_t generate(uint64_t seed, uint8_t *rec);

/* A race-free record whose K + 1 sections have n actions each, justified if K isn't 0 (K from 2, or 0). */
size_t generate_window(uint64_t seed, unsigned n, unsigned executions, uint8_t *rec);

/* chance for those who use the records: xorshift, never 0 */
struct chance {
    uint64_t x;
};
struct chance chance_from(uint64_t seed);
unsigned below(struct chance *g, unsigned n);           /* 0 to n - 1; 0 when n is 0 */

#endif
