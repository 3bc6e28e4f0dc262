/* The oracle: document 01 once more, in C and by other means than the library, to hold the library's answers against. */
#ifndef DULQIMES_ORACLE_H
#define DULQIMES_ORACLE_H

#include <stddef.h>
#include <stdint.h>

struct answer {
    unsigned n, s, a, b;
};

enum {
    NO_POSITION = 65535,        /* A or B where no position is named */
    MOST_ACTIONS = 128,         /* in a section */
    MOST_SECTIONS = 9,          /* E and E_1 to E_8 */
    PART_WORDS = 256,           /* of the work area, per section */
    MOST_WORDS = PART_WORDS * MOST_SECTIONS,
    HEADER_BYTES = 17,
    ACTION_BYTES = 20,
    LONGEST_RECORD = HEADER_BYTES + MOST_SECTIONS * (2 + ACTION_BYTES * MOST_ACTIONS)
};

/* The three questions. The words and the list are left as document 01 says. */
struct answer oracle_verdict(const uint8_t *rec, size_t len, uint64_t *words, size_t nwords);
struct answer oracle_race(const uint8_t *rec, size_t len, uint64_t *words, size_t nwords);
struct answer oracle_order(const uint8_t *rec, size_t len, uint64_t *words, size_t nwords, uint16_t *list, size_t nlist);

#endif
