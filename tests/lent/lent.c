/*
 * The library with lent words and a lent list, against the oracle: lent VECTORS [COUNT [FIRST SEED]]
 *
 * Asks all three questions on all vectors, and on COUNT generated records (default 20000), and lends just enough, one word
 * or one entry too few, and more. The answer, every word and every entry at exit must be the oracle's, beyond what was lent
 * too; after a refusal all must be as before. Every number of every question must be reached. The last line is
 * `N passed, M failed`.
 */
#include "coverage.h"
#include "jxe.h"
#include "lent.h"
#include "records.h"

#include <stdlib.h>
#include <string.h>

enum { MORE_WORDS = PART_WORDS + 1, MORE_ENTRIES = 5, BEYOND = 3 };

/* what a question finds and what it leaves */
struct trace {
    uint64_t words[MOST_WORDS + MORE_WORDS + BEYOND];
    uint16_t list[MOST_ACTIONS + MORE_ENTRIES + BEYOND];
};

/* words and entries lent, by how many more than enough; the list is order's alone, so the others go by the first FOR_WORDS */
struct lent {
    int words, entries;
};
static const struct lent LENT[] = {{0, 0}, {-1, 0}, {MORE_WORDS, MORE_ENTRIES}, {0, -1}, {MORE_WORDS, -1}, {-1, -1}};
enum { FOR_WORDS = 3, FOR_LIST = sizeof LENT / sizeof *LENT };

static struct trace before, ours, theirs;
static struct coverage coverage;

/* no word here is a row, and no entry a position */
static void preset(void) {
    for (size_t k = 0; k < sizeof before.words / sizeof *before.words; k++)
        before.words[k] = UINT64_C(0x9e3779b97f4a7c15) * (k + 1);
    for (size_t k = 0; k < sizeof before.list / sizeof *before.list; k++)
        before.list[k] = (uint16_t)(0xa500 + k);
}

static int same(const struct trace *x, const struct trace *y) {
    return memcmp(x->words, y->words, sizeof x->words) == 0 && memcmp(x->list, y->list, sizeof x->list) == 0;
}

static uint64_t ask_library(enum question q, const struct vector *v, size_t words, size_t entries) {
    ours = before;
    if (q == VERDICT)
        return lent_verdict(v->rec, v->len, ours.words, words);
    if (q == RACE)
        return lent_race(v->rec, v->len, ours.words, words);
    return lent_order(v->rec, v->len, ours.words, words, ours.list, entries);
}

static struct answer ask_oracle(enum question q, const struct vector *v, size_t words, size_t entries) {
    theirs = before;
    if (q == VERDICT)
        return oracle_verdict(v->rec, v->len, theirs.words, words);
    if (q == RACE)
        return oracle_race(v->rec, v->len, theirs.words, words);
    return oracle_order(v->rec, v->len, theirs.words, words, theirs.list, entries);
}

/* the words that a question wants of this record, and the entries of its order */
static size_t enough_words(enum question q, const struct vector *v) {
    unsigned executions = q == VERDICT && v->len > 8 && v->rec[8] < MOST_SECTIONS ? v->rec[8] : 0;
    return PART_WORDS * (executions + 1u);
}

static size_t enough_entries(const struct vector *v) {
    return v->len > HEADER_BYTES && v->rec[HEADER_BYTES] <= MOST_ACTIONS ? v->rec[HEADER_BYTES] : 0;
}

/* whether the library does as the oracle, with so much lent */
static int agrees(enum question q, const struct vector *v, size_t words, size_t entries) {
    uint64_t got = ask_library(q, v, words, entries);
    struct answer x = ask_oracle(q, v, words, entries);
    int refused = x.n >= 1 && x.n <= 8;
    cover(&coverage, q, x);
    if (got == packed(x) && same(&ours, &theirs) && (!refused || same(&ours, &before)))
        return 1;
    printf("%s with %zu words and %zu entries is %u %u %u %u, the library says %u %u %u %u; what they leave is %s\n", QUESTION[q],
           words, entries, x.n, x.s, x.a, x.b, JXE_N(got), JXE_S(got), JXE_A(got), JXE_B(got),
           same(&ours, &theirs) ? "the same" : "not the same");
    return 0;
}

static int holds(const struct vector *v, const char *where, unsigned long number) {
    int fine = 1;
    for (enum question q = VERDICT; q < QUESTIONS; q++)
        for (unsigned k = 0; k < (q == ORDER ? FOR_LIST : FOR_WORDS); k++) {
            size_t words = enough_words(q, v), entries = enough_entries(v);
            if (LENT[k].entries < 0 && entries == 0)
                continue;
            fine &= agrees(q, v, words + (size_t)LENT[k].words, entries + (size_t)LENT[k].entries);
        }
    if (!fine) {
        printf("%s %lu:\n", where, number);
        print_hex(stdout, v->rec, v->len);
    }
    return fine;
}

int main(int argc, char **argv) {
    if (argc < 2) {
        fprintf(stderr, "usage: lent VECTORS [COUNT [FIRST SEED]]\n");
        return 2;
    }
    unsigned long count = argc > 2 ? strtoul(argv[2], NULL, 0) : 20000, first = argc > 3 ? strtoul(argv[3], NULL, 0) : 1;
    preset();
    struct tally t = test_records(argv[1], count, first, holds);
    t.failed += print_coverage(&coverage, QUESTIONS, 1);
    return finish(t);
}
