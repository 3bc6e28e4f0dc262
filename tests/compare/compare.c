/*
 * The library against right answers: compare VECTORS [COUNT [FIRST SEED]]
 *
 * Asks jxe_verdict and jxe_race on all vectors, and on COUNT generated records (default 20000). Every number that a host can
 * get must be reached. A difference is printed with the record in hex. The last line is `N passed, M failed`.
 */
#include "coverage.h"
#include "jxe.h"
#include "records.h"

#include <stdlib.h>

static struct coverage coverage;

/* whether the library gives this answer; says so where it doesn't */
static int gives(enum question q, const struct vector *v, struct answer x, const char *where, unsigned long number) {
    uint64_t got = q == VERDICT ? jxe_verdict(v->rec, v->len) : jxe_race(v->rec, v->len);
    cover(&coverage, q, x);
    if (got == packed(x))
        return 1;
    printf("%s %lu: %s is %u %u %u %u, the library says %u %u %u %u (%#llx)\n", where, number, QUESTION[q], x.n, x.s, x.a,
           x.b, JXE_N(got), JXE_S(got), JXE_A(got), JXE_B(got), (unsigned long long)got);
    print_hex(stdout, v->rec, v->len);
    return 0;
}

static int holds(const struct vector *v, const char *where, unsigned long number) {
    return gives(VERDICT, v, v->verdict, where, number) & gives(RACE, v, v->race, where, number);
}

int main(int argc, char **argv) {
    if (argc < 2) {
        fprintf(stderr, "usage: compare VECTORS [COUNT [FIRST SEED]]\n");
        return 2;
    }
    unsigned long count = argc > 2 ? strtoul(argv[2], NULL, 0) : 20000, first = argc > 3 ? strtoul(argv[3], NULL, 0) : 1;
    struct tally t = test_records(argv[1], count, first, holds);
    t.failed += print_coverage(&coverage, ORDER, 0);
    return finish(t);
}
