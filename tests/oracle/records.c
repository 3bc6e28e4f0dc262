#include "records.h"

#include "generate.h"
#include "oracle.h"

#include <stdlib.h>

static void add(struct tally *t, int fine) {
    t->passed += (unsigned)fine;
    t->failed += (unsigned)!fine;
}

/* the answers to the record, as a vector has them */
static void answer_all(struct vector *v) {
    static uint64_t words[MOST_WORDS];
    v->verdict = oracle_verdict(v->rec, v->len, words, MOST_WORDS);
    v->race = oracle_race(v->rec, v->len, words, MOST_WORDS);
    v->order = oracle_order(v->rec, v->len, words, MOST_WORDS, v->list, MOST_ACTIONS);
    v->count = v->order.n == 0 ? v->rec[HEADER_BYTES] : 0;
}

struct tally test_records(const char *vectors, unsigned long count, unsigned long first, test *holds) {
    static struct vector v;
    struct tally t = {0, 0};
    unsigned long line = 0;
    int more;
    FILE *file = fopen(vectors, "r");
    if (!file) {
        perror(vectors);
        exit(2);
    }
    setvbuf(stdout, NULL, _IOLBF, BUFSIZ);
    while ((more = next_vector(file, &v)) == 1)
        add(&t, holds(&v, "vector", ++line));
    fclose(file);
    if (more != 0) {
        printf("%s: line %lu is not a vector\n", vectors, line + 1);
        t.failed++;
    }
    for (unsigned long seed = first; seed < first + count; seed++) {
        v.len = generate(seed, v.rec);
        answer_all(&v);
        add(&t, holds(&v, "seed", seed));
    }
    printf("%lu vectors, %lu generated records\n", line, count);
    return t;
}

int finish(struct tally t) {
    printf("%lu passed, %lu failed\n", t.passed, t.failed);
    return t.failed != 0;
}
