/*
 * The oracle's own check, without the library: selfcheck VECTORS [COUNT [FIRST SEED]]
 *
 * The answers of the oracle and of the plain reading on all vectors; then, on COUNT generated records (default 20000),
 * oracle and plain reading against each other: answers, all words and the list, with work areas and lists lent in all
 * sizes. Every number of every question must be reached. The last line is `N passed, M failed`.
 */
#include "coverage.h"
#include "generate.h"
#include "plain.h"
#include "vectors.h"

#include <stdlib.h>
#include <string.h>
#include <time.h>

enum { ROOM = MOST_WORDS + 8, LIST_ROOM = MOST_ACTIONS + 8 };

/* what a question leaves behind */
struct trace {
    struct answer answer;
    uint64_t words[ROOM];
    uint16_t list[LIST_ROOM];
};

typedef struct answer asker(const uint8_t *, size_t, uint64_t *, size_t);
typedef struct answer lister(const uint8_t *, size_t, uint64_t *, size_t, uint16_t *, size_t);

struct checker {
    asker *verdict, *race;
    lister *order;
};
static const struct checker ORACLE = {oracle_verdict, oracle_race, oracle_order};
static const struct checker PLAIN = {plain_verdict, plain_race, plain_order};

static void ask(const struct checker *c, enum question q, const uint8_t *rec, size_t len, size_t nwords, size_t nlist,
                struct trace *t) {
    memset(t->words, 0xa5, sizeof t->words);
    memset(t->list, 0xa5, sizeof t->list);
    if (q == ORDER)
        t->answer = c->order(rec, len, t->words, nwords, t->list, nlist);
    else
        t->answer = (q == VERDICT ? c->verdict : c->race)(rec, len, t->words, nwords);
}

static struct trace ours, theirs;

static int vector_holds(const struct checker *c, const struct vector *v, unsigned line, const char *name) {
    const struct answer wanted[QUESTIONS] = {v->verdict, v->race, v->order};
    int fine = 1;
    for (enum question q = VERDICT; q < QUESTIONS; q++) {
        ask(c, q, v->rec, v->len, MOST_WORDS, MOST_ACTIONS, &ours);
        struct answer x = ours.answer;
        int same = same_answer(x, wanted[q]);
        if (same && q == ORDER && x.n == 0)
            same = memcmp(ours.list, v->list, sizeof *v->list * v->count) == 0;
        if (!same) {
            printf("vector %u: %s says %s %u %u %u %u\n", line, name, QUESTION[q], x.n, x.s, x.a, x.b);
            fine = 0;
        }
    }
    return fine;
}

/* Cases 1 and 6 as far as words go, on record M, the first vector: its rows, and 255 words, which are too few. */
static int first_vector_holds(const struct checker *c, const struct vector *v) {
    static const uint64_t rows[8] = {14, 0, 12, 0, 8, 0, 0, 0};
    ask(c, VERDICT, v->rec, v->len, PART_WORDS, 0, &ours);
    int fine = ours.answer.n == 10 && memcmp(ours.words, rows, sizeof rows) == 0;
    ask(c, VERDICT, v->rec, v->len, PART_WORDS - 1, 0, &ours);
    fine &= same_answer(ours.answer, (struct answer){4, 0, NO_POSITION, NO_POSITION});
    if (!fine)
        printf("cases 1 and 6 do not hold\n");
    return fine;
}

/* a size near one of those that matter */
static size_t some_size(struct chance *g, size_t enough, size_t most) {
    switch (below(g, 8)) {
    case 0:
        return enough > 0 ? enough - 1 : 0;
    case 1:
        return below(g, (unsigned)enough + 1);
    case 2:
        return enough;
    case 3:
        return enough < most ? enough + 1 : most;
    default:
        return most;
    }
}

int main(int argc, char **argv) {
    static struct vector v;
    static uint8_t rec[LONGEST_INPUT];
    static struct coverage coverage;
    unsigned long passed = 0, failed = 0, count = argc > 2 ? strtoul(argv[2], NULL, 0) : 20000;
    uint64_t first = argc > 3 ? strtoull(argv[3], NULL, 0) : 1;
    unsigned line = 0;
    int more;
    FILE *file = argc > 1 ? fopen(argv[1], "r") : NULL;
    if (!file) {
        fprintf(stderr, "usage: selfcheck VECTORS [COUNT [FIRST SEED]]\n");
        return 2;
    }
    while ((more = next_vector(file, &v)) == 1) {
        line++;
        if (line == 1) {
            int fine = first_vector_holds(&ORACLE, &v) & first_vector_holds(&PLAIN, &v);
            passed += (unsigned)fine;
            failed += (unsigned)!fine;
        }
        if (vector_holds(&ORACLE, &v, line, "the oracle") & vector_holds(&PLAIN, &v, line, "the plain reading"))
            passed++;
        else
            failed++;
    }
    fclose(file);
    if (more != 0) {
        printf("%s: line %u is not a vector\n", argv[1], line + 1);
        failed++;
    }
    printf("%u vectors read\n", line);

    size_t bytes = 0, longest = 0;
    clock_t spent = 0;
    for (uint64_t seed = first; seed < first + count; seed++) {
        clock_t from = clock();
        size_t len = generate(seed, rec);
        spent += clock() - from;
        struct chance g = chance_from(~seed);
        int fine = 1;
        bytes += len;
        longest = len > longest ? len : longest;
        for (enum question q = VERDICT; q < QUESTIONS; q++) {
            size_t parts = q == VERDICT && len > 8 && rec[8] <= 8 ? rec[8] + 1u : 1;
            size_t nwords = some_size(&g, PART_WORDS * parts, MOST_WORDS);
            size_t nlist = some_size(&g, len > 17 ? rec[17] : 0, MOST_ACTIONS);
            ask(&ORACLE, q, rec, len, nwords, nlist, &ours);
            ask(&PLAIN, q, rec, len, nwords, nlist, &theirs);
            cover(&coverage, q, ours.answer);
            if (!same_answer(ours.answer, theirs.answer) || memcmp(ours.words, theirs.words, sizeof ours.words) != 0 ||
                memcmp(ours.list, theirs.list, sizeof ours.list) != 0) {
                struct answer x = ours.answer, y = theirs.answer;
                printf("seed %llu, %zu words, list of %zu: %s: oracle %u %u %u %u, plain reading %u %u %u %u\n",
                       (unsigned long long)seed, nwords, nlist, QUESTION[q], x.n, x.s, x.a, x.b, y.n, y.s, y.a, y.b);
                print_hex(stdout, rec, len);
                fine = 0;
            }
        }
        passed += (unsigned)fine;
        failed += (unsigned)!fine;
    }
    if (count > 0) {
        failed += print_coverage(&coverage, QUESTIONS, 1);
        printf("%lu records generated, %zu bytes on average, the longest %zu, %.0f a second\n", count, bytes / count, longest,
               spent ? (double)count * CLOCKS_PER_SEC / (double)spent : 0.0);
    }
    printf("%lu passed, %lu failed\n", passed, failed);
    return failed != 0;
}
