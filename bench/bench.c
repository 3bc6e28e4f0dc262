/*
 * The library beside the oracle, in one run: bench [RUNS]
 *
 * Windows of 24, 96 and 128 actions with K 0, 2 and 8, made from fixed seeds, that every rule is gone through for: verdict
 * answers 0 or 10 and race 0. A time is the processor's for one call, the least of RUNS short runs (default 60) over 16
 * windows, the two sides taking turns. Ratio: library / oracle. Growth: against the row of 24 actions with the same K.
 *
 * Buffers: the oracle's words are lent to it and not cleared between calls, since it fills each part anew; the library
 * has room for the words of its own and readies it in each call, which is part of its time.
 */
#define _POSIX_C_SOURCE 200809L

#include "generate.h"
#include "jxe.h"
#include "oracle.h"

#include <stdio.h>
#include <stdlib.h>
#include <time.h>

enum { WINDOWS = 16, COUNTS = 3, STEPS = 3, RUN_ACTIONS = 40000 };

static const unsigned COUNT[COUNTS] = {24, 96, 128}, EXECUTIONS[STEPS] = {0, 2, 8};

static uint8_t window[WINDOWS][LONGEST_INPUT];
static size_t length[WINDOWS];
static uint64_t words[MOST_WORDS];

typedef uint64_t call(const uint8_t *rec, size_t len);

static uint64_t packed(struct answer x) {
    return x.n + ((uint64_t)x.s << 8) + ((uint64_t)x.a << 16) + ((uint64_t)x.b << 32);
}
static uint64_t oracle_verdict_call(const uint8_t *rec, size_t len) {
    return packed(oracle_verdict(rec, len, words, MOST_WORDS));
}
static uint64_t oracle_race_call(const uint8_t *rec, size_t len) { return packed(oracle_race(rec, len, words, MOST_WORDS)); }

/* processor time, in nanoseconds: what else the machine does is left out */
static double now(void) {
    struct timespec t;
    clock_gettime(CLOCK_PROCESS_CPUTIME_ID, &t);
    return (double)t.tv_sec * 1e9 + (double)t.tv_nsec;
}

/* nanoseconds a call, over all windows; the answers are added up so that no call can be left out */
static double time_calls(call *ask, unsigned rounds, uint64_t *sum) {
    double from = now();
    for (unsigned k = 0; k < rounds; k++)
        for (unsigned w = 0; w < WINDOWS; w++)
            *sum += ask(window[w], length[w]);
    return (now() - from) / ((double)rounds * WINDOWS);
}

static void make_windows(unsigned n, unsigned executions) {
    for (unsigned w = 0; w < WINDOWS; w++) {
        length[w] = generate_window(1000 * n + 100 * executions + w, n, executions, window[w]);
        struct answer verdict = oracle_verdict(window[w], length[w], words, MOST_WORDS);
        struct answer race = oracle_race(window[w], length[w], words, MOST_WORDS);
        if (verdict.n != (executions ? 0 : 10) || race.n != 0) {
            printf("%u actions, K %u: not a window to go through: verdict %u, race %u\n", n, executions, verdict.n, race.n);
            exit(1);
        }
    }
}

int main(int argc, char **argv) {
    static const struct {
        const char *name;
        call *library, *oracle;
    } question[] = {{"verdict", jxe_verdict, oracle_verdict_call}, {"race", jxe_race, oracle_race_call}};
    unsigned runs = argc > 1 ? (unsigned)strtoul(argv[1], NULL, 0) : 60;
    double first[2][STEPS][2] = {{{0}}};
    printf("least of %u short runs, microseconds a call; the oracle's words are not cleared between calls,\n", runs);
    printf("the library readies its own in each call\n\n");
    printf("question  actions  K    bytes    library     oracle   ratio   growth: library  oracle\n");
    for (unsigned q = 0; q < 2; q++)
        for (unsigned k = 0; k < STEPS; k++)
            for (unsigned c = 0; c < COUNTS; c++) {
                double least[2] = {1e300, 1e300};
                uint64_t sum[2] = {0, 0};
                call *side[2] = {question[q].library, question[q].oracle};
                make_windows(COUNT[c], EXECUTIONS[k]);
                unsigned rounds = RUN_ACTIONS / (WINDOWS * COUNT[c] * (EXECUTIONS[k] + 1)) + 1;
                for (unsigned r = 0; r < runs; r++)
                    for (unsigned s = 0; s < 2; s++) {
                        double t = time_calls(side[s], rounds, &sum[s]);
                        least[s] = t < least[s] ? t : least[s];
                    }
                if (sum[0] != sum[1]) {
                    printf("the answers differ\n");
                    return 1;
                }
                if (c == 0)
                    for (unsigned s = 0; s < 2; s++)
                        first[q][k][s] = least[s];
                printf("%-8s  %7u  %u  %7zu  %9.2f  %9.2f  %6.2f  %16.2f  %6.2f\n", question[q].name, COUNT[c], EXECUTIONS[k],
                       length[0], least[0] / 1e3, least[1] / 1e3, least[0] / least[1], least[0] / first[q][k][0],
                       least[1] / first[q][k][1]);
            }
    return 0;
}
