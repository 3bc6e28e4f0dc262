/*
 * How much stack the host's calls take: stack [WINDOWS]
 *
 * Each call runs on a stack of its own that is painted before; what is no longer painted after it was used. The largest over
 * WINDOWS generated records (default 2000) and the windows of the benchmark is printed, with the words of the work area, which
 * are on that stack too, and without.
 */
#include "generate.h"
#include "jxe.h"
#include "oracle.h"

#include <stdio.h>
#include <stdlib.h>
#include <string.h>
#include <ucontext.h>

enum { ROOM = 1 << 20, PAINT = 0xa5, PART_BYTES = 2048, MOST_PARTS = 9 };

typedef uint64_t call(const uint8_t *rec, size_t len);

static unsigned char stack[ROOM];
static ucontext_t host, guest;
static call *asked;
static uint8_t rec[LONGEST_INPUT];
static size_t length;
static volatile uint64_t sum;

static void ask(void) { sum += asked(rec, length); }
static void ask_nothing(void) { sum += length; }

/* bytes of the stack that a run of `run` leaves no longer painted */
static size_t used_by(void (*run)(void)) {
    memset(stack, PAINT, sizeof stack);
    getcontext(&guest);
    guest.uc_stack.ss_sp = stack;
    guest.uc_stack.ss_size = sizeof stack;
    guest.uc_link = &host;
    makecontext(&guest, run, 0);
    swapcontext(&host, &guest);
    size_t clean = 0;
    while (clean < sizeof stack && stack[clean] == PAINT)
        clean++;
    return sizeof stack - clean;
}

static size_t most(call *which, size_t so_far) {
    asked = which;
    size_t used = used_by(ask) - used_by(ask_nothing);
    return used > so_far ? used : so_far;
}

int main(int argc, char **argv) {
    unsigned long windows = argc > 1 ? strtoul(argv[1], NULL, 0) : 2000;
    size_t verdict = 0, race = 0;
    for (unsigned long k = 1; k <= windows; k++) {
        length = k % 2 ? generate(k, rec) : generate_window(k, 128, 8 * (k / 2 % 2), rec);
        verdict = most(jxe_verdict, verdict);
        race = most(jxe_race, race);
    }
    printf("jxe_verdict %zu bytes of stack, %zu without the words of the work area\n", verdict, verdict - MOST_PARTS * PART_BYTES);
    printf("jxe_race    %zu bytes of stack, %zu without the words of the work area\n", race, race - PART_BYTES);
    return 0;
}
