/*
 * The bench host: asks the library both questions on each record file named, and prints the answers unpacked, a line for
 * each: verdict N S A B, race N S A B.
 */
#include "jxe.h"

#include <stdint.h>
#include <stdio.h>
#include <stdlib.h>

static void print_answer(const char *question, uint64_t x) {
    printf("%s %u %u %u %u\n", question, JXE_N(x), JXE_S(x), JXE_A(x), JXE_B(x));
}

/* the whole file in memory of its own, or NULL */
static uint8_t *load(const char *name, size_t *len) {
    FILE *file = fopen(name, "rb");
    size_t room = 4096, got;
    uint8_t *bytes = file ? malloc(room) : NULL;
    *len = 0;
    while (bytes && (got = fread(bytes + *len, 1, room - *len, file)) > 0) {
        *len += got;
        if (*len == room) {
            uint8_t *larger = realloc(bytes, room *= 2);
            if (!larger)
                free(bytes);
            bytes = larger;
        }
    }
    if (file) {
        if (ferror(file)) {
            free(bytes);
            bytes = NULL;
        }
        fclose(file);
    }
    return bytes;
}

int main(int argc, char **argv) {
    int failed = argc < 2;
    if (failed)
        fprintf(stderr, "usage: host FILE...\n");
    for (int k = 1; k < argc; k++) {
        size_t len;
        uint8_t *rec = load(argv[k], &len);
        if (!rec) {
            perror(argv[k]);
            failed = 1;
            continue;
        }
        print_answer("verdict", jxe_verdict(rec, len));
        print_answer("race", jxe_race(rec, len));
        free(rec);
    }
    return failed;
}
