#include "vectors.h"

#include <string.h>

static int digit(int c) {
    if (c >= '0' && c <= '9')
        return c - '0';
    if (c >= 'a' && c <= 'f')
        return c - 'a' + 10;
    return -1;
}

static int scan_answer(FILE *file, const char *question, struct answer *x) {
    char word[16];
    return fscanf(file, " | %15s %u %u %u %u", word, &x->n, &x->s, &x->a, &x->b) == 5 && strcmp(word, question) == 0;
}

int next_vector(FILE *file, struct vector *v) {
    int c, d;
    v->len = 0;
    while ((c = fgetc(file)) == '\n')
        ;
    if (c == EOF)
        return 0;
    for (; (d = digit(c)) >= 0; c = fgetc(file)) {
        int e = digit(fgetc(file));
        if (e < 0 || v->len == sizeof v->rec)
            return -1;
        v->rec[v->len++] = (uint8_t)(16 * d + e);
    }
    if (!scan_answer(file, "verdict", &v->verdict) || !scan_answer(file, "race", &v->race) ||
        !scan_answer(file, "order", &v->order))
        return -1;
    v->count = 0;
    if (v->order.n == 0) {
        if (fscanf(file, "%u", &v->count) != 1 || v->count > MOST_ACTIONS)
            return -1;
        for (unsigned k = 0; k < v->count; k++)
            if (fscanf(file, "%hu", &v->list[k]) != 1)
                return -1;
    }
    while ((c = fgetc(file)) == ' ')
        ;
    return c == '\n' || c == EOF ? 1 : -1;
}

void print_hex(FILE *file, const uint8_t *rec, size_t len) {
    for (size_t k = 0; k < len; k++)
        fprintf(file, "%02x", rec[k]);
    fputc('\n', file);
}
