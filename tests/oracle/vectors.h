/*
 * The file of right answers, a record to a line:
 *     hex record | verdict N S A B | race N S A B | order N S A B [count positions...]
 */
#ifndef DULQIMES_VECTORS_H
#define DULQIMES_VECTORS_H

#include "oracle.h"

#include <stdio.h>

enum { LONGEST_INPUT = LONGEST_RECORD + 1500 };         /* of any record that the tests look at */

struct vector {
    uint8_t rec[LONGEST_INPUT];
    size_t len;
    struct answer verdict, race, order;
    unsigned count;                     /* of the list, after order's 0 */
    uint16_t list[MOST_ACTIONS];
};

/* 1 for a vector, 0 at the end of the file, -1 for a line that isn't one */
int next_vector(FILE *file, struct vector *v);

/* writes a record as hex, with a line end */
void print_hex(FILE *file, const uint8_t *rec, size_t len);

#endif
