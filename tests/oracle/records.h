/* The records that the tools go through: the vectors, then records made by chance, for which the oracle knows the answers. */
#ifndef DULQIMES_RECORDS_H
#define DULQIMES_RECORDS_H

#include "vectors.h"

struct tally {
    unsigned long passed, failed;
};

/* Whether all is right with a record, found at `where` under `number`; says so where it isn't. */
typedef int test(const struct vector *v, const char *where, unsigned long number);

/* Tests every vector of the file, and `count` generated records from the seed `first` on. A line that is no vector fails. */
struct tally test_records(const char *vectors, unsigned long count, unsigned long first, test *holds);

/* the last line of a tool, and the status that it ends with */
int finish(struct tally t);

#endif
