/* Document 01 read word for word, with no thought of speed: what the oracle's shortcuts are held against. */
#ifndef DULQIMES_PLAIN_H
#define DULQIMES_PLAIN_H

#include "oracle.h"

struct answer plain_verdict(const uint8_t *rec, size_t len, uint64_t *words, size_t nwords);
struct answer plain_race(const uint8_t *rec, size_t len, uint64_t *words, size_t nwords);
struct answer plain_order(const uint8_t *rec, size_t len, uint64_t *words, size_t nwords, uint16_t *list, size_t nlist);

#endif
