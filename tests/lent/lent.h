/* The calls of liblent.a, which ./staticlib makes beside libjmm.a: the three questions, where the caller lends the words
 * and the list. Answers are as in jxe.h. */
#ifndef DULQIMES_LENT_H
#define DULQIMES_LENT_H

#include <stddef.h>
#include <stdint.h>

uint64_t lent_verdict(const uint8_t *record, size_t length, uint64_t *work, size_t words);
uint64_t lent_race(const uint8_t *record, size_t length, uint64_t *work, size_t words);
uint64_t lent_order(const uint8_t *record, size_t length, uint64_t *work, size_t words, uint16_t *list, size_t entries);

#endif
