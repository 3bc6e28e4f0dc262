/* The host's two calls on a record of Dulqimes, and how to read their answer.
 *
 * Link with libjmm.a, which ./staticlib makes in target/staticlib. The library keeps nothing between calls, writes
 * nothing but its own stack (30 KB for jxe_verdict, 11 KB for jxe_race, as bench/stack measured with the Rattle before
 * this one) and accepts any bytes of any length.
 *
 * An answer is N + 2^8 S + 2^16 A + 2^32 B: a number, a section and two positions. S is 0 where no section is
 * named, A and B are JXE_NONE where no position is.
 *
 *   N        in words
 *   0        nothing broken: justified (jxe_verdict), no race (jxe_race)
 *   10       well-formed, and there is no committing sequence to judge (jxe_verdict)
 *   1 .. 7   refused: mark or length, version, header, -, section length, a field, a repeated identifier
 *   11, 12   the order rules     13  the monitor rule     14  the thread rules
 *   15, 16   the seen-write rules     17, 18  the consistency rules
 *   21 .. 29 the rules of the committing sequence, of execution S (jxe_verdict)
 *   31       the actions A and B race (jxe_race)
 */
#ifndef JXE_H
#define JXE_H

#include <stddef.h>
#include <stdint.h>

#define JXE_NONE 65535u

#define JXE_N(answer) ((unsigned)((answer) & 0xff))
#define JXE_S(answer) ((unsigned)((answer) >> 8 & 0xff))
#define JXE_A(answer) ((unsigned)((answer) >> 16 & 0xffff))
#define JXE_B(answer) ((unsigned)((answer) >> 32 & 0xffff))

#ifdef __cplusplus
extern "C" {
#endif

/* Is the execution well-formed, and does the committing sequence in the record justify it? */
uint64_t jxe_verdict(const uint8_t *record, size_t length);

/* Does the execution have a data race? */
uint64_t jxe_race(const uint8_t *record, size_t length);

#ifdef __cplusplus
}
#endif

#endif
