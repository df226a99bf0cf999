/*
 * For the lab: two probes recorded the activations of one channel, and their
 * clocks differ by an unknown constant. One call says whether the two lists fit
 * and by how many ticks the clocks differ. Link with libprobes.a (x86-64), alone
 * or beside the other archives; it needs nothing beyond the C library. The call
 * works on memory of the caller and keeps nothing.
 */
#ifndef THROTTLE_PROBES_H
#define THROTTLE_PROBES_H

#include "throttle.h"

#include <stddef.h>
#include <stdint.h>

#ifdef __cplusplus
extern "C" {
#endif

enum {
    THROTTLE_PROBES_OUT = 2,            /* words of out */
    THROTTLE_PROBES_MOST_JITTER = 1000, /* ticks */
    THROTTLE_BAD_PROBES = 18            /* the refusal 18 below; 6 is THROTTLE_SHORT_BUFFER */
};

/*
 * A row as the lists have it: bank * 65,536 + row. C cuts wider numbers to their
 * lowest 16 bits before the call; -Wconversion finds them.
 */
static inline uint32_t throttle_probes_row(uint16_t bank, uint16_t row)
{
    return (uint32_t)bank * 65536u + row;
}

/*
 * Record i of a list, in recorded order, is the tick ticks[i] and the row
 * rows[i]; a list has count records, and what lies behind them plays no part.
 * A row may be any 32 bits.
 *
 * An offset d, from -1,000 to 1,000, fits if the lists are of equal length and
 * each pair of records has the same bank and row and
 *   d - jitter <= second tick - first tick <= d + jitter
 *
 * Returns 0 and writes both words of out: 1 and the least d that fits, as a
 * 64-bit two's complement number (throttle_probes_offset reads it); or 0 and 0
 * where none does. Two empty lists fit with -1,000.
 *
 * Otherwise out is left as it was, and the number of a refusal is returned:
 *    6  a count above the length of its ticks or of its rows
 *   18  a jitter above 1,000, or a tick of 2^62 or more among the records of
 *       either list, one without a partner too
 *
 * It reads no record more than once. No pointer is null, also where its length
 * is 0, and each is aligned for its cells. out does not overlap a list.
 */
THROTTLE_CHECKED
uint32_t throttle_fit_probes(const uint64_t *first_ticks, size_t first_ticks_len,
                             const uint32_t *first_rows, size_t first_rows_len,
                             uint64_t first_count,
                             const uint64_t *second_ticks, size_t second_ticks_len,
                             const uint32_t *second_rows, size_t second_rows_len,
                             uint64_t second_count, uint64_t jitter,
                             uint64_t out[THROTTLE_LEAST THROTTLE_PROBES_OUT]);

/* The offset d that throttle_fit_probes wrote to out, as a signed number; 0 where out[0] is 0. */
static inline int64_t throttle_probes_offset(const uint64_t out[THROTTLE_LEAST THROTTLE_PROBES_OUT])
{
    return out[1] >> 63 ? -(int64_t)(UINT64_MAX - out[1]) - 1 : (int64_t)out[1];
}

#ifdef __cplusplus
}
#endif

#endif
