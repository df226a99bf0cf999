/*
 * For those who have to show where a log goes wrong: from a short log that
 * differs, one call selects records that still differ, such that each of them
 * is needed. Link with libcut_down.a (x86-64), alone or beside the other
 * archives; it needs nothing beyond the C library. The call keeps nothing.
 * docs/log-format.md describes logs; throttle_log.h writes them.
 */
#ifndef THROTTLE_CUT_DOWN_H
#define THROTTLE_CUT_DOWN_H

#include "throttle.h"

#include <stddef.h>
#include <stdint.h>

#ifdef __cplusplus
extern "C" {
#endif

enum {
    THROTTLE_CUT_OUT = 1,            /* words of out */
    THROTTLE_CUT_RECORDS = 64,       /* the most records of a log that is cut down */
    THROTTLE_CUT_STACK = 160 * 1024, /* bytes of stack for a call */
    THROTTLE_MANY_RECORDS = 20,      /* the refusals 20 and 21 below */
    THROTTLE_NO_DIFFERENCE = 21
};

/*
 * The log is log_len bytes, blocks of 512. Its records are numbered from 0 over
 * all blocks. A selection of them, in their order, is run from a new set-up
 * under the log's setting up to its first event: a record that is refused (8, 9
 * or 10), or one whose answer or wait tick is not that of the rules. It differs
 * if it has an event and that is no refusal, and not if it agrees or a refusal
 * comes first.
 *
 * The call begins with all records and tries to leave out each record of the
 * selection, from first to last; a record stays out if the others still differ.
 * It repeats such passes until one leaves out none. What remains differs, and
 * does not without any single one of its records; a smaller selection that
 * differs may exist.
 *
 * Returns 0 and writes out[0], in which bit i is set exactly if record i stays.
 * It is never 0. throttle_cut_keeps reads it.
 *
 * Otherwise out is left as it was, and the number of a refusal is returned. All
 * blocks are tested in order, those after the differing record too, and the
 * first refusal is given:
 *   11  log_len is 0, or the log ends within this block
 *   12  a sum of this block is wrong
 *   13  this block is against the log format
 *   1 to 5, 16  the setting of block 0 is refused, at the limits of the calls
 *       with 16-bit counters; before any later block is looked at
 *   20  all blocks are sound, and there are more than 64 records
 *   21  the records do not differ: they agree, there are none, or a refusal is
 *       their first event
 *
 * The log is only read. The state that the selections are run on is on the
 * stack, 118 KiB of it. With all else that the call takes there this is below
 * THROTTLE_CUT_STACK, 160 KiB: a thread needs a stack of that size for the call,
 * beside what its own functions take. The call runs the log once and then,
 * since each pass but the last leaves out a record, at most 64 + 63 + .. + 1 =
 * 2,080 selections of it. No pointer is null, also where log_len is 0, and out
 * is aligned and does not overlap the log.
 */
THROTTLE_CHECKED
uint32_t throttle_cut_down(const uint8_t *log, size_t log_len,
                           uint64_t out[THROTTLE_LEAST THROTTLE_CUT_OUT]);

/* 1 if record i stays by the word that throttle_cut_down wrote, else 0; 0 for 64 and more. */
static inline int throttle_cut_keeps(uint64_t mask, unsigned i)
{
    return i < THROTTLE_CUT_RECORDS && (mask >> i & 1) != 0;
}

#ifdef __cplusplus
}
#endif

#endif
