/*
 * Counters of the other width: with MIX_OLD, MIX_NEW or MIX_CHANGE defined a call of the old width, one of the new, or the
 * change-over is given them. The compiler warns of each.
 */
#include "throttle.h"

static uint64_t setting[THROTTLE_SETTING_WORDS], head[THROTTLE_HEAD_CELLS], ticks[8];
static uint16_t seeds[THROTTLE_SEEDS], narrow[2048];
static uint32_t wide[2048], rows[8], threads[3];

#ifdef MIX_OLD
#define OLD_COUNTERS wide
#else
#define OLD_COUNTERS narrow
#endif
#ifdef MIX_NEW
#define NEW_COUNTERS narrow
#else
#define NEW_COUNTERS wide
#endif
#ifdef MIX_CHANGE
#define CHANGED wide, 2048, narrow, 2048
#else
#define CHANGED narrow, 2048, wide, 2048
#endif
#define BEFORE setting, seeds, THROTTLE_SEEDS, head
#define BEHIND ticks, 8, rows, 8, threads, 3

uint32_t call_all(void);

uint32_t call_all(void)
{
    return throttle_setup(BEFORE, OLD_COUNTERS, 2048, BEHIND) + throttle_wide_setup(BEFORE, NEW_COUNTERS, 2048, BEHIND) +
           throttle_change_over(BEFORE, CHANGED, BEHIND);
}
