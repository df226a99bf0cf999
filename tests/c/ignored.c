/*
 * A call whose result is not looked at: the one that is named by IGNORE_NAME,
 * as IGNORE_throttle_setup. With warnings as errors it must not compile, and
 * with no such name it must.
 */
#include "throttle.h"
#include "throttle_cut_down.h"
#include "throttle_log.h"
#include "throttle_plan.h"
#include "throttle_probes.h"

static uint64_t setting[THROTTLE_SETTING_WORDS], head[THROTTLE_HEAD_CELLS], ticks[8];
static uint64_t out[THROTTLE_REQUEST_OUT], index_out[THROTTLE_INDEX_OUT];
static uint64_t delays[THROTTLE_DELAYS_OUT], bound[THROTTLE_SPAN_OUT], fit[THROTTLE_PROBES_OUT];
static uint64_t cut[THROTTLE_CUT_OUT];
static uint16_t seeds[THROTTLE_SEEDS], counters[2048], row;
static uint32_t rows[8], threads[3], wide_counters[2048];
static uint8_t block[THROTTLE_LOG_BLOCK];

#define STATE setting, seeds, THROTTLE_SEEDS, head, counters, 2048, ticks, 8, rows, 8, threads, 3
#define WIDE_STATE setting, seeds, THROTTLE_SEEDS, head, wide_counters, 2048, ticks, 8, rows, 8, threads, 3
#define OLD_STATE \
    setting, seeds, THROTTLE_SEEDS, head, counters, 2048, wide_counters, 2048, ticks, 8, rows, 8, threads, 3

#define RECORDS ticks, 8, rows, 8, 8

/* Calls of the old width. */
static void old_width(void)
{
#ifdef IGNORE_throttle_setup
    throttle_setup(STATE);
#endif
#ifdef IGNORE_throttle_request
    throttle_request(STATE, 0, 0, 0, 5, out);
#endif
#ifdef IGNORE_throttle_done
    throttle_done(STATE, 0, 0, 0);
#endif
#ifdef IGNORE_throttle_index
    throttle_index(STATE, 0, 0, 0, index_out);
#endif
}

/* Calls of the new width, and the change-over. */
static void new_width(void)
{
#ifdef IGNORE_throttle_wide_setup
    throttle_wide_setup(WIDE_STATE);
#endif
#ifdef IGNORE_throttle_wide_request
    throttle_wide_request(WIDE_STATE, 0, 0, 0, 5, out);
#endif
#ifdef IGNORE_throttle_wide_done
    throttle_wide_done(WIDE_STATE, 0, 0, 0);
#endif
#ifdef IGNORE_throttle_wide_index
    throttle_wide_index(WIDE_STATE, 0, 0, 0, index_out);
#endif
#ifdef IGNORE_throttle_change_over
    throttle_change_over(OLD_STATE);
#endif
}

/* A row's test, the log writer, the planner, the probes and the cut-down log. */
static void beside_state(void)
{
#ifdef IGNORE_throttle_row
    throttle_row(70000, &row);
#endif
#ifdef IGNORE_throttle_log_start
    throttle_log_start(setting, seeds, THROTTLE_SEEDS, block);
#endif
#ifdef IGNORE_throttle_log_record
    throttle_log_record(block, 0, 0, 0, 5, 0, 0, 0, 0);
#endif
#ifdef IGNORE_throttle_log_seal
    throttle_log_seal(block, 1, 1);
#endif
#ifdef IGNORE_throttle_delays
    throttle_delays(setting, delays);
#endif
#ifdef IGNORE_throttle_wide_delays
    throttle_wide_delays(setting, delays);
#endif
#ifdef IGNORE_throttle_span_bound
    throttle_span_bound(setting, 40, bound);
#endif
#ifdef IGNORE_throttle_fit_probes
    throttle_fit_probes(RECORDS, RECORDS, 0, fit);
#endif
#ifdef IGNORE_throttle_cut_down
    throttle_cut_down(block, THROTTLE_LOG_BLOCK, cut);
#endif
}

int main(void)
{
    throttle_house_seeds(seeds);
    old_width();
    new_width();
    beside_state();
    return throttle_setup(STATE) + throttle_request(STATE, 0, 0, 0, 5, out) + throttle_row(5, &row) +
           throttle_index(STATE, 0, 0, 0, index_out) + throttle_delays(setting, delays) +
           throttle_wide_delays(setting, delays) + throttle_log_seal(block, 1, 1) + throttle_change_over(OLD_STATE) +
           throttle_wide_setup(WIDE_STATE) + throttle_span_bound(setting, 40, bound) +
           throttle_fit_probes(RECORDS, RECORDS, 0, fit) + throttle_cut_down(block, THROTTLE_LOG_BLOCK, cut) > 0;
}
