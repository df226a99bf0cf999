/*
 * The throttle at the new width: the calls of throttle.h with filter counters
 * of 32 bits, for a threshold N of up to 2^20 and a history of up to 32,768
 * places; and the change-over, which takes a saved state of the old width over.
 * throttle.h includes this file, and both are in libthrottle.a.
 *
 * Which width to choose. A chip with a low limit L needs a long delay tD, and
 * with it a long history: H = 4 x ceil(tD / tFAW), throttle_history_cells.
 *   old  where N is at most THROTTLE_MOST_N and H at most
 *        THROTTLE_MOST_HISTORY_CELLS. The counters take half the memory, and the
 *        log checker takes the setting.
 *   new  where N or H is above that. The log checker refuses such a setting, with
 *        1 for N and with 4 for H.
 * Refusal 7 looks at all H places in every call but set-up, so that a call takes
 * the longer the longer the history is, at either width (docs/performance.md).
 *
 * What is the same at both widths: the setting and its ten words, the seeds,
 * head, ticks, rows and threads with their cells, the number of counters and the
 * place of each, out, the answers, and the refusals with their order. What
 * differs: the counters are uint32_t, refusal 1 allows N up to 2^20, and refusal
 * 4 allows H up to 32,768. All that throttle.h says of its calls holds for these.
 *
 * A state is of one width: its counters are either 16 or 32 bits wide, and no
 * call can tell which. Every call on it has to be of that width.
 */
#ifndef THROTTLE_WIDE_H
#define THROTTLE_WIDE_H

#include "throttle.h"

#ifdef __cplusplus
extern "C" {
#endif

/*
 * The greatest N, and the most cells of ticks and of rows, that an accepted
 * setting has at the new width. The counters are 32,768 at most and the cells of
 * threads 1,536, as at the old one.
 */
enum {
    THROTTLE_WIDE_MOST_N = 1048576,
    THROTTLE_WIDE_MOST_HISTORY_CELLS = 32768
};

/* Set-up, as throttle_setup. */
THROTTLE_CHECKED
uint32_t throttle_wide_setup(const uint64_t setting[THROTTLE_LEAST THROTTLE_SETTING_WORDS],
                             const uint16_t *seeds, size_t seeds_len,
                             uint64_t head[THROTTLE_LEAST THROTTLE_HEAD_CELLS],
                             uint32_t *counters, size_t counters_len,
                             uint64_t *ticks, size_t ticks_len, uint32_t *rows, size_t rows_len,
                             uint32_t *threads, size_t threads_len);

/* Asks to activate a row at a tick, as throttle_request. */
THROTTLE_CHECKED
uint32_t throttle_wide_request(const uint64_t setting[THROTTLE_LEAST THROTTLE_SETTING_WORDS],
                               const uint16_t *seeds, size_t seeds_len,
                               uint64_t head[THROTTLE_LEAST THROTTLE_HEAD_CELLS],
                               uint32_t *counters, size_t counters_len,
                               uint64_t *ticks, size_t ticks_len, uint32_t *rows, size_t rows_len,
                               uint32_t *threads, size_t threads_len,
                               uint64_t tick, uint64_t bank, uint64_t thread, uint16_t row,
                               uint64_t out[THROTTLE_LEAST THROTTLE_REQUEST_OUT]);

/* Reports an activation as finished, as throttle_done. */
THROTTLE_CHECKED
uint32_t throttle_wide_done(const uint64_t setting[THROTTLE_LEAST THROTTLE_SETTING_WORDS],
                            const uint16_t *seeds, size_t seeds_len,
                            uint64_t head[THROTTLE_LEAST THROTTLE_HEAD_CELLS],
                            uint32_t *counters, size_t counters_len,
                            uint64_t *ticks, size_t ticks_len, uint32_t *rows, size_t rows_len,
                            uint32_t *threads, size_t threads_len,
                            uint64_t tick, uint64_t bank, uint64_t thread);

/* Reads a thread's index in a bank, as throttle_index. */
THROTTLE_CHECKED
uint32_t throttle_wide_index(const uint64_t setting[THROTTLE_LEAST THROTTLE_SETTING_WORDS],
                             const uint16_t *seeds, size_t seeds_len,
                             uint64_t head[THROTTLE_LEAST THROTTLE_HEAD_CELLS],
                             uint32_t *counters, size_t counters_len,
                             uint64_t *ticks, size_t ticks_len, uint32_t *rows, size_t rows_len,
                             uint32_t *threads, size_t threads_len,
                             uint64_t tick, uint64_t bank, uint64_t thread,
                             uint64_t out[THROTTLE_LEAST THROTTLE_INDEX_OUT]);

/*
 * The change-over: takes a state of the old width over to the new one. The used
 * part of counters becomes old_counters, cell by cell and as numbers; nothing
 * else changes, and the clock does not move. After it the calls of the new width
 * on head, counters, ticks, rows and threads answer every later call as those of
 * the old width would have answered it. That holds for every contents which
 * refusal 7 lets pass, also where the state did not come from set-up.
 *
 * The refusals are, in this order, 1 to 5 and 16, then 6, then 7. 1 and 4 are at
 * the old limits: the setting is the one that the state was set up with, and it
 * does not change with the width. A larger N or a longer history needs a set-up.
 * 6 is of every buffer, the old and the new counters among them. A refused
 * change-over changes nothing, and the state of the old width goes on.
 *
 * The limit L holds over calls of the old width, a change-over that is answered
 * and calls of the new width after it, from set-up on, with one setting and the
 * same seeds. After it make no more calls of the old width on this memory. Both
 * widths share head, ticks, rows and threads: to go on at both, copy them first.
 * counters and old_counters are separate memory, as all buffers are.
 *
 * With a state of the old width in memory, or read from a file (for a whole
 * program see examples/change_over.c):
 *
 *   static uint32_t counters[THROTTLE_MOST_COUNTER_CELLS];
 *   uint32_t code = throttle_change_over(setting, seeds, THROTTLE_SEEDS, head,
 *                                        old_counters, old_counters_len,
 *                                        counters, THROTTLE_MOST_COUNTER_CELLS,
 *                                        ticks, ticks_len, rows, rows_len,
 *                                        threads, threads_len);
 *   if (code != THROTTLE_ANSWERED)
 *       return code;
 *   code = throttle_wide_request(setting, seeds, THROTTLE_SEEDS, head,
 *                                counters, THROTTLE_MOST_COUNTER_CELLS,
 *                                ticks, ticks_len, rows, rows_len,
 *                                threads, threads_len, tick, bank, thread, row, out);
 */
THROTTLE_CHECKED
uint32_t throttle_change_over(const uint64_t setting[THROTTLE_LEAST THROTTLE_SETTING_WORDS],
                              const uint16_t *seeds, size_t seeds_len,
                              const uint64_t head[THROTTLE_LEAST THROTTLE_HEAD_CELLS],
                              const uint16_t *old_counters, size_t old_counters_len,
                              uint32_t *counters, size_t counters_len,
                              const uint64_t *ticks, size_t ticks_len,
                              const uint32_t *rows, size_t rows_len,
                              const uint32_t *threads, size_t threads_len);

#ifdef __cplusplus
}
#endif

#endif
