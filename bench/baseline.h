/*
 * The baseline of the benchmark: the four calls of throttle.h in plain C.
 *
 * baseline.c names its functions PREFIX_setup, PREFIX_request, PREFIX_done and
 * PREFIX_index, with the PREFIX given to the compiler as -DBASE_PREFIX=PREFIX
 * (base if none is given). So one program can hold several builds of it, each
 * declared by BASE_DECLARE(PREFIX). With -DBASE_PREFIX=throttle it stands in
 * for the library. With -DBASE_COMPARES it has the other form of the test of the
 * history, see baseline_history.h. With -DBASE_WIDE it is of the new width, with
 * the calls of throttle_wide.h; all parts of a program have the same width.
 */
#ifndef BASELINE_H
#define BASELINE_H

#include "throttle.h"

#include <stddef.h>
#include <stdint.h>

/* the filter counters, and the greatest N and H that go with their width */
#ifdef BASE_WIDE
typedef uint32_t base_counter;
enum { BASE_MOST_N = THROTTLE_WIDE_MOST_N, BASE_MOST_HISTORY = THROTTLE_WIDE_MOST_HISTORY_CELLS };
#else
typedef uint16_t base_counter;
enum { BASE_MOST_N = THROTTLE_MOST_N, BASE_MOST_HISTORY = THROTTLE_MOST_HISTORY_CELLS };
#endif

/* setting, seeds, head and the four buffers, which every call takes first */
#define BASE_STATE                                                                          \
    const uint64_t setting[THROTTLE_LEAST THROTTLE_SETTING_WORDS], const uint16_t *seeds,   \
        size_t seeds_len, uint64_t head[THROTTLE_LEAST THROTTLE_HEAD_CELLS],                \
        base_counter *counters, size_t counters_len, uint64_t *ticks, size_t ticks_len,     \
        uint32_t *rows, size_t rows_len, uint32_t *threads, size_t threads_len

/* the same, handed on to another function */
#define BASE_GIVEN                                                                             \
    setting, seeds, seeds_len, head, counters, counters_len, ticks, ticks_len, rows, rows_len, \
        threads, threads_len

/* the name of a function; a prefix that is itself a macro is replaced first */
#define BASE_JOIN(prefix, call) prefix##_##call
#define BASE_NAME(prefix, call) BASE_JOIN(prefix, call)

#define BASE_DECLARE(prefix)                                                                   \
    uint32_t BASE_NAME(prefix, setup)(BASE_STATE);                                             \
    uint32_t BASE_NAME(prefix, request)(BASE_STATE, uint64_t tick, uint64_t bank,              \
                                        uint64_t thread, uint16_t row,                         \
                                        uint64_t out[THROTTLE_LEAST THROTTLE_REQUEST_OUT]);    \
    uint32_t BASE_NAME(prefix, done)(BASE_STATE, uint64_t tick, uint64_t bank,                 \
                                     uint64_t thread);                                         \
    uint32_t BASE_NAME(prefix, index)(BASE_STATE, uint64_t tick, uint64_t bank,                \
                                      uint64_t thread,                                         \
                                      uint64_t out[THROTTLE_LEAST THROTTLE_INDEX_OUT])

/* history_alone.c: the test of the history, and a loop that only reads the cells */
#define BASE_DECLARE_HISTORY(prefix)                                                         \
    int BASE_NAME(prefix, history)(const uint64_t *ticks, size_t h, size_t place,            \
                                   uint64_t last);                                           \
    int BASE_NAME(prefix, read)(const uint64_t *ticks, size_t h, size_t place, uint64_t last)

/* hash_alone.c: the places of all rows of a list, each row's four in one word, exclusive-or-ed */
#define BASE_DECLARE_HASH(prefix)                                                            \
    uint64_t BASE_NAME(prefix, hash)(const uint16_t seeds[THROTTLE_LEAST THROTTLE_SEEDS],    \
                                     const uint16_t *rows, size_t n)

#endif
