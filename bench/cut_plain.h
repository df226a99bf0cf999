/*
 * throttle_cut_down in plain C, cut_plain.c, is named PREFIX_cut_down, see
 * baseline.h for the PREFIX. So one program can hold several builds of it, each
 * declared by CUT_DECLARE(PREFIX). With -DBASE_PREFIX=throttle it stands in for
 * the library. PREFIX_cut_work tells of the last call how many selections it ran
 * and how many records it judged in all.
 */
#ifndef CUT_PLAIN_H
#define CUT_PLAIN_H

#include "baseline.h"
#include "throttle_cut_down.h"

struct cut_work {
    uint64_t runs, records;
};

#define CUT_DECLARE(prefix)                                                              \
    uint32_t BASE_NAME(prefix, cut_down)(const uint8_t *log, size_t log_len,             \
                                         uint64_t out[THROTTLE_LEAST THROTTLE_CUT_OUT]); \
    struct cut_work BASE_NAME(prefix, cut_work)(void)

#endif
