/*
 * throttle_fit_probes in plain C, probes_plain.c, is named PREFIX_fit_probes, see
 * baseline.h for the PREFIX. So one program can hold several builds of it, each
 * declared by PLAIN_DECLARE(PREFIX). With -DBASE_PREFIX=throttle it stands in for
 * the library.
 */
#ifndef PROBES_PLAIN_H
#define PROBES_PLAIN_H

#include "baseline.h"
#include "throttle_probes.h"

#define PLAIN_DECLARE(prefix)                                                          \
    uint32_t BASE_NAME(prefix, fit_probes)(                                            \
        const uint64_t *first_ticks, size_t first_ticks_len, const uint32_t *first_rows, \
        size_t first_rows_len, uint64_t first_count, const uint64_t *second_ticks,     \
        size_t second_ticks_len, const uint32_t *second_rows, size_t second_rows_len,  \
        uint64_t second_count, uint64_t jitter,                                        \
        uint64_t out[THROTTLE_LEAST THROTTLE_PROBES_OUT])

#endif
