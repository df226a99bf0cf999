/*
 * The baseline's estimate of a row in a filter, and what an activation adds to
 * the filter's counters.
 */
#ifndef BASELINE_FILTER_H
#define BASELINE_FILTER_H

#include "baseline.h"

/* The least of the row's four counters in a filter. */
static uint32_t estimate(const base_counter *filter, const uint16_t places[4])
{
    base_counter least = filter[places[0]];
    for (size_t k = 1; k < 4; k++)
        if (filter[places[k]] < least)
            least = filter[places[k]];
    return least;
}

static inline uint32_t lesser(uint32_t a, uint32_t b)
{
    return a < b ? a : b;
}

/*
 * Adds 1 to each distinct counter of the row below n: all are read before one is
 * written. Returns the least of them afterwards.
 */
static inline uint32_t count_row(base_counter *filter, const uint16_t places[4], uint32_t n)
{
    uint32_t a = filter[places[0]], b = filter[places[1]];
    uint32_t c = filter[places[2]], d = filter[places[3]];
    a += a < n;
    b += b < n;
    c += c < n;
    d += d < n;
    filter[places[0]] = (base_counter)a;
    filter[places[1]] = (base_counter)b;
    filter[places[2]] = (base_counter)c;
    filter[places[3]] = (base_counter)d;
    return lesser(lesser(a, b), lesser(c, d));
}

#endif
