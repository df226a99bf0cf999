/*
 * The baseline's test of the history by itself, and a loop that only reads the
 * same cells, an even number of them. Compiled like baseline.c, once for each
 * processor and form; see baseline.h for the names.
 */
#include "baseline.h"
#include "baseline_history.h"

BASE_DECLARE_HISTORY(BASE_PREFIX);

int BASE_NAME(BASE_PREFIX, history)(const uint64_t *ticks, size_t h, size_t place, uint64_t last)
{
    return history_unsound(ticks, h, place, last);
}

int BASE_NAME(BASE_PREFIX, read)(const uint64_t *ticks, size_t h, size_t place, uint64_t last)
{
    const uint64_t *half = ticks + h / 2;
    uint64_t bits = place | last;
#pragma GCC unroll 4
    for (size_t i = 0; i < h / 2; i++)
        bits |= ticks[i] | half[i];
    return bits >> 63 != 0;
}
