/*
 * The baseline of the benchmark of throttle_fit_probes: the same call in plain C,
 * with the same refusals. One pass over the pairs without a branch that depends on
 * what they hold, then one over the records without a partner, whose ticks are
 * looked at too.
 */
#include "probes_plain.h"

PLAIN_DECLARE(BASE_PREFIX);

PLAIN_DECLARE(BASE_PREFIX)
{
    if (first_count > first_ticks_len || first_count > first_rows_len ||
        second_count > second_ticks_len || second_count > second_rows_len)
        return THROTTLE_SHORT_BUFFER;
    if (jitter > THROTTLE_PROBES_MOST_JITTER)
        return THROTTLE_BAD_PROBES;
    uint64_t pairs = first_count < second_count ? first_count : second_count;
    uint64_t ticks = 0;
    uint32_t unlike = 0;
    int64_t least = INT64_MAX, greatest = INT64_MIN;
    for (uint64_t i = 0; i < pairs; i++) {
        int64_t difference = (int64_t)(second_ticks[i] - first_ticks[i]);
        ticks |= first_ticks[i] | second_ticks[i];
        unlike |= first_rows[i] ^ second_rows[i];
        least = difference < least ? difference : least;
        greatest = difference > greatest ? difference : greatest;
    }
    for (uint64_t i = pairs; i < first_count; i++)
        ticks |= first_ticks[i];
    for (uint64_t i = pairs; i < second_count; i++)
        ticks |= second_ticks[i];
    if (ticks >> 62 != 0)
        return THROTTLE_BAD_PROBES;
    out[0] = out[1] = 0;
    if (first_count != second_count || unlike != 0)
        return 0;
    int64_t d = -1000;
    if (pairs > 0 && greatest - (int64_t)jitter > d)
        d = greatest - (int64_t)jitter;
    if (d <= 1000 && (pairs == 0 || d <= least + (int64_t)jitter)) {
        out[0] = 1;
        out[1] = (uint64_t)d;
    }
    return 0;
}
