/*
 * throttle_fit_probes in plain C, in place of the archive: for each offset d, from
 * the least on, all pairs are looked at. The variable FAULT of the environment
 * names a fault that is planted in it; without one it is right. tests/probes/run
 * sees that each fault is noticed. If there is a variable VERDICT, its three
 * numbers are what the call returns and writes, whatever the lists.
 */
#include "throttle_probes.h"

#include <inttypes.h>
#include <stdio.h>

/* The faults, by name. tests/probes/verdicts.py takes them from here. */
#define FAULTS(X)                                                                            \
    X(bank_ignored) X(row_ignored) X(low_byte_of_row) X(first_minus_second) X(of_32_bits)    \
    X(without_sign) X(last_pair_left_out) X(length_ignored) X(longer_second_fits)            \
    X(empty_first_fits) X(first_row_left_out) X(jitter_one_more) X(strict_above)             \
    X(strict_below) X(first_tick_left_out) X(from_999) X(from_1001) X(greatest)              \
    X(to_1001) X(to_999) X(empty_lists_fit_with_0) X(empty_lists_do_not_fit)

#include "../planted.h"

struct side {
    const uint64_t *ticks;
    const uint32_t *rows;
    uint64_t count;
};

static int has_bad_tick(const struct side *s)
{
    for (uint64_t i = 0; i < s->count; i++)
        if (s->ticks[i] >> 62 != 0)
            return 1;
    return 0;
}

/* What of a row is compared. */
static uint32_t seen(uint32_t row)
{
    if (is_planted(bank_ignored))
        return row & 65535;
    if (is_planted(row_ignored))
        return row >> 16;
    if (is_planted(low_byte_of_row))
        return row & 0xffff00ff;
    return row;
}

static int64_t difference(const struct side *a, const struct side *b, uint64_t i)
{
    int64_t d = (int64_t)b->ticks[i] - (int64_t)a->ticks[i];
    if (is_planted(first_minus_second))
        return -d;
    if (is_planted(of_32_bits))
        return (int32_t)(uint32_t)(uint64_t)d;
    if (is_planted(without_sign))
        return d < 0 ? -d : d;
    return d;
}

static uint64_t pairs(const struct side *a, const struct side *b)
{
    uint64_t n = a->count < b->count ? a->count : b->count;
    if (is_planted(last_pair_left_out) && n > 1)
        return n - 1;
    return n;
}

static int are_alike(const struct side *a, const struct side *b)
{
    if (a->count != b->count && !is_planted(length_ignored) &&
        !(is_planted(longer_second_fits) && a->count < b->count) &&
        !(is_planted(empty_first_fits) && a->count == 0))
        return 0;
    for (uint64_t i = is_planted(first_row_left_out); i < pairs(a, b); i++)
        if (seen(a->rows[i]) != seen(b->rows[i]))
            return 0;
    return 1;
}

static int fits(const struct side *a, const struct side *b, int64_t d, int64_t jitter)
{
    int64_t above = jitter + is_planted(jitter_one_more) - is_planted(strict_above);
    int64_t below = jitter + is_planted(jitter_one_more) - is_planted(strict_below);
    for (uint64_t i = is_planted(first_tick_left_out); i < pairs(a, b); i++)
        if (difference(a, b, i) > d + above || difference(a, b, i) < d - below)
            return 0;
    return 1;
}

/* The least d that fits, or 1 past the greatest one that is tried. */
static int64_t least_offset(const struct side *a, const struct side *b, int64_t jitter, int64_t last)
{
    int64_t d = -1000 + is_planted(from_999) - is_planted(from_1001);
    while (d <= last && !fits(a, b, d, jitter))
        d++;
    while (is_planted(greatest) && d < last && fits(a, b, d + 1, jitter))
        d++;
    return d;
}

uint32_t throttle_fit_probes(const uint64_t *first_ticks, size_t first_ticks_len,
                             const uint32_t *first_rows, size_t first_rows_len,
                             uint64_t first_count,
                             const uint64_t *second_ticks, size_t second_ticks_len,
                             const uint32_t *second_rows, size_t second_rows_len,
                             uint64_t second_count, uint64_t jitter,
                             uint64_t out[THROTTLE_LEAST THROTTLE_PROBES_OUT])
{
    struct side a = {first_ticks, first_rows, first_count};
    struct side b = {second_ticks, second_rows, second_count};
    const char *verdict = getenv("VERDICT");
    uint32_t code;
    if (verdict != NULL && sscanf(verdict, "%" SCNu32 "%" SCNu64 "%" SCNu64, &code, &out[0], &out[1]) == 3)
        return code;
    plant();
    int64_t last = 1000 + is_planted(to_1001) - is_planted(to_999);
    if (first_count > first_ticks_len || first_count > first_rows_len ||
        second_count > second_ticks_len || second_count > second_rows_len)
        return 6;
    if (jitter > 1000 || has_bad_tick(&a) || has_bad_tick(&b))
        return 18;
    int64_t d = are_alike(&a, &b) ? least_offset(&a, &b, (int64_t)jitter, last) : last + 1;
    if (a.count + b.count == 0 && is_planted(empty_lists_fit_with_0))
        d = 0;
    if (a.count + b.count == 0 && is_planted(empty_lists_do_not_fit))
        d = last + 1;
    out[0] = d <= last;
    out[1] = d <= last ? (uint64_t)d : 0;
    return 0;
}
